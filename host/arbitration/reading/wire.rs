//! The wire format: a message is its fields one after the other, each a tag and
//! a value.

#[derive(Clone, Copy, PartialEq, Eq, Debug)]
pub enum Refusal {
    /// The bytes end within a field, or a length goes past them.
    CutShort = 13,
    /// The tenth byte of a number is above 1.
    NumberTooLarge = 14,
    /// The wire type is not 0, 1, 2 or 5, or the field number not 1 to 2^29 - 1.
    BadTag = 15,
}

/// The value of a field by its wire type; of those that no known field has, only
/// that they are there.
#[derive(PartialEq, Debug)]
pub enum Value<'a> {
    Number(u64),
    EightBytes,
    Bytes(&'a [u8]),
    FourBytes,
}

const LAST_FIELD: u64 = (1 << 29) - 1;
/// The tenth byte of a number holds its last bit.
const LAST_SHIFT: u32 = 63;

/// Takes the first field off: its number and value. Reading takes half the time
/// with this as part of each message's loop.
#[inline(always)]
pub fn field<'a>(bytes: &mut &'a [u8]) -> Result<(u64, Value<'a>), Refusal> {
    let tag = number(bytes)?;
    let (field, wire_type) = (tag >> 3, tag & 7);
    if field == 0 || field > LAST_FIELD {
        return Err(Refusal::BadTag);
    }
    let value = match wire_type {
        0 => Value::Number(number(bytes)?),
        1 => take(bytes, 8).map(|_| Value::EightBytes)?,
        2 => {
            let len = number(bytes)?;
            Value::Bytes(take(bytes, len)?)
        }
        5 => take(bytes, 4).map(|_| Value::FourBytes)?,
        _ => return Err(Refusal::BadTag),
    };
    Ok((field, value))
}

/// Takes a number off: seven bits a byte, the lowest first; the last byte is
/// below 128. Most numbers have one byte.
#[inline(always)]
pub fn number(bytes: &mut &[u8]) -> Result<u64, Refusal> {
    if let [byte @ 0..=0x7F, rest @ ..] = *bytes {
        *bytes = rest;
        return Ok(u64::from(*byte));
    }
    long_number(bytes)
}

fn long_number(bytes: &mut &[u8]) -> Result<u64, Refusal> {
    let mut number = 0;
    let mut shift = 0;
    loop {
        let (&byte, rest) = bytes.split_first().ok_or(Refusal::CutShort)?;
        *bytes = rest;
        if shift == LAST_SHIFT && byte > 1 {
            return Err(Refusal::NumberTooLarge);
        }
        number |= u64::from(byte & 0x7F) << shift;
        if byte < 0x80 {
            return Ok(number);
        }
        shift += 7;
    }
}

/// Takes so many bytes off.
fn take<'a>(bytes: &mut &'a [u8], len: u64) -> Result<&'a [u8], Refusal> {
    if len > bytes.len() as u64 {
        return Err(Refusal::CutShort);
    }
    let (taken, rest) = bytes.split_at(len as usize);
    *bytes = rest;
    Ok(taken)
}
