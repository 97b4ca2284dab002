//! The four messages, and what each field does to what was read before it.

use crate::wire::{field, Refusal, Value};

#[derive(Clone, Copy, PartialEq, Default, Debug)]
pub struct Arbitration {
    pub device_id: u64,
    pub role: Option<Role>,
    pub election_id: Option<ElectionId>,
    pub status: Option<Status>,
}

#[derive(Clone, Copy, PartialEq, Default, Debug)]
pub struct Role {
    pub id: u64,
}

#[derive(Clone, Copy, PartialEq, Default, Debug)]
pub struct ElectionId {
    pub high: u64,
    pub low: u64,
}

#[derive(Clone, Copy, PartialEq, Default, Debug)]
pub struct Status {
    pub code: i32,
}

/// A message that takes its fields in turn.
pub trait Merge {
    /// A field that is unknown, or has another wire type than its own, changes
    /// nothing.
    fn take(&mut self, field: u64, value: Value) -> Result<(), Refusal>;

    fn merge(&mut self, mut bytes: &[u8]) -> Result<(), Refusal> {
        while !bytes.is_empty() {
            let (number, value) = field(&mut bytes)?;
            self.take(number, value)?;
        }
        Ok(())
    }
}

impl Merge for Arbitration {
    fn take(&mut self, field: u64, value: Value) -> Result<(), Refusal> {
        match (field, value) {
            (1, Value::Number(id)) => self.device_id = id,
            (2, Value::Bytes(bytes)) => present(&mut self.role).merge(bytes)?,
            (3, Value::Bytes(bytes)) => present(&mut self.election_id).merge(bytes)?,
            (4, Value::Bytes(bytes)) => present(&mut self.status).merge(bytes)?,
            _ => (),
        }
        Ok(())
    }
}

impl Merge for Role {
    fn take(&mut self, field: u64, value: Value) -> Result<(), Refusal> {
        if let (1, Value::Number(id)) = (field, value) {
            self.id = id;
        }
        Ok(())
    }
}

impl Merge for ElectionId {
    fn take(&mut self, field: u64, value: Value) -> Result<(), Refusal> {
        match (field, value) {
            (1, Value::Number(high)) => self.high = high,
            (2, Value::Number(low)) => self.low = low,
            _ => (),
        }
        Ok(())
    }
}

impl Merge for Status {
    fn take(&mut self, field: u64, value: Value) -> Result<(), Refusal> {
        if let (1, Value::Number(code)) = (field, value) {
            self.code = code as i32;
        }
        Ok(())
    }
}

/// The embedded message read before, or an empty one.
fn present<M: Default>(message: &mut Option<M>) -> &mut M {
    message.get_or_insert_with(M::default)
}

impl Arbitration {
    /// The fields as the C call hands them out, least bytes first.
    pub fn to_bytes(self) -> [u8; crate::FIELDS_BYTES] {
        let ElectionId { high, low } = self.election_id.unwrap_or_default();
        let mut bytes = [0; crate::FIELDS_BYTES];
        bytes[0..8].copy_from_slice(&self.device_id.to_le_bytes());
        bytes[8..16].copy_from_slice(&self.role.unwrap_or_default().id.to_le_bytes());
        bytes[16..24].copy_from_slice(&high.to_le_bytes());
        bytes[24..32].copy_from_slice(&low.to_le_bytes());
        bytes[32..36].copy_from_slice(&self.status.unwrap_or_default().code.to_le_bytes());
        bytes[36] = u8::from(self.role.is_some());
        bytes[37] = u8::from(self.election_id.is_some());
        bytes[38] = u8::from(self.status.is_some());
        bytes
    }
}
