//! The reading of arbitration messages in the program's place.

use std::io::{stdin, Read, Result};

fn main() -> Result<()> {
    let mut message = Vec::new();
    stdin().take(reading::MOST_INPUT as u64 + 1).read_to_end(&mut message)?;
    print!("{}", reading::text_of(&message));
    if reading::looks_streamed(&message) {
        eprint!("{}", reading::LOOKS_STREAMED);
    }
    Ok(())
}
