//! The reading of captured frames in the program's place.

use std::io::{stdin, Read, Result};

fn main() -> Result<()> {
    let mut capture = Vec::new();
    stdin().read_to_end(&mut capture)?;
    print!("{}", reading::captured_text(&capture));
    Ok(())
}
