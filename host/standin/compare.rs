//! The verdict on two lists in the program's place.

use std::fs::File;
use std::io::Read;

/// One byte more than the longest list.
const READ: u64 = 65_537;

fn main() {
    let files: Vec<String> = std::env::args().skip(1).collect();
    print!("{}", text(&files).unwrap_or_else(|line| line + "\n"));
}

fn text(files: &[String]) -> Result<String, String> {
    match files {
        [first, second] => {
            let first = read(first).ok_or("refused first file")?;
            let second = read(second).ok_or("refused second file")?;
            Ok(judge::compare_text(&first, &second))
        }
        _ => Err("usage: compare FIRST SECOND".to_string()),
    }
}

/// None if the file cannot be opened or read.
fn read(file: &str) -> Option<Vec<u8>> {
    let mut bytes = Vec::new();
    File::open(file).ok()?.take(READ).read_to_end(&mut bytes).ok()?;
    Some(bytes)
}
