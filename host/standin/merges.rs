//! The doubts of a merged log in the program's place.

use std::fs::File;
use std::io::Read;

fn main() {
    let files: Vec<String> = std::env::args().skip(1).collect();
    match &files[..] {
        [file] => print!("{}", text(file)),
        _ => println!("usage: merges FILE"),
    }
}

fn text(file: &str) -> String {
    let mut bytes = Vec::new();
    let read = |file: File| file.take(judge::LONGEST_TEXT as u64 + 1).read_to_end(&mut bytes);
    match File::open(file).and_then(read) {
        Ok(_) => judge::merges_text(&bytes),
        Err(_) => "refused file\n".to_string(),
    }
}
