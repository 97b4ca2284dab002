//! The text of a list, in the program's place.

mod answer;

fn main() -> std::io::Result<()> {
    answer::answer(65_536, writer::text_of)
}
