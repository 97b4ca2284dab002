//! The list that a text asks for, in the program's place.

mod answer;

fn main() -> std::io::Result<()> {
    answer::answer(writer::LONGEST_TEXT, writer::list_of)
}
