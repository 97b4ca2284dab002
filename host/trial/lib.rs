//! What every comparison with the library needs: its arguments, buffers to
//! lend, programs to run, a count of what it reached, and its end.

mod arguments;
mod comparison;
mod lent;
mod programs;
mod reached;
mod shrink;

pub use arguments::{run_with_arguments, Arguments};
pub use comparison::Comparison;
pub use lent::Lent;
pub use programs::{printed, ran};
pub use reached::Counts;
pub use shrink::shrunk;

use std::process::ExitCode;

/// The exit status of a test that ends at the first difference, which is printed.
pub fn ended(result: Result<(), String>) -> ExitCode {
    match result {
        Ok(()) => ExitCode::SUCCESS,
        Err(difference) => {
            println!("{}", difference.trim_end());
            ExitCode::from(1)
        }
    }
}

/// Hex text, 32 bytes a line.
pub fn hex(bytes: &[u8]) -> String {
    let line = |line: &[u8]| line.iter().map(|byte| format!("{byte:02X}")).collect::<Vec<_>>();
    bytes.chunks(32).map(|bytes| line(bytes).join(" ") + "\n").collect()
}
