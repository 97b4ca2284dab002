//! Programs that are fed by a test.

use std::io::Write;
use std::process::{Command, Output, Stdio};

/// What a command does with its input, which it gets in parts of `part` bytes; or a
/// word on why it did not end well.
pub fn ran(command: &mut Command, input: &[u8], part: usize) -> Result<Output, String> {
    let name = format!("{command:?}");
    let failed = |error: std::io::Error| format!("{name}: {error}");
    let pipes = command.stdin(Stdio::piped()).stdout(Stdio::piped()).stderr(Stdio::piped());
    let mut child = pipes.spawn().map_err(failed)?;
    let stdin = child.stdin.take();
    let output = std::thread::scope(|scope| {
        // A program may stop reading early; what it prints decides.
        scope.spawn(move || {
            stdin.map(|mut stdin| input.chunks(part).try_for_each(|part| stdin.write_all(part)))
        });
        child.wait_with_output()
    });
    let output = output.map_err(failed)?;
    if output.status.success() {
        Ok(output)
    } else {
        Err(format!("{name}: {}\n{}", output.status, String::from_utf8_lossy(&output.stderr)))
    }
}

/// What a command prints for its input.
pub fn printed(command: &mut Command, input: &[u8]) -> Result<Vec<u8>, String> {
    Ok(ran(command, input, input.len().max(1))?.stdout)
}
