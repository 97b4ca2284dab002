//! Debian's protoc, which writes and reads messages by the definitions beside
//! this file.

use std::process::Command;

use trial::printed;

const FOLDER: &str = "host/arbitration/peer";

/// The message that a text says, of a type in `FILE.proto`.
pub fn encode(file: &str, kind: &str, text: &str) -> Result<Vec<u8>, String> {
    printed(&mut protoc("encode", file, kind), text.as_bytes())
}

/// The text that says a message.
pub fn decode(file: &str, kind: &str, message: &[u8]) -> Result<String, String> {
    let text = printed(&mut protoc("decode", file, kind), message)?;
    String::from_utf8(text).map_err(|error| error.to_string())
}

fn protoc(act: &str, file: &str, kind: &str) -> Command {
    let mut command = Command::new("protoc");
    command.arg(format!("--proto_path={FOLDER}"));
    command.arg(format!("--{act}=hoefspanker.{kind}"));
    command.arg(format!("{FOLDER}/{file}.proto"));
    command
}
