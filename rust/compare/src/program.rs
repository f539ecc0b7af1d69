//! The program `mend`: the script at the top of the repository, with the image on its standard input.

use std::io::Write;
use std::path::Path;
use std::process::{Command, Stdio};
use std::thread;

/// Where the script stands.
pub const SCRIPT: &str = concat!(env!("CARGO_MANIFEST_DIR"), "/../../mend");

pub fn is_there() -> bool {
    Path::new(SCRIPT).is_file()
}

/// What the program prints for this input.
pub fn mend(input: &[u8]) -> String {
    let mut command = Command::new(SCRIPT);
    let mut child = command.stdin(Stdio::piped()).stdout(Stdio::piped()).spawn().expect("./mend starts");
    let mut pipe = child.stdin.take().expect("standard input is a pipe");
    // Beside the reading: a program that prints as it goes would otherwise wait for a full pipe.
    let input = input.to_vec();
    let writer = thread::spawn(move || drop(pipe.write_all(&input)));
    let output = child.wait_with_output().expect("./mend ends");
    writer.join().expect("the input is written, or the program has ended");
    let mut text = String::from_utf8_lossy(&output.stdout).into_owned();
    if output.status.code().is_none() {
        text += "ended by a signal\n";
    }
    text
}
