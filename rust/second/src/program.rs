//! The program: an image in, the entries and the tally out as text.
//!
//! It passes over the whole image at once, so that a program that goes run by run is compared with something else.

use crate::code::{Code, Coded};
use crate::pass::{pass, Pass};
use std::io::{self, Read, Write};

/// Source document 002, figure 2.
pub fn sample_code() -> Code {
    Code::of(&[28, 26, 25, 22, 21, 19, 14, 13], 5)
}

/// What the program prints for this input. Its one pass has the stamp 0 and a journal of which nothing is in use.
pub fn mend(input: &[u8]) -> String {
    let mut image = input.to_vec();
    let mut journal = vec![0; Code::IMAGE / Code::RECORD * Code::ENTRY];
    let records = image.len() / Code::RECORD;
    let passed = pass(&sample_code(), &mut image, &mut journal, &Pass { end: records, ..Pass::default() });
    if passed.number != 0 {
        return format!("refused {}\n", passed.number);
    }
    let mut text = String::new();
    for entry in journal.chunks(Code::ENTRY).take(passed.used) {
        let two_bytes = |at: usize| usize::from(entry[at]) + 256 * usize::from(entry[at + 1]);
        text += &format!("{} {} {} {}\n", two_bytes(4), entry[6], entry[7], two_bytes(8));
    }
    let names = ["clean", "data", "check", "even", "odd", "stray"];
    let counts: Vec<String> =
        names.iter().zip(passed.tally).map(|(name, count)| format!("{} {}", name, count)).collect();
    text + &counts.join(" ") + "\n"
}

/// The program itself, between two streams.
pub fn run(mut input: impl Read, mut output: impl Write) -> io::Result<()> {
    let mut image = Vec::new();
    input.read_to_end(&mut image)?;
    output.write_all(mend(&image).as_bytes())
}
