//! The program as the second program has it: an image on standard input, entries and tally on standard output.

use std::io;

fn main() -> io::Result<()> {
    second::run(io::stdin(), io::stdout())
}
