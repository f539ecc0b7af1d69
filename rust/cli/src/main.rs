//! `desk`: the mending desk as a command, over the safe wrapper alone.
#![forbid(unsafe_code)]

mod answers;
mod args;
mod code_file;
mod files;
mod journal;
mod pass;
mod progress;
mod report;
mod words;

use answers::{wrapped, Answer, Said};
use args::{Command, Question};
use clap::Parser;
use std::io::{self, Write};
use std::process::exit;

fn main() {
    let command = Command::try_parse().unwrap_or_else(|error| {
        let _ = error.print();
        exit(if error.use_stderr() { 2 } else { 0 })
    });
    let answer = answer(&command.question, command.json);
    let (text, status) = match &answer {
        Ok(said) if command.json => (format!("{}\n", said.json), 0),
        Ok(said) => (said.text.clone(), 0),
        Err(no) if command.json => (format!("{}\n", no.json()), no.status()),
        Err(no) => (String::new(), no.status()),
    };
    for note in answer.as_ref().map(|said| said.notes.clone()).unwrap_or_default() {
        let _ = writeln!(io::stderr(), "{}", wrapped(&format!("desk: {}.", note)));
    }
    if let Err(no) = &answer {
        let _ = writeln!(io::stderr(), "{}", wrapped(&format!("desk: {}", no.sentence())));
    }
    let mut out = io::stdout();
    match out.write_all(text.as_bytes()).and_then(|()| out.flush()) {
        Err(error) if error.kind() != io::ErrorKind::BrokenPipe => {
            let _ = writeln!(io::stderr(), "desk: the answer cannot be printed: {}", error);
            exit(3)
        }
        _ => exit(status),
    }
}

fn answer(question: &Question, in_json: bool) -> Answer<Said> {
    match question {
        Question::Code(question) => words::code(question),
        Question::Word(question) => words::word(question),
        Question::Pass(asked) => pass::pass(asked, in_json),
        Question::Journal(asked) => journal::tell(&asked.journal, asked.edition.0, in_json),
        Question::PutBack(asked) => pass::put_back(asked),
        Question::Sheet(asked) => words::sheet(asked),
        Question::Bytes(question) => words::bytes(question),
        Question::Report(asked) => report::report(asked),
    }
}
