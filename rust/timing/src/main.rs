//! The desk's quick pass and its plain one against three in Rust: the same images, all optimised, in one run.
//!
//! It prints the tables of docs/PERFORMANCE.md, nanoseconds a record, the best of many rounds; then what a single question
//! costs. It fails where an engine in Rust takes less than half as many times the quick pass's time as its goal says; for
//! the tables: less than half of it; or where a reading takes more than twice as long as it should.

mod editions;
mod images;
mod plain;
mod reads;
mod tables;

use desk::ffi::{Code, PassAnswer};
use editions::{Edition, Eighteen, Pass, Ten};
use images::Damage;
use std::process::ExitCode;
use std::time::Instant;

/// Rounds, in each of which every pass goes over all images; the slow ones take part in each fourth.
const ROUNDS: usize = 60;

/// What is timed: the archive's two passes, then columns, row masks and tables in Rust.
struct Passes<C>([(Pass<C>, usize); 5]);

impl<C> Passes<C> {
    fn of<E: Edition<Code = C>>(tabled: Pass<C>) -> Self {
        Passes([(E::QUICK, 1), (E::PLAIN, 4), (plain::columns::<E>, 4), (plain::masks::<E>, 2), (tabled, 1)])
    }
}

type Times = [f64; 5];

/// The answer, the image and the journal after a pass over the whole image, and its time in nanoseconds.
fn timed<E: Edition>(pass: Pass<E::Code>, code: &E::Code, image: &[u8]) -> ((PassAnswer, Vec<u8>, Vec<u8>), f64) {
    let records = image.len() / E::RECORD;
    let (mut image, mut journal) = (image.to_vec(), vec![0; E::ENTRY * records]);
    let begin = Instant::now();
    let answer = pass(code, &mut image, 0, records, &mut journal, 0, 0);
    let elapsed = begin.elapsed();
    ((answer, image, journal), elapsed.as_nanos() as f64)
}

/// Nanoseconds a record of each pass: of each image the best of the rounds, lest a pause count.
fn times<E: Edition>(passes: &Passes<E::Code>, code: &E::Code, images: &[Vec<u8>]) -> Times {
    let (quick, _) = passes.0[0];
    let expected: Vec<_> = images.iter().map(|image| timed::<E>(quick, code, image).0).collect();
    assert!(expected.iter().all(|(answer, ..)| answer.number == 0));
    let mut best = vec![[f64::INFINITY; 5]; images.len()];
    for round in 0..ROUNDS {
        for (at, &(pass, _)) in passes.0.iter().enumerate().filter(|(_, &(_, every))| round % every == 0) {
            for ((image, expected), best) in images.iter().zip(&expected).zip(&mut best) {
                let (found, time) = timed::<E>(pass, code, image);
                assert!(found == *expected, "the passes agree on every byte");
                best[at] = best[at].min(time);
            }
        }
    }
    let records = images.iter().map(|image| image.len() / E::RECORD).sum::<usize>();
    std::array::from_fn(|at| best.iter().map(|best| best[at]).sum::<f64>() / records as f64)
}

fn row(name: &str, times: Times) -> Times {
    let [quick, plain, columns, masks, tables] = times;
    let ratios = (plain / quick, columns / quick, masks / quick, tables / quick);
    print!("| {} | {:.2} | {:.1} | {:.1} | {:.1} | {:.2} ", name, quick, plain, columns, masks, tables);
    println!("| {:.2} | {:.1} | {:.1} | {:.2} |", ratios.0, ratios.1, ratios.2, ratios.3);
    times
}

fn head(first: &str) {
    println!("| {} | quick | plain | columns | row masks | tables | plain / quick | columns / quick | masks / quick | tables / quick |", first);
    println!("|---|---|---|---|---|---|---|---|---|---|");
}

/// What Rust's columns, row masks and tables should take at least, in times of the quick pass: by damage, then for runs of 1
/// and of 10 records.
struct Goals([[f64; 5]; 3]);

const NARROW: Goals = Goals([[100.0, 80.0, 25.0, 2.5, 9.0], [6.0, 6.0, 3.0, 3.0, 3.5], [0.75, 0.8, 0.8, 0.9, 0.9]]);
const WIDE: Goals = Goals([[70.0, 60.0, 22.0, 2.5, 7.0], [5.0, 5.0, 3.0, 3.0, 3.5], [0.75, 0.8, 0.75, 0.9, 0.9]]);

impl Goals {
    /// A line for each engine: what should be, and in brackets what is. Whether columns and row masks reach half of it, and
    /// tables take half of the quick pass's time.
    fn held(&self, times: &[Times; 5]) -> bool {
        println!("\nThe goals, and in brackets what is reached:\n");
        println!("| | clean | one in ten | all damaged | run of 1 | run of 10 |\n|---|---|---|---|---|---|");
        let mut halves = true;
        for (engine, goals) in self.0.iter().enumerate() {
            let name = ["columns", "row masks", "tables"][engine];
            print!("| {} |", name);
            for (goal, times) in goals.iter().zip(times) {
                let ratio = times[engine + 2] / times[0];
                print!(" {} ({:.*}) |", goal, usize::from(ratio < 100.0) + usize::from(ratio < 10.0), ratio);
                halves &= ratio >= if engine == 2 { 0.5 } else { goal / 2.0 };
            }
            println!();
        }
        halves
    }
}

/// From so many records on each further one should take the same.
const STEADY: usize = 300;

/// What each further record takes from one length of those timed to the next: what a pass takes once is not in it.
fn further(lengths: &[usize], times: &[Times]) {
    let steady = lengths.iter().position(|&length| length >= STEADY).unwrap_or(lengths.len());
    let steps = (steady..lengths.len()).skip(1);
    if steps.len() == 0 {
        return;
    }
    println!("\nEach further record, from one length to the next:\n");
    println!("| Records | quick | plain | columns | row masks | tables |\n|---|---|---|---|---|---|");
    for to in steps {
        let (few, many) = (lengths[to - 1] as f64, lengths[to] as f64);
        print!("| {} to {} |", lengths[to - 1], lengths[to]);
        for (short, long) in times[to - 1].iter().zip(times[to]) {
            print!(" {:.2} |", (long * many - short * few) / (many - few));
        }
        println!();
    }
}

/// The tables of a code: by damage, and by the length of a run. The times by damage and those of 1 and 10 records.
fn tables<E: Edition>(passes: &Passes<E::Code>, code: &E::Code, lengths: &[usize]) -> [Times; 5] {
    let longest = E::IMAGE / E::RECORD;
    println!("{} records, by damage:\n", longest);
    head("Image");
    let by_damage = Damage::EACH
        .map(|damage| row(damage.name(), times::<E>(passes, code, &images::images::<E>(code, longest, damage))));
    println!("\nBy the length of the run, one in ten damaged:\n");
    head("Records");
    let by_length = |&records: &usize| {
        row(&records.to_string(), times::<E>(passes, code, &images::images::<E>(code, records, Damage::Tenth)))
    };
    let by_length: Vec<Times> = lengths.iter().map(by_length).collect();
    further(lengths, &by_length);
    let at = |records: usize| by_length[lengths.iter().position(|&length| length == records).expect("is timed")];
    [by_damage[0], by_damage[1], by_damage[2], at(1), at(10)]
}

/// Nanoseconds a record to load each of an image once and touch it: no pass can be faster.
fn floor<E: Edition>(image: &[u8]) -> f64 {
    let mut best = f64::INFINITY;
    for _ in 0..ROUNDS {
        let begin = Instant::now();
        let touched = image.chunks_exact(E::RECORD).fold(0, |marked, record| {
            let (data, check) = plain::words::<E>(record);
            marked + usize::from(data != E::Data::default() || check != 0)
        });
        best = best.min(begin.elapsed().as_nanos() as f64);
        assert!(touched <= image.len() / E::RECORD);
    }
    best * E::RECORD as f64 / image.len() as f64
}

/// An edition's tables, under its full code. Whether half of the goals are reached.
fn edition<E: Edition>(passes: &Passes<E::Code>, goals: &Goals) -> bool {
    println!("### {}\n", E::NAME);
    let times = tables::<E>(passes, &E::full(), &[1, 2, 4, 10, 100, 300, 1_000, 3_000]);
    let held = goals.held(&times);
    let clean = images::images::<E>(&E::full(), E::IMAGE / E::RECORD, Damage::None);
    println!("\nThe floor, each record loaded and touched once: {:.2} ns.\n", floor::<E>(&clean[0]));
    held
}

/// The sample code of document 01.
fn sample() -> Code {
    Code::new(&[28, 26, 25, 22, 21, 19, 14, 13], 5).expect("the sample is a code")
}

/// The processor's name, where Linux tells it.
fn processor() -> String {
    let told = std::fs::read_to_string("/proc/cpuinfo").unwrap_or_default();
    let model = told.lines().find_map(|line| line.strip_prefix("model name")?.split_once(": "));
    model.map_or("unknown", |(_, name)| name).to_string()
}

fn main() -> ExitCode {
    if std::env::var_os("DESK_EMULATED").is_some() {
        println!("The archive is for x86-64 and runs under an emulator here: this machine cannot tell how fast it is.");
        return ExitCode::SUCCESS;
    }
    println!("Processor: {}. Nanoseconds a record, the best of many rounds.\n", processor());
    let narrow = Passes::of::<Ten>(tables::tabled::<Ten, 8>);
    let wide = Passes::of::<Eighteen>(tables::tabled::<Eighteen, 16>);
    let held = [edition::<Ten>(&narrow, &NARROW), edition::<Eighteen>(&wide, &WIDE)];
    println!("### The sample code, 8 data bits, 5 check bits\n");
    tables::<Ten>(&narrow, &sample(), &[1, 4, 10, 100]);
    println!("\n### A single question, nanoseconds\n");
    let soon = reads::table();
    if held != [true; 2] {
        println!(
            "\nAn engine in Rust takes less than half as many times the quick pass's time as its goal says; for the tables: \
             less than half of it."
        );
    }
    if !soon {
        println!("\nA reading takes more than twice as long as it should.");
    }
    ExitCode::from(u8::from(held != [true; 2] || !soon))
}
