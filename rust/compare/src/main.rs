//! The comparison: the same cases to the second program and to the linked desk, every number and every byte.
//!
//! `compare gate`: every question of the archive, by its own numbers and through the wrapper. Each refusal must be met at
//! least a hundred times in each family and each edition that has it: Hsiao's codes, wide ones, codes with a set of rows and
//! wide ones of those are counted apart, and so is each reason of refusal 20. What takes no code is counted with Hsiao's.
//! `compare mend`: the program, on whole images.
//! `--times N` goes over the gate's amounts N times, each from a seed of its own; `--seed S` names the first seed.

mod desks;
mod program;

use desks::{Archive, Wrapper};
use second::{compare, compare_narrow, compare_rows, compare_wide, Amounts, Desk, Difference, Line, Second};
use second::{reason_number, RowCode, WideRowCode};
use std::collections::BTreeMap;
use std::process;
use std::thread;
use std::time::Instant;

const USAGE: &str = "compare gate | mend  [--times N] [--seed S]";

/// How often the gate meets each refusal of a kind at least.
const OFTEN: usize = 100;

/// The refusals that the desk has: the numbers of docs/refusals.txt.
fn refusals() -> impl Iterator<Item = usize> {
    let first = |line: &str| line.split('|').next().and_then(|number| number.trim().parse().ok());
    include_str!("../../../docs/refusals.txt").lines().filter_map(first)
}

/// What is asked on the command line.
struct Asked {
    question: String,
    times: u64,
    seed: u64,
}

fn asked(mut words: impl Iterator<Item = String>) -> Option<Asked> {
    let mut asked = Asked { question: words.next()?, times: 1, seed: Amounts::GATE.seed };
    while let Some(flag) = words.next() {
        let number = words.next()?.parse().ok()?;
        match flag.as_str() {
            "--times" => asked.times = number,
            "--seed" => asked.seed = number,
            _ => return None,
        }
    }
    Some(asked)
}

/// How many cases agreed, how many did not, and how often each number was answered of each kind.
#[derive(Default)]
struct Counts {
    passed: usize,
    failed: usize,
    met: BTreeMap<(Kind, usize), usize>,
}

/// A family in an edition. What has no code is asked with Hsiao's, what has no edition either with the first.
#[derive(Clone, Copy, PartialEq, Eq, PartialOrd, Ord)]
enum Kind {
    Hsiao,
    WideHsiao,
    Rows,
    WideRows,
}

impl Kind {
    const EACH: [Kind; 4] = [Kind::Hsiao, Kind::WideHsiao, Kind::Rows, Kind::WideRows];

    fn name(self) -> &'static str {
        ["codes", "wide codes", "codes with a set of rows", "wide codes with a set of rows"][self as usize]
    }

    /// Whether questions of this kind are refused by this number.
    fn has(self, number: usize) -> bool {
        let has_rows = matches!(self, Kind::Rows | Kind::WideRows);
        match number {
            // The columns of Hsiao's codes, their maker, and the put-back.
            4..=6 | 15 | 18 => !has_rows,
            // The sheet.
            19 => self == Kind::Hsiao,
            20 => has_rows,
            _ => true,
        }
    }
}

impl Counts {
    /// Counts what the comparison of some desks gave, of which some questions may be left out.
    fn compared(&mut self, kind: Kind, lines: Compared, wanted: impl Fn(&str) -> bool) {
        match lines {
            Ok(lines) => {
                for line in lines.iter().filter(|line| wanted(line.question)) {
                    println!("{}", line);
                    self.passed += line.cases;
                    for (&number, &count) in &line.numbers {
                        *self.met.entry((kind, number)).or_insert(0) += count;
                    }
                }
            }
            Err(difference) => {
                println!("{}", difference);
                self.failed += 1;
            }
        }
    }

    /// Whether a number was met often enough.
    fn met_often(&mut self, kind: Kind, number: usize, name: &str) {
        let met = self.met.get(&(kind, number)).copied().unwrap_or(0);
        let often = if met < OFTEN { "seldom" } else { "often" };
        self.expect(&format!("{} of {} is met {} times", name, kind.name(), met), often, "often");
    }

    /// One printed case.
    fn expect(&mut self, name: &str, text: &str, expected: &str) {
        if text == expected {
            println!("ok   {}", name);
            self.passed += 1;
        } else {
            println!("FAIL {}: prints {:?}, expected {:?}", name, text, expected);
            self.failed += 1;
        }
    }
}

/// What the comparison of some desks gave.
type Compared = Result<Vec<Line>, Box<Difference>>;

/// A part of the gate's comparison, that of the second program, the archive and the wrapper.
struct Part {
    name: &'static str,
    kind: Kind,
    compared: fn(&Amounts) -> Compared,
}

/// Every question of the archive, in both editions and families. They are compared at the same time.
const PARTS: [Part; 5] = [
    Part { name: "the ten-byte edition", kind: Kind::Hsiao, compared: ten_bytes },
    Part { name: "the ten-byte edition, across", kind: Kind::Hsiao, compared: across },
    Part { name: "the wide edition", kind: Kind::WideHsiao, compared: wide },
    Part { name: "codes with a set of rows", kind: Kind::Rows, compared: rows },
    Part { name: "codes with a set of rows in the wide edition", kind: Kind::WideRows, compared: wide_rows },
];

fn ten_bytes(amounts: &Amounts) -> Compared {
    compare(&[&Second, &Archive, &Wrapper], amounts)
}

fn across(amounts: &Amounts) -> Compared {
    compare_narrow(&[&Second, &Archive, &Wrapper], amounts)
}

fn wide(amounts: &Amounts) -> Compared {
    compare_wide(&[&Second, &Archive, &Wrapper], amounts)
}

fn rows(amounts: &Amounts) -> Compared {
    let desks: [&dyn Desk; 2] = [&Archive, &Wrapper];
    compare_rows::<RowCode>(&[&Second, &Archive, &Wrapper], &[&Second, &desks[0], &desks[1]], amounts)
}

fn wide_rows(amounts: &Amounts) -> Compared {
    compare_rows::<WideRowCode>(&[&Second, &Archive, &Wrapper], &[&Second, &Archive, &Wrapper], amounts)
}

/// All parts, a thread for each; then how often each refusal was met.
fn gate(asked: &Asked, counts: &mut Counts) {
    for seed in asked.seed..asked.seed + asked.times {
        let amounts = &Amounts { seed, inputs: 0, ..Amounts::GATE };
        thread::scope(|scope| {
            let running = PARTS.map(|part| (part.name, part.kind, scope.spawn(move || (part.compared)(amounts))));
            for (name, kind, compared) in running {
                println!("seed {}, {}: second, archive, wrapper", seed, name);
                let lines = compared.join().unwrap_or_else(|panic| std::panic::resume_unwind(panic));
                counts.compared(kind, lines, |question| question != "mend");
            }
        });
    }
    for kind in Kind::EACH {
        for number in refusals().filter(|&number| kind.has(number)) {
            counts.met_often(kind, number, &format!("refusal {}", number));
        }
        for reason in (1..=4).filter(|_| kind.has(20)) {
            counts.met_often(kind, reason_number(reason), &format!("refusal 20 by reason {}", reason));
        }
    }
}

/// The program on the worked image, on edges, and on whole images.
fn mend(asked: &Asked, counts: &mut Counts) {
    if !program::is_there() {
        println!("FAIL there is no script mend at the top of the repository: the program cannot be compared");
        counts.failed += 1;
        return;
    }
    let image = [0xA4, 0, 0, 0, 0, 0, 0, 0, 27, 0, 0xA6, 0, 0, 0, 0, 0, 0, 0, 27, 0];
    let text = "0 1 0 28\n1 3 255 6\nclean 0 data 1 check 0 even 1 odd 0 stray 0\n";
    counts.expect("mend: the worked image", &program::mend(&image), text);
    for bytes in [0, 1, 9, 10, 11, 65_520, 65_529, 65_530, 65_531, 65_536, 65_540, 131_060, 1_000_000] {
        let input = vec![0; bytes];
        counts.expect(&format!("mend: {} bytes of 0", bytes), &program::mend(&input), &second::mend(&input));
    }
    let inputs = Amounts::GATE.inputs;
    let none = Amounts { inputs, ..Amounts::NONE };
    for seed in asked.seed..asked.seed + asked.times {
        println!("seed {}: second, program", seed);
        let lines = compare(&[&Second, &Archive], &Amounts { seed, ..none });
        counts.compared(Kind::Hsiao, lines, |question| question == "mend");
    }
}

fn main() {
    let asked = asked(std::env::args().skip(1)).unwrap_or_else(|| {
        eprintln!("{}", USAGE);
        process::exit(2)
    });
    let begin = Instant::now();
    let mut counts = Counts::default();
    match asked.question.as_str() {
        "gate" => gate(&asked, &mut counts),
        "mend" => mend(&asked, &mut counts),
        _ => {
            eprintln!("{}", USAGE);
            process::exit(2)
        }
    }
    println!("compared in {:.1} s", begin.elapsed().as_secs_f64());
    println!("{} passed, {} failed", counts.passed, counts.failed);
    process::exit(i32::from(counts.failed > 0));
}
