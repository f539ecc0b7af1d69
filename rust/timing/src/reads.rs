//! What a single question costs through the C interface: each judges its code first.

use crate::editions::{Edition, Eighteen, Ten};
use desk::ffi::{self, Code, RowCode, WideCode, WideRowCode, WideWord};
use std::time::Instant;

/// Words that are asked about in a round: different ones, lest the processor learn them by heart.
const WORDS: usize = 256;

const ROUNDS: usize = 400;

/// Nanoseconds that a reading at 64 data bits should take at most.
const GOAL: f64 = 400.0;

/// Nanoseconds a question, of the best round.
fn best<Answer>(ask: impl Fn(usize) -> Answer) -> f64 {
    let mut least = f64::INFINITY;
    for _ in 0..ROUNDS {
        let begin = Instant::now();
        for at in 0..WORDS {
            ask(at);
        }
        least = least.min(begin.elapsed().as_nanos() as f64 / WORDS as f64);
    }
    least
}

fn row(name: &str, judge: f64, write: f64, read: f64) {
    println!("| {} | {:.0} | {:.0} | {:.0} |", name, judge, write, read);
}

/// Data that differ in about half of their bits from one word to the next.
fn halves() -> Vec<(u64, u64)> {
    let spread = |i: u64| i.wrapping_mul(0x9E37_79B9_7F4A_7C15).rotate_left(29).wrapping_mul(0xBF58_476D_1CE4_E5B9);
    (1..=WORDS as u64).map(|i| (spread(2 * i), spread(2 * i + 1))).collect()
}

/// The same columns with the single ones behind them, and all rows in the set.
fn with_checks<const PLACES: usize>(data: &[u16], r: usize) -> [u16; PLACES] {
    let mut columns = [0; PLACES];
    let checks = (0..r).map(|j| 1 << j);
    columns.iter_mut().zip(data.iter().copied().chain(checks)).for_each(|(place, column)| *place = column);
    columns
}

/// 64 data bits and 16 check bits, columns of any rows: some share a slot of the table that the judge guesses by.
fn tall(words: &[(u64, u64)]) -> Code {
    let mut columns = Vec::new();
    for column in words.iter().map(|&(low, _)| low as u16) {
        if column.count_ones() % 2 == 1 && column.count_ones() > 1 && !columns.contains(&column) {
            columns.push(column);
        }
    }
    Code::new(&columns[..64], 16).expect("different odd columns are a code")
}

/// The last column repeats the first: 6.
fn refused(code: &Code) -> Code {
    let mut code = *code;
    code.columns[63] = code.columns[0];
    code
}

/// The time of a reading.
fn narrow(name: &str, code: &Code, words: &[(u64, u64)]) -> f64 {
    let checks: Vec<u16> = words.iter().map(|&(data, _)| ffi::write(code, data).check).collect();
    let judge = best(|_| ffi::judge(code));
    let write = best(|i| ffi::write(code, words[i].0));
    let read = best(|i| ffi::read(code, words[i].0, checks[i]));
    row(name, judge, write, read);
    read
}

fn narrow_rows(code: &Code, words: &[(u64, u64)]) {
    let rows = RowCode { columns: with_checks(&code.columns, code.r), n: 72, r: code.r, rows: 255 };
    let checks: Vec<u16> = words.iter().map(|&(data, _)| ffi::rows_write(&rows, data).check).collect();
    let judge = best(|_| ffi::rows_judge(&rows));
    let write = best(|i| ffi::rows_write(&rows, words[i].0));
    let read = best(|i| ffi::rows_read(&rows, words[i].0, checks[i]));
    row("64 data bits, with a set of rows", judge, write, read);
}

fn wide_rows(code: &WideCode, words: &[(u64, u64)]) {
    let whole = |&(low, high): &(u64, u64)| WideWord { low, high, check: ffi::wide_write(code, low, high).check };
    let whole: Vec<WideWord> = words.iter().map(whole).collect();
    let judge = best(|_| ffi::wide_judge(code));
    let write = best(|i| ffi::wide_write(code, words[i].0, words[i].1));
    row("128 data bits", judge, write, best(|i| ffi::wide_read(code, whole[i])));
    let rows = WideRowCode { columns: with_checks(&code.columns, code.r), n: 137, r: code.r, rows: 511 };
    let judge = best(|_| ffi::wide_rows_judge(&rows));
    let write = best(|i| ffi::wide_rows_write(&rows, words[i].0, words[i].1));
    row("128 data bits, with a set of rows", judge, write, best(|i| ffi::wide_rows_read(&rows, whole[i])));
}

/// Prints nanoseconds a question. Whether a reading at 64 data bits takes at most twice its goal.
pub fn table() -> bool {
    println!("| Code | judge | write | read |");
    println!("|---|---|---|---|");
    let words = halves();
    let full = Ten::full();
    let read = narrow("64 data bits", &full, &words);
    narrow_rows(&full, &words);
    wide_rows(&Eighteen::full(), &words);
    narrow("64 data bits, 16 check bits", &tall(&words), &words);
    narrow("64 data bits, refused", &refused(&full), &words);
    read <= 2.0 * GOAL
}
