//! The worked cases of documents 01 and 02: one text, tests/worked.txt, that any desk is asked. The text says what its lines mean.

use crate::code::{ones, switches, Code, Coded, Data, Hsiao, WideCode};
use crate::desk::{Desk, OfCodes, Questions};
use crate::pass::Pass;
use crate::rows::{Chosen, RowCode};
use std::fmt::UpperHex;
use std::str::FromStr;

/// What buffers hold before a call.
const FILL: u8 = 0xEE;

/// What the questions are about; passes and put-backs leave image and journal to the next.
struct Worked<C> {
    code: C,
    image: Vec<u8>,
    journal: Vec<u8>,
}

/// Puts every worked case of the ten-byte edition to the desk: the lines of the text that come out otherwise, none if all
/// is well.
pub fn worked(desk: &dyn Desk) -> Vec<String> {
    fn own(line: &'static str) -> Option<&'static str> {
        if line.starts_with("wide ") || line.starts_with("rows ") {
            None
        } else {
            Some(line)
        }
    }
    worked_in::<Code>(&desk, own)
}

/// The same for the wide edition, whose lines begin with `wide`.
pub fn worked_wide(desk: &dyn Questions<WideCode>) -> Vec<String> {
    worked_in(desk, |line| line.strip_prefix("wide "))
}

/// The same for codes with a set of rows, whose lines begin with `rows`.
pub fn worked_rows(desk: &dyn OfCodes<RowCode>) -> Vec<String> {
    let mut code = RowCode::with(&[], 0, 0, 0);
    let mut otherwise = Vec::new();
    let lines = include_str!("../../../tests/worked.txt").lines();
    for line in lines.filter_map(|line| line.strip_prefix("rows ")) {
        if let Some((question, _)) = line.split_once('=') {
            let answered = match ask_code(desk, &code, question) {
                Some(answer) => format!("{}={}", question, answer),
                None => panic!("{} is no question", question),
            };
            if answered != line {
                otherwise.push(answered);
            }
            continue;
        }
        match line.replace(':', " ").split_whitespace().collect::<Vec<&str>>()[..] {
            ["code", n, r, rows, ref columns @ ..] => {
                let columns: Vec<u16> = columns.iter().map(|column| number(column)).collect();
                code = RowCode::with(&columns, number(n), number(r), number(rows));
            }
            _ => panic!("{:?} is about nothing", line),
        }
    }
    otherwise
}

fn worked_in<C: Hsiao>(desk: &dyn Questions<C>, own: fn(&'static str) -> Option<&'static str>) -> Vec<String> {
    let mut worked = Worked { code: C::with(&[], 0, 0), image: Vec::new(), journal: Vec::new() };
    let mut otherwise = Vec::new();
    let lines = include_str!("../../../tests/worked.txt").lines().filter(|line| !line.starts_with('#'));
    for line in lines.filter_map(own) {
        match line.split_once('=') {
            Some((question, _)) => {
                let answered = format!("{}={}", question, worked.ask(desk, question));
                if answered != line {
                    otherwise.push(answered);
                }
            }
            None => worked.set(line),
        }
    }
    otherwise
}

fn number<N: FromStr>(word: &str) -> N {
    word.parse().unwrap_or_else(|_| panic!("{} is no number", word))
}

fn data(word: &str) -> u128 {
    u128::from_str_radix(word, 16).unwrap_or_else(|_| panic!("{} is no data", word))
}

/// Numbers as they stand in an answer.
fn said<N: ToString>(numbers: &[N]) -> String {
    numbers.iter().map(|number| format!(" {}", number.to_string())).collect()
}

/// Bytes, or data, as they stand in an answer.
fn hex<N: UpperHex>(numbers: &[N], width: usize) -> String {
    numbers.iter().map(|number| format!(" {:0width$X}", number, width = width)).collect()
}

/// A filled buffer without the bytes at its end that stayed.
fn changed(bytes: &[u8]) -> &[u8] {
    let end = bytes.iter().rposition(|&byte| byte != FILL).map_or(0, |last| last + 1);
    &bytes[..end]
}

/// What the desk answers to a question that takes a code and numbers alone, with a space before each number.
fn ask_code<C: Coded, Q: OfCodes<C> + ?Sized>(desk: &Q, code: &C, question: &str) -> Option<String> {
    Some(match question.split_whitespace().collect::<Vec<&str>>()[..] {
        ["judge"] => {
            let a = desk.judge(code);
            said(&[a.number, a.told])
        }
        ["balance"] => {
            let a = desk.row_balance(code);
            said(&[a.number, a.told]) + &said(&a.rows)
        }
        ["write", d] => {
            let a = desk.write(code, C::Data::of(data(d)));
            said(&[a.number, a.told]) + &said(&[a.check])
        }
        ["read", d, c] => {
            let a = desk.read(code, C::Data::of(data(d)), number(c));
            said(&[a.number, a.told, a.verdict, a.place])
                + &hex(&[Into::<u128>::into(a.data)], 1)
                + &said(&[a.check, a.syndrome])
        }
        ["explain", d, c, limit, room] => {
            let mut list = [FILL; 144];
            let a =
                desk.explain(code, C::Data::of(data(d)), number(c), number(limit), &mut list[..number::<usize>(room)]);
            said(&[a.number, a.told, a.length]) + &said(changed(&list))
        }
        ["cards", b] => {
            let a = desk.card_check(code, number(b));
            said(&[a.number, a.told, a.card, a.mask])
        }
        _ => return None,
    })
}

impl<C: Hsiao> Worked<C> {
    /// A line that says what the next questions are about.
    fn set(&mut self, line: &str) {
        let line = line.replace(':', " ");
        match line.split_whitespace().collect::<Vec<&str>>()[..] {
            [] => {}
            ["code", k, r, ref columns @ ..] => {
                let columns: Vec<u16> = columns.iter().map(|column| number(column)).collect();
                self.code = C::with(&columns, number(k), number(r));
            }
            ["image", length, "bytes"] => self.image = vec![0; number(length)],
            ["image", ref pairs @ ..] => {
                let record = |pair: &[&str]| {
                    [&data(pair[0]).to_le_bytes()[..C::RECORD - 2], &number::<u16>(pair[1]).to_le_bytes()].concat()
                };
                self.image = pairs.chunks(2).flat_map(record).collect();
            }
            ["journal", ref bytes @ ..] => {
                self.journal = bytes.iter().map(|byte| data(byte) as u8).collect();
                self.journal.resize(512, FILL);
            }
            _ => panic!("{:?} is about nothing", line),
        }
    }

    /// What the desk answers to a question about image and journal, or what they hold after one.
    fn ask_image(&mut self, desk: &dyn Questions<C>, question: &str) -> Option<String> {
        Some(match question.split_whitespace().collect::<Vec<&str>>()[..] {
            ["pass", start, end, length, used, stamp] => {
                let asked = Pass { start: number(start), end: number(end), used: number(used), stamp: number(stamp) };
                let journal = &mut self.journal[..number::<usize>(length)];
                let a = desk.pass(&self.code, &mut self.image, journal, &asked);
                said(&[a.number, a.told, a.used]) + &said(&a.tally)
            }
            ["back", length, used] => {
                let journal = &mut self.journal[..number::<usize>(length)];
                let a = desk.put_back(&mut self.image, journal, number(used));
                said(&[a.number, a.told, a.count])
            }
            ["left"] => hex(&self.image, 2),
            ["noted"] => hex(changed(&self.journal), 2),
            _ => return None,
        })
    }

    /// What the desk answers to a question, with a space before each number.
    fn ask(&mut self, desk: &dyn Questions<C>, question: &str) -> String {
        if let Some(answer) = ask_code(desk, &self.code, question) {
            return answer;
        }
        if let Some(answer) = self.ask_image(desk, question) {
            return answer;
        }
        let code = &self.code;
        match question.split_whitespace().collect::<Vec<&str>>()[..] {
            ["wanted", from, to] => {
                let mut answers: Vec<_> = (number(from)..=number(to)).map(|k| desk.wanted(k)).collect();
                answers.dedup();
                answers.iter().map(|a| said(&[a.number, a.check_bits])).collect()
            }
            ["make", k, r] => {
                let a = desk.make(number(k), number(r));
                self.code = a.code;
                let end = a.code.columns().iter().rposition(|&column| column != 0).map_or(0, |last| last + 1);
                said(&[a.number, a.code.k(), a.code.r()]) + &said(&a.code.columns()[..end])
            }
            ["ones"] => {
                let columns = &code.columns()[..code.k()];
                let data: usize = columns.iter().map(|&column| ones(&switches(column.into(), 16))).sum();
                said(&[data + code.r()])
            }
            ["recover", d, c, ref places @ ..] => {
                let bad: Vec<usize> = places.iter().map(|place| number(place)).collect();
                let a = desk.recover(code, C::Data::of(data(d)), number(c), &bad);
                said(&[a.number, a.told]) + &hex(&[a.data.into()], 1) + &said(&[a.check])
            }
            ["find", d, c, other, others] => {
                let a =
                    desk.find_bad(code, (C::Data::of(data(d)), number(c)), (C::Data::of(data(other)), number(others)));
                said(&[a.number, a.told]) + &hex(&[a.data.into()], 1) + &said(&[a.check])
            }
            _ => panic!("{:?} is no question", question),
        }
    }
}
