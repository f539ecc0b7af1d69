//! Codes, single words, words of ten bytes, sheets.

use crate::answers::{counted, Answer, No, Said};
use crate::args::{BytesQuestion, CodeQuestion, Make, Place, Sheet, WordQuestion};
use crate::code_file::{self, AnyCode, PlainWord};
use crate::files;
use crate::journal::found;
use desk::{ByteVerdict, Explanation, Limit, Refusal, Station};
use serde_json::{json, Value};
use std::fmt::Write;

fn said(text: String, json: Value) -> Answer<Said> {
    Ok(Said { text, json, notes: Vec::new() })
}

/// `desk code`.
pub fn code(question: &CodeQuestion) -> Answer<Said> {
    match question {
        CodeQuestion::Make(asked) => make(asked),
        CodeQuestion::Judge { file } => {
            let code = code_file::load(file)?;
            let text = format!("{} is a code:\n{}\n", file.display(), summary(&code));
            said(text, json!({ "accepted": true, "k": code.k(), "r": code.r() }))
        }
        CodeQuestion::Show { file } => show(&code_file::load(file)?),
    }
}

fn summary(code: &AnyCode) -> String {
    let (family, edition) = (code.family(), code.edition().number());
    format!("family {}, edition {}, {} data bits, {} check bits", family, edition, code.k(), code.r())
}

fn make(asked: &Make) -> Answer<Said> {
    let edition = asked.edition.0;
    let wanted = edition.check_bits_wanted(asked.k)?;
    let r = asked.r.unwrap_or(wanted);
    let code = AnyCode::made(asked.k, r, edition).map_err(|refusal| match refusal {
        Refusal::ColumnRoom => No::Refused(refusal, Some(format!("{} data bits want {} check bits", asked.k, wanted))),
        other => No::from(other),
    })?;
    let json = json!({ "family": "hsiao", "edition": edition.number(), "r": r, "columns": code.columns()[..asked.k] });
    match &asked.out {
        None => said(code.text(), json),
        Some(out) => {
            files::write_new(out, code.text().as_bytes(), asked.replace, &[])?;
            said(format!("{} has a code:\n{}\n", out.display(), summary(&code)), json)
        }
    }
}

/// Places in groups of eight, a line for each row.
fn picture(columns: &[u16], r: usize) -> Vec<String> {
    let line = |row: usize| {
        let groups = columns.chunks(8);
        let digit = |column: &u16| if column >> row & 1 == 1 { '1' } else { '.' };
        groups.map(|group| group.iter().map(digit).collect::<String>()).collect::<Vec<_>>().join(" ")
    };
    (0..r).map(line).collect()
}

fn show(code: &AnyCode) -> Answer<Said> {
    let (k, r, columns) = (code.k(), code.r(), code.columns());
    let wanted = code.edition().check_bits_wanted(k)?;
    let balance = &code.row_balance()?[..r];
    let ones: Vec<usize> = (0..r).map(|row| columns.iter().filter(|&column| column >> row & 1 == 1).count()).collect();
    let mut text = format!("{}\ncheck bits wanted for {} data bits: {}\n", summary(code), k, wanted);
    if code.family() == "rows" {
        let _ = writeln!(text, "every column has an odd count of ones within: row {}", list(&code.rows()));
    }
    for first in (0..k).step_by(64) {
        let end = k.min(first + 64);
        let _ = writeln!(text, "\ndata bits {} to {}, a column for each", first, end - 1);
        for (row, line) in picture(&columns[first..end], r).iter().enumerate() {
            let _ = writeln!(text, "row {:<2} {}", row, line);
        }
    }
    let width = picture(&columns[k..], 1)[0].len().max(10);
    let _ = writeln!(
        text,
        "\n       {:<width$}  ones  balance: r times the row's ones, less all ones",
        "check bits",
        width = width
    );
    for (row, line) in picture(&columns[k..], r).iter().enumerate() {
        let _ =
            writeln!(text, "row {:<2} {:<width$}  {:>4}  {:>+7}", row, line, ones[row], balance[row], width = width);
    }
    let _ = writeln!(text, "\nall ones: {}\n", ones.iter().sum::<usize>());
    let mut cards = Vec::new();
    for b in 2..=8 {
        let (line, json) = card(code, b)?;
        let _ = writeln!(text, "cards of {}: {}", b, line);
        cards.push(json);
    }
    let json = json!({ "family": code.family(), "edition": code.edition().number(), "k": k, "r": r, "columns": columns,
        "rows": code.rows(), "wanted": wanted, "ones": ones, "balance": balance, "cards": cards });
    said(text, json)
}

/// Whether the code is card-proof for b, and where it is weak.
fn card(code: &AnyCode, b: usize) -> Answer<(String, Value)> {
    match code.card_check(b) {
        Ok(()) => {
            Ok(("proof, every error within one card is mended or flagged".into(), json!({ "b": b, "proof": true })))
        }
        Err(Refusal::WeakCard { card, mask }) => {
            let data_cards = (code.k() + b - 1) / b;
            let first = if card < data_cards { card * b } else { code.k() + (card - data_cards) * b };
            let places: Vec<String> = (0..b).filter(|t| mask >> t & 1 == 1).map(|t| code.place(first + t)).collect();
            let numbers: Vec<&str> = places.iter().filter_map(|place| place.split(' ').nth(2)).collect();
            let kind = if card < data_cards { "data" } else { "check" };
            let line = format!("weak at card {}, {} bits {} flipped at once", card, kind, list(&numbers));
            Ok((line, json!({ "b": b, "proof": false, "card": card, "mask": mask, "places": places })))
        }
        Err(other) => Err(other.into()),
    }
}

/// `a, b and c`.
fn list<T: ToString>(items: &[T]) -> String {
    let items: Vec<String> = items.iter().map(T::to_string).collect();
    match items.split_last() {
        Some((last, [])) => last.clone(),
        Some((last, others)) => format!("{} and {}", others.join(", "), last),
        None => "none".into(),
    }
}

/// `desk word`.
pub fn word(question: &WordQuestion) -> Answer<Said> {
    match question {
        WordQuestion::Write { code, data } => {
            let code = code_file::load(code)?;
            let word = PlainWord { data: *data, check: code.write(*data)? };
            said(format!("{}\n", shown(&code, word)), word_json(&code, word))
        }
        WordQuestion::Read(word) => {
            let code = code_file::load(&word.code)?;
            read(&code, word.word()?)
        }
        WordQuestion::Explain { word, limit } => {
            let code = code_file::load(&word.code)?;
            explain(&code, &code.explain(word.word()?, *limit)?, *limit)
        }
        WordQuestion::Recover { word, bad } => {
            let code = code_file::load(&word.code)?;
            recover(&code, word.word()?, bad)
        }
    }
}

/// Data and check bits, with as many digits as the code has.
fn shown(code: &AnyCode, word: PlainWord) -> String {
    let digits = |bits: usize| (bits + 3) / 4;
    let (data, check) = (digits(code.k()), digits(code.r()));
    format!("data {:0data$X}  check {:0check$X}", word.data, word.check, data = data, check = check)
}

fn word_json(code: &AnyCode, word: PlainWord) -> Value {
    let text = shown(code, word);
    let part = |n: usize| text.split_whitespace().nth(n).unwrap_or_default().to_string();
    json!({ "data": part(1), "check": part(3) })
}

fn read(code: &AnyCode, word: PlainWord) -> Answer<Said> {
    let reading = code.read(word)?;
    let place = reading.place.map(|place| code.place(place));
    let done = place.as_ref().map_or("nothing is turned".to_string(), |place| format!("{} is turned", place));
    let text = format!(
        "{} (verdict {}, syndrome {:X}); {}\n  as read  {}\n  as left  {}\n",
        found(reading.verdict),
        reading.verdict.number(),
        reading.syndrome,
        done,
        shown(code, word),
        shown(code, reading.word)
    );
    let json = json!({ "verdict": reading.verdict.number(), "found": found(reading.verdict), "turned": place,
        "place": reading.place, "syndrome": reading.syndrome, "word": word_json(code, reading.word) });
    said(text, json)
}

fn explain(code: &AnyCode, sets: &[Explanation], limit: usize) -> Answer<Said> {
    let names: Vec<Vec<String>> = sets
        .iter()
        .map(|set| match *set {
            Explanation::Nothing => Vec::new(),
            Explanation::One(place) => vec![code.place(place)],
            Explanation::Two(one, other) => vec![code.place(one), code.place(other)],
        })
        .collect();
    let mut text = format!("{} of at most {} explain this word\n", counted(sets.len(), "set"), counted(limit, "flip"));
    for set in &names {
        let line = if set.is_empty() { "no flip: the word is clean".to_string() } else { list(set) };
        let _ = writeln!(text, "  {}", line);
    }
    said(text, json!({ "limit": limit, "sets": names }))
}

fn recover(code: &AnyCode, word: PlainWord, bad: &[Place]) -> Answer<Said> {
    let places: Vec<usize> = bad.iter().map(|place| place.number(code.k(), code.r())).collect();
    let recovered = code.recover(word, &places)?;
    let text = format!("  as read  {}\n  written  {}\n", shown(code, word), shown(code, recovered));
    said(text, json!({ "as_read": word_json(code, word), "written": word_json(code, recovered) }))
}

/// `desk bytes`. A word has no more than 64 bits here, and those above 30 are stray.
pub fn bytes(question: &BytesQuestion) -> Answer<Said> {
    let own = |word: u128| u64::try_from(word).map_err(|_| Refusal::StrayBits);
    match *question {
        BytesQuestion::Write { data } => {
            let word = desk::byte_write(own(data)?)?;
            said(format!("word {:08X}: {}\n", word, parts(word)), json!({ "word": format!("{:08X}", word) }))
        }
        BytesQuestion::Read { word } => {
            let reading = desk::byte_read(own(word)?)?;
            let byte = reading.byte.map(|byte| byte.0);
            let found = match (reading.verdict, byte) {
                (ByteVerdict::Data, Some(byte)) => format!("data byte {} was wrong, and is put right", byte),
                (ByteVerdict::Check, Some(byte)) => {
                    format!("check byte {} was wrong, and is put right", byte - byte.min(7))
                }
                (ByteVerdict::Flagged, _) => "no error within one byte explains it; left as read".to_string(),
                _ => "nothing wrong".to_string(),
            };
            let text = format!(
                "{} (verdict {})\nword {:08X}: {}\n",
                found,
                reading.verdict.number(),
                reading.word,
                parts(reading.word)
            );
            said(
                text,
                json!({ "verdict": reading.verdict.number(), "found": found, "byte": byte, "word": format!("{:08X}", reading.word) }),
            )
        }
    }
}

/// The ten bytes of three bits, data bytes first.
fn parts(word: u64) -> String {
    let part = |byte: u64| format!("{:03b}", word >> (3 * byte) & 7);
    let join = |bytes: std::ops::Range<u64>| bytes.map(part).collect::<Vec<_>>().join(" ");
    format!("data bytes {}, check bytes {}", join(0..7), join(7..10))
}

/// `desk sheet`.
pub fn sheet(asked: &Sheet) -> Answer<Said> {
    let Sheet { hours, devices, words, mended, ceiling, band } = *asked;
    let limit = match (ceiling, band) {
        (Some(high), _) => Limit::Ceiling(high),
        (_, Some((low, high))) => Limit::Band { low, high },
        _ => Limit::Open,
    };
    let judged = Station { hours, devices, words, mended }.sheet(limit)?;
    let (sheet, within) = (judged.sheet, if judged.yes { "within" } else { "outside" });
    let limit = match limit {
        Limit::Open => "no limit is given".to_string(),
        Limit::Ceiling(high) => format!("{} the ceiling of {}", within, high),
        Limit::Band { low, high } => format!("{} the band from {} to {}", within, low, high),
    };
    let text = format!(
        "hours per device   {}\nhours per station  {}\nshare mended       {}, {}\n",
        sheet.device, sheet.station, sheet.share, limit
    );
    said(text, json!({ "device": sheet.device, "station": sheet.station, "share": sheet.share, "within": judged.yes }))
}
