//! What the command answers: text or JSON when something is done, and a sentence with an exit status when not.

use desk::Refusal;
use serde_json::{json, Value};
use std::fmt::Display;

/// Why something was not done.
#[derive(Debug)]
pub enum No {
    /// Status 1: the desk refuses; and where the fault stands, if that is known.
    Refused(Refusal, Option<String>),
    /// Status 2: wrong use of the command.
    Use(String),
    /// Status 3: something about the files.
    Files(String),
}

pub type Answer<T> = Result<T, No>;

/// What a done command prints: the text for people, the same for machines, and notes beside it on standard error.
#[derive(Default)]
pub struct Said {
    pub text: String,
    pub json: Value,
    pub notes: Vec<String>,
}

impl From<Refusal> for No {
    fn from(refusal: Refusal) -> No {
        No::Refused(refusal, None)
    }
}

/// A file error: what cannot be done, to which file, and what the system says.
pub fn cannot(be: &str, path: impl Display, error: impl Display) -> No {
    No::Files(format!("{} cannot be {}: {}", path, be, error))
}

impl No {
    pub fn status(&self) -> i32 {
        match self {
            No::Refused(..) => 1,
            No::Use(_) => 2,
            No::Files(_) => 3,
        }
    }

    /// The sentence: what is wrong and, where the desk refuses, its number, what is told and what to do about it.
    pub fn sentence(&self) -> String {
        match self {
            No::Refused(refusal, place) => {
                let place = place.as_ref().map(|place| format!(" ({})", place)).unwrap_or_default();
                format!("{}{}.\nWhat to do: {}", refusal, place, advice(*refusal))
            }
            No::Use(says) | No::Files(says) => format!("{}.", says),
        }
    }

    pub fn json(&self) -> Value {
        match self {
            No::Refused(refusal, place) => json!({ "status": 1, "refused": refusal.number(), "told": told(*refusal),
                "says": refusal.to_string(), "where": place, "do": advice(*refusal) }),
            No::Use(says) | No::Files(says) => json!({ "status": self.status(), "says": says }),
        }
    }
}

/// What a refusal tells beside its number, by name.
fn told(refusal: Refusal) -> Value {
    match refusal {
        Refusal::WideColumn { place }
        | Refusal::EvenColumn { place }
        | Refusal::SingleOne { place }
        | Refusal::RepeatedColumn { place }
        | Refusal::Leftover { place } => json!({ "place": place }),
        Refusal::WeakCard { card, mask } => json!({ "card": card, "mask": mask }),
        Refusal::ListRoom { length } => json!({ "length": length }),
        Refusal::JournalRoom { needed } => json!({ "needed": needed }),
        Refusal::Mismatch { count } => json!({ "count": count }),
        Refusal::RowSet { reason } => json!({ "reason": reason }),
        _ => json!({}),
    }
}

/// What to do about 18.
const TOGETHER: &str =
    "check that image and journal belong together; the record of that entry was changed after the pass, \
    or the entry was. docs/DISPUTES.md says how to look further.";

/// What a person can do about a refusal.
fn advice(refusal: Refusal) -> &'static str {
    match refusal {
        Refusal::DataBits => {
            "give 1 to 64 data bits; for up to 128 take the wide edition \
             (in a code file `edition = 128`, elsewhere --edition 128)."
        }
        Refusal::CheckBits => "take 3 to 16 check bits; `desk code make K` takes as many as K data bits want.",
        Refusal::WideColumn { .. } => "make the column smaller or r larger: a column has r binary digits.",
        Refusal::EvenColumn { .. } => "turn one digit of that column, so that its count of ones is odd.",
        Refusal::SingleOne { .. } => "give that column three ones or more: single ones belong to the check bits.",
        Refusal::RepeatedColumn { .. } => "choose another column: no two may be equal.",
        Refusal::StrayBits => {
            "check the digits, and that this is the word's code: the word has a bit that the code has no place for."
        }
        Refusal::CardSize => "ask for cards of 2 to 8 places.",
        Refusal::WeakCard { .. } => "put the columns in another order, or choose others, and ask again.",
        Refusal::ListRoom { .. } => "give the list more room.",
        Refusal::FlipLimit => "ask for at most two flips: --limit 0, 1 or 2.",
        Refusal::ImageLength => {
            "check that this is the image, whole, and that the code's edition is the image's: \
             edition 64 has records of 10 bytes, at most 6,553 of them, edition 128 of 18 bytes, at most 3,640."
        }
        Refusal::JournalRoom { .. } => "give the journal room for so many behind those in use.",
        Refusal::Run => "give a run A..B of records that the image has: from A on, B not included.",
        Refusal::ColumnRoom => "take more check bits; `desk code make K` takes as many as K data bits want.",
        Refusal::Stamp => "give a stamp that is not below the last entry's, or look at this machine's clock.",
        Refusal::CountInUse => "check that journal and image are of one edition.",
        Refusal::Mismatch { .. } => TOGETHER,
        Refusal::Sheet => {
            "give 1 to 65,535 devices and words, no more mended than words, hours above zero, \
             and limits of zero or more, the low one first."
        }
        Refusal::RowSet { reason } => row_advice(reason),
        Refusal::Leftover { .. } => "set the places past the last column to 0.",
        Refusal::BadPlaces => "name at most three places of the word, each once.",
        Refusal::NoCodeWord => "look for further bad places: more is wrong in this word than those named explain.",
    }
}

/// What to do about 20, by its reason.
fn row_advice(reason: usize) -> &'static str {
    match reason {
        1 => "name one row at least in `rows`, each below r.",
        2 => "choose another column for the one that is 0 or equals another.",
        3 => {
            "the last r columns are the check bits': column j of them has a one in row j; and either none has a one \
             in a row of a lower number than its own, or none in a row of a higher one."
        }
        _ => "every column must have an odd count of ones within the rows that `rows` names: turn a digit, or name other rows.",
    }
}

/// `1 record`, `2 records`.
pub fn counted(count: usize, name: &str) -> String {
    let plural = match name.strip_suffix('y') {
        Some(stem) => format!("{}ies", stem),
        None => format!("{}s", name),
    };
    format!("{} {}", grouped(count), if count == 1 { name } else { &plural })
}

/// A number with commas between its thousands.
pub fn grouped(number: usize) -> String {
    let digits = number.to_string();
    let parts: Vec<&str> =
        digits.as_bytes().rchunks(3).rev().filter_map(|part| std::str::from_utf8(part).ok()).collect();
    parts.join(",")
}

/// A stamp as people read it.
pub fn when(stamp: u32) -> String {
    let time = std::time::UNIX_EPOCH + std::time::Duration::from_secs(stamp.into());
    humantime::format_rfc3339_seconds(time).to_string().replace('T', " ").replace('Z', " UTC")
}

/// A text in lines of at most 78 places, so that it stands well in a terminal of 80. Words are never broken.
pub fn wrapped(text: &str) -> String {
    let mut lines: Vec<String> = Vec::new();
    for line in text.lines() {
        lines.push(String::new());
        for word in line.split(' ') {
            let last = lines.last_mut().expect("a line was pushed");
            if last.is_empty() {
                last.push_str(word);
            } else if last.chars().count() + 1 + word.chars().count() <= 78 {
                last.push(' ');
                last.push_str(word);
            } else {
                lines.push(word.to_string());
            }
        }
    }
    lines.join("\n")
}
