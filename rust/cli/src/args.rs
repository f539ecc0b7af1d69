//! The command line.

use crate::answers::{Answer, No};
use crate::code_file::{Edition, PlainWord};
use clap::{Args, Parser, Subcommand};
use desk::Refusal;
use std::ops::Range;
use std::path::PathBuf;
use std::time::{SystemTime, UNIX_EPOCH};

/// The mending desk: finds flipped bits in memory images, puts them right, and writes down every repair
#[derive(Parser)]
#[command(name = "desk", version, subcommand_required = true, arg_required_else_help = true, max_term_width = 80)]
#[command(after_help = "Exit status: 0 done, 1 refused by the desk, 2 wrong use, 3 something about files

Example, from an image to a report:
  desk code make 8 5 --out code.toml
  desk pass code.toml image journal
  desk report code.toml image journal --out report.html")]
pub struct Command {
    /// Answer in JSON, for a machine that reads along
    #[arg(long, global = true)]
    pub json: bool,
    #[command(subcommand)]
    pub question: Question,
}

#[derive(Subcommand)]
pub enum Question {
    /// Make, judge or show a code
    #[command(subcommand, after_help = "Example:\n  desk code make 8 5 --out code.toml")]
    Code(CodeQuestion),
    /// Write, read, explain or recover one word
    #[command(subcommand, after_help = "Example:\n  desk word read code.toml A4 1B")]
    Word(WordQuestion),
    /// Mend an image and append to its journal
    #[command(after_help = "Example:\n  desk pass code.toml image journal --run 0..100 --stamp 2026-11-15T12:00:00Z")]
    Pass(Pass),
    /// Tell every entry of a journal in words
    #[command(after_help = "Example:\n  desk journal journal")]
    Journal(Journal),
    /// Write the image as it was read, from image and journal
    #[command(after_help = "Example:\n  desk put-back image journal --out as-read")]
    PutBack(PutBack),
    /// Make a station's sheet, and judge its share of mended words
    #[command(after_help = "Example:\n  desk sheet --hours 6 --devices 4 --words 8 --mended 1 --ceiling 0.25")]
    Sheet(Sheet),
    /// Write or read a word of ten bytes of three bits
    #[command(subcommand, after_help = "Example:\n  desk bytes write 8")]
    Bytes(BytesQuestion),
    /// Write a page on image and journal, to look at, keep and print
    #[command(after_help = "Example:\n  desk report code.toml image journal --out report.html")]
    Report(Report),
}

#[derive(Subcommand)]
pub enum CodeQuestion {
    /// Make a code file of K data bits and R check bits, with as few ones as can be
    #[command(after_help = "Example:\n  desk code make 8 5 --out code.toml")]
    Make(Make),
    /// Is this a code? A wrong one gets the line and the reason
    #[command(after_help = "Example:\n  desk code judge code.toml")]
    Judge {
        /// The code file
        file: PathBuf,
    },
    /// Show the matrix, its row balance, and where it is weak against a failing card
    #[command(after_help = "Example:\n  desk code show code.toml")]
    Show {
        /// The code file
        file: PathBuf,
    },
}

#[derive(Args)]
pub struct Make {
    /// Data bits
    pub k: usize,
    /// Check bits; as many as K data bits want, if left out
    pub r: Option<usize>,
    /// 64, or 128 for words of up to 128 data bits
    #[arg(long, default_value = "64", value_parser = edition)]
    pub edition: EditionArg,
    /// Write it to this file
    #[arg(long)]
    pub out: Option<PathBuf>,
    /// Replace the file if it is there
    #[arg(long, requires = "out")]
    pub replace: bool,
}

#[derive(Subcommand)]
pub enum WordQuestion {
    /// The check bits that go with the data
    #[command(after_help = "Example:\n  desk word write code.toml A5")]
    Write {
        /// The code file
        code: PathBuf,
        /// Data bits in hexadecimal
        #[arg(value_parser = hexadecimal)]
        data: u128,
    },
    /// What is in a word as read, mended where one flip explains it
    #[command(after_help = "Example:\n  desk word read code.toml A4 1B")]
    Read(WordArg),
    /// Every set of few flips that explains a word
    #[command(after_help = "Example:\n  desk word explain code.toml A6 1B --limit 2")]
    Explain {
        #[command(flatten)]
        word: WordArg,
        /// At most so many flips: 0, 1 or 2
        #[arg(long, default_value = "2")]
        limit: usize,
    },
    /// The word that was written, where places are known to be bad
    #[command(
        after_help = "Example:\n  desk word recover code.toml A6 1B --bad 'data bit 1'\n  desk word recover code.toml A6 19 --bad d0,d1,c1"
    )]
    Recover {
        #[command(flatten)]
        word: WordArg,
        /// Bad places: `data bit 3` or d3, `check bit 2` or c2; at most three, apart by commas
        #[arg(long, value_delimiter = ',', value_parser = place)]
        bad: Vec<Place>,
    },
}

#[derive(Args)]
pub struct WordArg {
    /// The code file
    pub code: PathBuf,
    /// Data bits in hexadecimal
    #[arg(value_parser = hexadecimal)]
    data: u128,
    /// Check bits in hexadecimal
    #[arg(value_parser = hexadecimal)]
    check: u128,
}

impl WordArg {
    /// No code has more than 16 check bits: those above are stray.
    pub fn word(&self) -> Result<PlainWord, Refusal> {
        let check = self.check.try_into().map_err(|_| Refusal::StrayBits)?;
        Ok(PlainWord { data: self.data, check })
    }
}

#[derive(Args)]
pub struct Pass {
    /// The code file
    pub code: PathBuf,
    /// The image, which is mended in its place
    pub image: PathBuf,
    /// The journal, which is made if it is not there
    pub journal: PathBuf,
    /// Only these records: from A on, B not included
    #[arg(long, value_name = "A..B", value_parser = run)]
    pub run: Option<Range<usize>>,
    /// The pass's time: seconds, or a time in UTC such as 2026-11-15T12:00:00Z; now, if left out
    #[arg(long, value_name = "TIME", value_parser = stamp)]
    stamp: Option<u32>,
    /// After a stop: bring the image to what the journal says, and do nothing else
    #[arg(long, conflicts_with_all = ["run", "stamp"])]
    pub resume: bool,
}

impl Pass {
    pub fn stamp(&self) -> Answer<u32> {
        let now = || SystemTime::now().duration_since(UNIX_EPOCH).ok()?.as_secs().try_into().ok();
        self.stamp
            .or_else(now)
            .ok_or_else(|| No::Use("this machine's clock has no stamp of 32 bits: give --stamp".into()))
    }
}

#[derive(Args)]
pub struct Journal {
    /// The journal
    pub journal: PathBuf,
    /// 64, or 128 for images of the wide edition
    #[arg(long, default_value = "64", value_parser = edition)]
    pub edition: EditionArg,
}

#[derive(Args)]
pub struct PutBack {
    /// The image as it was left
    pub image: PathBuf,
    /// Its journal
    pub journal: PathBuf,
    /// 64, or 128 for images of the wide edition
    #[arg(long, default_value = "64", value_parser = edition)]
    pub edition: EditionArg,
    #[command(flatten)]
    pub out: Out,
}

#[derive(Args)]
pub struct Report {
    /// The code file
    pub code: PathBuf,
    /// The image
    pub image: PathBuf,
    /// Its journal
    pub journal: PathBuf,
    #[command(flatten)]
    pub out: Out,
}

#[derive(Args)]
pub struct Out {
    /// Write to this file
    #[arg(long)]
    pub out: PathBuf,
    /// Replace the file if it is there
    #[arg(long)]
    pub replace: bool,
}

#[derive(Args)]
pub struct Sheet {
    /// Hours per device
    #[arg(long, value_name = "H", allow_hyphen_values = true)]
    pub hours: f64,
    /// How many devices
    #[arg(long, value_name = "N")]
    pub devices: usize,
    /// How many words
    #[arg(long, value_name = "N")]
    pub words: usize,
    /// How many of them were mended
    #[arg(long, value_name = "N")]
    pub mended: usize,
    /// The greatest share of mended words
    #[arg(long, value_name = "HIGH", allow_hyphen_values = true, conflicts_with = "band")]
    pub ceiling: Option<f64>,
    /// The least and the greatest share, such as 0.1..0.25
    #[arg(long, value_name = "LOW..HIGH", allow_hyphen_values = true, value_parser = band)]
    pub band: Option<(f64, f64)>,
}

#[derive(Subcommand)]
pub enum BytesQuestion {
    /// The word of ten bytes with these data bits
    #[command(after_help = "Example:\n  desk bytes write 8")]
    Write {
        /// 21 data bits in hexadecimal
        #[arg(value_parser = hexadecimal)]
        data: u128,
    },
    /// What is in a word of ten bytes, put right where one byte explains it
    #[command(after_help = "Example:\n  desk bytes read 223C0008")]
    Read {
        /// 30 bits in hexadecimal
        #[arg(value_parser = hexadecimal)]
        word: u128,
    },
}

/// An edition as it was given.
#[derive(Clone, Copy)]
pub struct EditionArg(pub Edition);

fn edition(text: &str) -> Result<EditionArg, String> {
    text.parse().ok().and_then(Edition::of).map(EditionArg).ok_or_else(|| "an edition is 64 or 128".into())
}

fn hexadecimal(text: &str) -> Result<u128, String> {
    let digits = text.strip_prefix("0x").or_else(|| text.strip_prefix("0X")).unwrap_or(text).replace('_', "");
    if digits.is_empty() || !digits.bytes().all(|digit| digit.is_ascii_hexdigit()) {
        return Err("hexadecimal digits are 0 to 9 and A to F".into());
    }
    u128::from_str_radix(&digits, 16).map_err(|_| "there are more than 128 bits".into())
}

fn run(text: &str) -> Result<Range<usize>, String> {
    let ends = text.split_once("..").and_then(|(a, b)| Some((a.trim().parse().ok()?, b.trim().parse().ok()?)));
    ends.map(|(a, b)| a..b).ok_or_else(|| "a run is two record numbers, such as 0..100".into())
}

fn stamp(text: &str) -> Result<u32, String> {
    if !text.is_empty() && text.bytes().all(|digit| digit.is_ascii_digit()) {
        return text.parse().map_err(|_| format!("a stamp is at most {}", u32::MAX));
    }
    let time = humantime::parse_rfc3339_weak(text).ok().and_then(|time| time.duration_since(UNIX_EPOCH).ok());
    let seconds = time.ok_or("a time is a number of seconds, or such as 2026-11-15T12:00:00Z, in UTC")?.as_secs();
    u32::try_from(seconds).map_err(|_| "the time is past the last stamp, in 2106".into())
}

fn band(text: &str) -> Result<(f64, f64), String> {
    let ends =
        text.split_once("..").and_then(|(low, high)| Some((low.trim().parse().ok()?, high.trim().parse().ok()?)));
    ends.ok_or_else(|| "a band is two shares, such as 0.1..0.25".into())
}

/// A place as people say it, or by its number.
#[derive(Clone, Copy)]
pub enum Place {
    Data(usize),
    Check(usize),
    Number(usize),
}

impl Place {
    /// Its number in a word; a bit that the word does not have gets one that no word has.
    pub fn number(self, k: usize, r: usize) -> usize {
        match self {
            Place::Data(bit) if bit < k => bit,
            Place::Check(bit) if bit < r => k + bit,
            Place::Number(number) => number,
            _ => usize::MAX,
        }
    }
}

fn place(text: &str) -> Result<Place, String> {
    let digits = text.trim_start_matches(|c: char| !c.is_ascii_digit());
    let words = text[..text.len() - digits.len()].to_lowercase().replace(['-', '_'], " ");
    let number = digits.parse().map_err(|_| "a place is such as `data bit 3`, d3, `check bit 2`, c2")?;
    match words.split_whitespace().collect::<Vec<_>>()[..] {
        ["d" | "data"] | ["data", "bit"] => Ok(Place::Data(number)),
        ["c" | "check"] | ["check", "bit"] => Ok(Place::Check(number)),
        [] | ["place"] => Ok(Place::Number(number)),
        _ => Err("a place is such as `data bit 3`, d3, `check bit 2`, c2".into()),
    }
}
