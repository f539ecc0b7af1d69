//! Code files: TOML that people edit; and the four kinds of code behind one set of questions.

use crate::answers::{Answer, No};
use crate::files;
use desk::{Code, Explanation, Passed, Reading, Refusal, RowCode, WideCode, WideRowCode, WideWord, Word};
use serde::Deserialize;
use std::fmt::Write;
use std::ops::Range;
use std::path::Path;
use toml::Spanned;

/// Which records and entries: words of up to 64 data bits, or of up to 128.
#[derive(Clone, Copy, PartialEq, Eq, Debug)]
pub enum Edition {
    Of64,
    Of128,
}

impl Edition {
    pub fn of(number: i64) -> Option<Edition> {
        match number {
            64 => Some(Edition::Of64),
            128 => Some(Edition::Of128),
            _ => None,
        }
    }

    pub fn number(self) -> usize {
        if self == Edition::Of64 {
            64
        } else {
            128
        }
    }

    pub fn other(self) -> Edition {
        if self == Edition::Of64 {
            Edition::Of128
        } else {
            Edition::Of64
        }
    }

    /// Bytes of a record.
    pub fn record(self) -> usize {
        if self == Edition::Of64 {
            desk::RECORD
        } else {
            desk::WIDE_RECORD
        }
    }

    /// Bytes of a journal's entry.
    pub fn entry(self) -> usize {
        if self == Edition::Of64 {
            desk::ENTRY
        } else {
            desk::WIDE_ENTRY
        }
    }

    /// Bytes of the longest image.
    pub fn longest(self) -> usize {
        if self == Edition::Of64 {
            desk::IMAGE
        } else {
            desk::WIDE_IMAGE
        }
    }

    pub fn check_bits_wanted(self, k: usize) -> Result<usize, Refusal> {
        if self == Edition::Of64 {
            desk::check_bits_wanted(k)
        } else {
            desk::wide_check_bits_wanted(k)
        }
    }

    pub fn put_back(self, image: &mut [u8], journal: &[u8], used: usize) -> Result<usize, Refusal> {
        if self == Edition::Of64 {
            desk::put_back(image, journal, used)
        } else {
            desk::wide_put_back(image, journal, used)
        }
    }
}

/// A word of either edition.
#[derive(Clone, Copy, PartialEq, Eq, Debug)]
pub struct PlainWord {
    pub data: u128,
    pub check: u16,
}

/// The wrapper's own words: data that has no place in one is stray.
trait Own: Sized {
    fn of(word: PlainWord) -> Result<Self, Refusal>;
    fn plain(self) -> PlainWord;
}

impl Own for Word {
    fn of(word: PlainWord) -> Result<Word, Refusal> {
        let data = word.data.try_into().map_err(|_| Refusal::StrayBits)?;
        Ok(Word { data, check: word.check })
    }

    fn plain(self) -> PlainWord {
        PlainWord { data: self.data.into(), check: self.check }
    }
}

impl Own for WideWord {
    fn of(word: PlainWord) -> Result<WideWord, Refusal> {
        Ok(WideWord { check: word.check, ..word.data.into() })
    }

    fn plain(self) -> PlainWord {
        PlainWord { data: self.into(), check: self.check }
    }
}

/// A code of either family and edition, judged.
pub enum AnyCode {
    Hsiao(Code),
    WideHsiao(WideCode),
    Rows(RowCode),
    WideRows(WideRowCode),
}

/// The same question to whichever code it is.
macro_rules! ask {
    ($of:expr, $code:ident => $answer:expr) => {
        match $of {
            AnyCode::Hsiao($code) => $answer,
            AnyCode::WideHsiao($code) => $answer,
            AnyCode::Rows($code) => $answer,
            AnyCode::WideRows($code) => $answer,
        }
    };
}

impl AnyCode {
    pub fn made(k: usize, r: usize, edition: Edition) -> Result<AnyCode, Refusal> {
        match edition {
            Edition::Of64 => Code::made(k, r).map(AnyCode::Hsiao),
            Edition::Of128 => WideCode::made(k, r).map(AnyCode::WideHsiao),
        }
    }

    pub fn family(&self) -> &'static str {
        if matches!(self, AnyCode::Hsiao(_) | AnyCode::WideHsiao(_)) {
            "hsiao"
        } else {
            "rows"
        }
    }

    pub fn edition(&self) -> Edition {
        if matches!(self, AnyCode::Hsiao(_) | AnyCode::Rows(_)) {
            Edition::Of64
        } else {
            Edition::Of128
        }
    }

    pub fn r(&self) -> usize {
        ask!(self, code => code.r)
    }

    pub fn k(&self) -> usize {
        self.columns().len() - self.r()
    }

    /// All columns, those of the check bits last.
    pub fn columns(&self) -> Vec<u16> {
        let whole = |data: &[u16], r: usize| data.iter().copied().chain((0..r).map(|row| 1 << row)).collect();
        match self {
            AnyCode::Hsiao(code) => whole(&code.columns[..code.k], code.r),
            AnyCode::WideHsiao(code) => whole(&code.columns[..code.k], code.r),
            AnyCode::Rows(code) => code.columns[..code.n].to_vec(),
            AnyCode::WideRows(code) => code.columns[..code.n].to_vec(),
        }
    }

    /// The set of rows within which every column is odd: all of them in Hsiao's family.
    pub fn rows(&self) -> Vec<usize> {
        let set = match self {
            AnyCode::Hsiao(_) | AnyCode::WideHsiao(_) => u16::MAX,
            AnyCode::Rows(code) => code.rows,
            AnyCode::WideRows(code) => code.rows,
        };
        (0..self.r()).filter(|row| set >> row & 1 == 1).collect()
    }

    /// A place as people say it.
    pub fn place(&self, place: usize) -> String {
        place_name(place, self.k())
    }

    pub fn row_balance(&self) -> Result<[i32; 16], Refusal> {
        ask!(self, code => code.row_balance())
    }

    pub fn card_check(&self, b: usize) -> Result<(), Refusal> {
        ask!(self, code => code.card_check(b))
    }

    pub fn write(&self, data: u128) -> Result<u16, Refusal> {
        ask!(self, code => code.write(data.try_into().map_err(|_| Refusal::StrayBits)?))
    }

    pub fn read(&self, word: PlainWord) -> Result<Reading<PlainWord>, Refusal> {
        ask!(self, code => {
            let Reading { verdict, place, syndrome, word } = code.read(Own::of(word)?)?;
            Ok(Reading { verdict, place, syndrome, word: word.plain() })
        })
    }

    pub fn explain(&self, word: PlainWord, limit: usize) -> Result<Vec<Explanation>, Refusal> {
        ask!(self, code => code.explain(Own::of(word)?, limit))
    }

    pub fn recover(&self, word: PlainWord, bad: &[usize]) -> Result<PlainWord, Refusal> {
        ask!(self, code => Ok(code.recover(Own::of(word)?, bad)?.plain()))
    }

    pub fn pass(
        &self,
        image: &mut [u8],
        run: Range<usize>,
        journal: &mut [u8],
        used: usize,
        stamp: u32,
    ) -> Result<Passed, Refusal> {
        ask!(self, code => code.quick_pass(image, run, journal, used, stamp))
    }

    /// The code as a file that people edit.
    pub fn text(&self) -> String {
        let (k, r) = (self.k(), self.r());
        let columns = self.columns();
        let shown = if self.family() == "hsiao" { &columns[..k] } else { &columns };
        let mut text = format!("# A code of {} data bits and {} check bits.\n", k, r);
        let _ = writeln!(text, "family = \"{}\"\nedition = {}\nr = {}", self.family(), self.edition().number(), r);
        if self.family() == "rows" {
            let _ =
                writeln!(text, "# Every column has an odd count of ones within these rows.\nrows = {:?}", self.rows());
        }
        text.push_str("# A column for each bit; its last digit is row 0.\ncolumns = [\n");
        for (place, column) in shown.iter().enumerate() {
            let _ = writeln!(text, "  0b{:0width$b}, # {}", column, place_name(place, k), width = r);
        }
        text + "]\n"
    }
}

/// A place of a word with k data bits, as people say it.
pub fn place_name(place: usize, k: usize) -> String {
    if place < k {
        format!("data bit {}", place)
    } else {
        format!("check bit {}", place - k)
    }
}

/// What stands in a code file.
#[derive(Deserialize)]
#[serde(deny_unknown_fields)]
struct Text {
    family: Spanned<String>,
    edition: Spanned<i64>,
    r: Spanned<i64>,
    columns: Spanned<Vec<Spanned<i64>>>,
    rows: Option<Spanned<Vec<Spanned<i64>>>>,
}

/// Reads a code file and has the desk judge it. What is wrong is told with the file's line.
pub fn load(path: &Path) -> Answer<AnyCode> {
    let bytes = files::read(path, 1 << 20)?;
    let no = |says: &str| No::Files(format!("{} is no code file: {}", path.display(), says));
    let source = String::from_utf8(bytes).map_err(|_| no("it is no text in UTF-8"))?;
    let text: Text = toml::from_str(&source).map_err(|error| no(&plain_error(&error, &source)))?;
    let line = |at: usize| source.bytes().take(at).filter(|&byte| byte == b'\n').count() + 1;
    text.code(&|at, says| no(&format!("line {}: {}", line(at), says)))?.map_err(|refusal| {
        let place = text.fault(refusal).map(|(at, name)| format!("{}, line {}{}", path.display(), line(at), name));
        No::Refused(refusal, place)
    })
}

/// The library's error with the line first. It gives the first line for a field that is missing or not known.
fn plain_error(error: &toml::de::Error, source: &str) -> String {
    let says = error.to_string();
    let says = says.split(" at line ").next().unwrap_or(&says);
    if says.starts_with("missing field") {
        return says.to_string();
    }
    let unknown = says.strip_prefix("unknown field `").and_then(|rest| rest.split('`').next());
    let line = match unknown {
        Some(field) => source.lines().position(|line| line.trim_start().starts_with(field)),
        None => error.line_col().map(|(line, _)| line),
    };
    line.map_or(says.to_string(), |line| format!("line {}: {}", line + 1, says))
}

/// Says what is wrong at an offset of the text.
type At<'a> = &'a dyn Fn(usize, &str) -> No;

impl Text {
    fn code(&self, no: At) -> Answer<Result<AnyCode, Refusal>> {
        let edition =
            Edition::of(*self.edition.get_ref()).ok_or_else(|| no(self.edition.start(), "edition is 64 or 128"))?;
        let r = usize::try_from(*self.r.get_ref()).map_err(|_| no(self.r.start(), "r is a count"))?;
        let columns = self.columns(no)?;
        Ok(match (self.family.get_ref().as_str(), edition, self.row_set(no)?) {
            ("hsiao", _, Some((at, _))) => return Err(no(at, "rows belong to family \"rows\" alone")),
            ("hsiao", Edition::Of64, _) => Code::new(&columns, r).map(AnyCode::Hsiao),
            ("hsiao", Edition::Of128, _) => WideCode::new(&columns, r).map(AnyCode::WideHsiao),
            ("rows", _, None) => return Err(no(self.family.start(), "family \"rows\" wants `rows`, the row numbers")),
            ("rows", Edition::Of64, Some((_, set))) => RowCode::new(&columns, r, set).map(AnyCode::Rows),
            ("rows", Edition::Of128, Some((_, set))) => WideRowCode::new(&columns, r, set).map(AnyCode::WideRows),
            _ => return Err(no(self.family.start(), "family is \"hsiao\" or \"rows\"")),
        })
    }

    fn columns(&self, no: At) -> Answer<Vec<u16>> {
        let column = |column: &Spanned<i64>| {
            u16::try_from(*column.get_ref()).map_err(|_| no(column.start(), "a column has at most 16 binary digits"))
        };
        self.columns.get_ref().iter().map(column).collect()
    }

    /// Where the rows stand, and their set, bit by bit.
    fn row_set(&self, no: At) -> Answer<Option<(usize, u16)>> {
        let rows = match &self.rows {
            Some(rows) => rows,
            None => return Ok(None),
        };
        let mut set = 0;
        for row in rows.get_ref() {
            match row.get_ref() {
                0..=15 => set |= 1 << row.get_ref(),
                _ => return Err(no(row.start(), "a row has a number from 0 to 15")),
            }
        }
        Ok(Some((rows.start(), set)))
    }

    /// Where in the text the fault of a refusal stands, and its name.
    fn fault(&self, refusal: Refusal) -> Option<(usize, String)> {
        match refusal {
            Refusal::DataBits => Some((self.columns.start(), format!(", {} columns", self.columns.get_ref().len()))),
            Refusal::CheckBits => Some((self.r.start(), String::new())),
            Refusal::RowSet { reason: 1 } => self.rows.as_ref().map(|rows| (rows.start(), String::new())),
            Refusal::RowSet { .. } => Some((self.columns.start(), String::new())),
            Refusal::WideColumn { place }
            | Refusal::EvenColumn { place }
            | Refusal::SingleOne { place }
            | Refusal::RepeatedColumn { place } => {
                let column = self.columns.get_ref().get(place)?;
                Some((column.start(), format!(", {:#b}", column.get_ref())))
            }
            _ => None,
        }
    }
}
