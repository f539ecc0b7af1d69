//! Codes with a set of rows: the figures of source document 002, every reason, and faults that the comparison must notice.

use second::{card_check, compare_rows, explain, find_bad, judge, pass, read, recover, row_balance, write};
use second::{Amounts, Balanced, CardsChecked, Chosen, Code, Coded, Explained, Judged, OfCodes, Pass, Passed, Reading};
use second::{Found, Recovered, RowCode, Second, WideRowCode, Written};

const FIGURE_1: [u16; 13] = [28, 26, 25, 22, 21, 19, 30, 29, 17, 18, 20, 24, 16];
const FIGURE_3: [u16; 13] = [28, 14, 22, 26, 29, 3, 5, 9, 17, 2, 4, 8, 16];

fn code(columns: &[u16], r: usize, rows: u16) -> RowCode {
    RowCode::with(columns, columns.len(), r, rows)
}

fn sample() -> Code {
    Code::of(&[28, 26, 25, 22, 21, 19, 14, 13], 5)
}

#[test]
fn the_figures_are_codes_by_their_sets_alone() {
    let sets = |columns: &[u16; 13]| -> Vec<u16> {
        (0..64).filter(|&rows| judge(&code(columns, 5, rows)).number == 0).collect()
    };
    assert_eq!(sets(&FIGURE_1), [16]);
    assert_eq!(sets(&FIGURE_3), [30]);
    assert_eq!(judge(&RowCode::from_old(&sample())), Judged::default());
}

#[test]
fn figures_1_and_2_define_the_same_words() {
    let one = code(&FIGURE_1, 5, 16);
    for data in 0..256 {
        assert_eq!(write(&one, data), write(&sample(), data));
    }
}

#[test]
fn every_reason_is_told_before_the_next() {
    let told = |columns: &[u16], rows: u16| judge(&code(columns, 3, rows));
    let reason = |told: usize| Judged { number: 20, told };
    // Columns 7, then 5, 6 and 4 with row 2; 7, then 1, 3 and 5 with row 0: either corner may be the empty one.
    assert_eq!(told(&[7, 5, 6, 4], 4), Judged::default());
    assert_eq!(told(&[7, 1, 3, 5], 1), Judged::default());
    assert_eq!(told(&[7, 3, 2, 5], 1), reason(3));
    assert_eq!(told(&[0, 0, 0, 0], 0), reason(1));
    assert_eq!(told(&[0, 0, 0, 0], 8), reason(1));
    assert_eq!(told(&[5, 5, 6, 4], 4), reason(2));
    assert_eq!(told(&[0, 5, 6, 3], 4), reason(2));
    assert_eq!(told(&[3, 6, 5, 4], 4), reason(3));
    assert_eq!(told(&[3, 5, 6, 4], 4), reason(4));
    assert_eq!(told(&[3, 5, 6, 12], 0), Judged { number: 3, told: 3 });
}

#[test]
fn it_has_every_worked_case_right() {
    assert_eq!(second::worked_rows(&Second), Vec::<String>::new());
}

/// What may be wrong with a desk.
#[derive(Clone, Copy, PartialEq, Eq, Debug)]
enum Fault {
    AllRowsJudged,
    AllRowsRead,
    OneCornerOnly,
    ReasonsTurned,
    DataEqualToCheck,
    SingleOnesWritten,
    NoLeftover,
    CardsOverAll,
}

use Fault::*;

const FAULTS: [Fault; 8] = [
    AllRowsJudged,
    AllRowsRead,
    OneCornerOnly,
    ReasonsTurned,
    DataEqualToCheck,
    SingleOnesWritten,
    NoLeftover,
    CardsOverAll,
];

/// The second program with a fault.
struct Wrong(Option<Fault>);

impl Wrong {
    fn has(&self, fault: Fault) -> bool {
        self.0 == Some(fault)
    }
}

fn all_rows(code: &RowCode) -> RowCode {
    RowCode { rows: ((1u32 << code.r.min(16)) - 1) as u16, ..*code }
}

impl OfCodes<RowCode> for Wrong {
    fn name(&self) -> &'static str {
        "wrong"
    }

    fn judge(&self, code: &RowCode) -> Judged {
        let answer = judge(code);
        let columns = &code.columns[..code.n.min(80)];
        match (self.0, answer) {
            (Some(AllRowsJudged), Judged { number: 20, told: 4 }) => judge(&all_rows(code)),
            (Some(OneCornerOnly), Judged { number: 0, .. })
                if columns[code.k()..].iter().any(|c| c & 1 == 1 && c & 2 != 0) =>
            {
                Judged { number: 20, told: 3 }
            }
            (Some(ReasonsTurned), Judged { number: 20, told: 3 }) => Judged { number: 20, told: 4 },
            (Some(DataEqualToCheck), Judged { number: 20, told: 2 }) if !columns.contains(&0) => Judged::default(),
            (Some(NoLeftover), Judged { number: 21, .. }) => Judged::default(),
            _ => answer,
        }
    }

    fn row_balance(&self, code: &RowCode) -> Balanced {
        row_balance(code)
    }

    fn write(&self, code: &RowCode, data: u64) -> Written {
        let mut answer = write(code, data);
        if self.has(SingleOnesWritten) && answer.number == 0 {
            let places = (0..code.k()).filter(|place| data >> place & 1 == 1);
            answer.check = places.fold(0, |mix, place| mix ^ code.columns[place]);
        }
        answer
    }

    fn read(&self, code: &RowCode, data: u64, check: u16) -> Reading {
        let mut answer = read(code, data, check);
        if self.has(AllRowsRead) && answer.verdict > 2 {
            answer.verdict = if answer.syndrome.count_ones() % 2 == 0 { 3 } else { 4 };
        }
        answer
    }

    fn explain(&self, code: &RowCode, data: u64, check: u16, limit: usize, list: &mut [u8]) -> Explained {
        explain(code, data, check, limit, list)
    }

    fn card_check(&self, code: &RowCode, b: usize) -> CardsChecked {
        let mut answer = card_check(code, b);
        if self.has(CardsOverAll) && answer.number == 9 {
            answer.card = answer.card.min(code.k() / b);
        }
        answer
    }

    fn pass(&self, code: &RowCode, image: &mut [u8], journal: &mut [u8], asked: &Pass) -> Passed {
        pass(code, image, journal, asked)
    }

    fn recover(&self, code: &RowCode, data: u64, check: u16, bad: &[usize]) -> Recovered {
        recover(code, data, check, bad)
    }

    fn find_bad(&self, code: &RowCode, first: (u64, u16), second: (u64, u16)) -> Found {
        find_bad(code, first, second)
    }
}

#[test]
fn the_comparison_notices_every_fault() {
    let amounts = Amounts { codes: 2_000, words: 20_000, cards: 2_000, ..Amounts::NONE };
    let old: [&dyn OfCodes<Code>; 2] = [&Second, &Second];
    let sound: [&dyn OfCodes<RowCode>; 2] = [&Second, &Wrong(None)];
    assert!(compare_rows(&sound, &old, &amounts).is_ok());
    for fault in FAULTS {
        let desks: [&dyn OfCodes<RowCode>; 2] = [&Second, &Wrong(Some(fault))];
        assert!(compare_rows(&desks, &old, &amounts).is_err(), "{:?}", fault);
    }
}

#[test]
fn the_wide_edition_has_144_places_and_128_data_bits() {
    let full: Vec<u16> = (0..512u16).filter(|column| column.count_ones() % 2 == 1 && column.count_ones() > 1).collect();
    let columns: Vec<u16> = full[..128].iter().copied().chain((0..9).map(|row| 1 << row)).collect();
    let code = WideRowCode::with(&columns, 137, 9, 511);
    assert_eq!(judge(&code), Judged::default());
    assert_eq!(judge(&WideRowCode { n: 138, ..code }).number, 1);
    assert_eq!(judge(&WideRowCode { n: 136, ..code }).number, 20);
    assert_eq!((WideRowCode::PLACES, WideRowCode::KEPT, RowCode::KEPT), (128, 144, 80));
}
