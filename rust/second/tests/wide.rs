//! The wide edition: its worked cases, what the second program says by other means, and that the comparison notices what a
//! wrong desk of this edition does.

use second::*;

/// What a desk gets wrong.
#[derive(Clone, Copy, PartialEq, Debug)]
enum Fault {
    /// The high half is dropped where a word is written or read.
    HighHalfDropped,
    /// Place 64 is flipped in the low half: bit 0 of it.
    Place64InLowHalf,
    /// Bits between 64 and k are stray.
    StrayFrom64,
    /// From 64 data bits on no bit is stray.
    NoStrayPast64,
    /// A list is cut to 40 entries.
    FortyEntries,
    /// Records of ten bytes, and eight that nobody reads.
    TenByteRecords,
    /// Entries of 30 bytes.
    ThirtyByteEntries,
    /// An image may have 65,530 bytes.
    LongerImages,
    /// 8 check bits serve 128 data bits.
    EightCheckBits,
    /// 65 data bits and more are refused.
    SixtyFourAtMost,
    /// Places past 64 are not looked at by the judge's last test.
    LeftoverPast64,
    /// The put-back of the ten-byte edition.
    TenByteEntriesBack,
    /// A bad place at 80 or above, which no word of ten bytes has, is refused.
    EightyPlaces,
    /// The finder compares the low halves alone.
    LowHalfFound,
}

use Fault::*;

const FAULTS: [Fault; 14] = [
    HighHalfDropped,
    Place64InLowHalf,
    StrayFrom64,
    NoStrayPast64,
    FortyEntries,
    TenByteRecords,
    ThirtyByteEntries,
    LongerImages,
    EightCheckBits,
    SixtyFourAtMost,
    LeftoverPast64,
    TenByteEntriesBack,
    EightyPlaces,
    LowHalfFound,
];

/// The second program with a fault, or with none.
struct Wrong(Option<Fault>);

impl Wrong {
    fn has(&self, fault: Fault) -> bool {
        self.0 == Some(fault)
    }

    fn seen(&self, data: u128) -> u128 {
        if self.has(HighHalfDropped) {
            data & u128::from(u64::MAX)
        } else {
            data
        }
    }
}

impl OfCodes<WideCode> for Wrong {
    fn name(&self) -> &'static str {
        "wrong"
    }

    fn judge(&self, code: &WideCode) -> Judged {
        let mut code = *code;
        if self.has(LeftoverPast64) {
            let from = code.k.clamp(64, 128);
            code.columns[from..].fill(0);
        }
        if self.has(SixtyFourAtMost) && code.k > 64 {
            return Judged { number: 1, told: 0 };
        }
        judge(&code)
    }

    fn row_balance(&self, code: &WideCode) -> Balanced {
        row_balance(code)
    }

    fn write(&self, code: &WideCode, data: u128) -> Written {
        write(code, self.seen(data))
    }

    fn read(&self, code: &WideCode, data: u128, check: u16) -> Reading<u128> {
        let strays = |bits: u128| judge(code).number == 0 && bits != 0;
        if self.has(StrayFrom64) && strays(data >> 64) {
            return Reading { number: 7, ..Reading::default() };
        }
        if self.has(NoStrayPast64) && (64..128).contains(&code.k) && strays(data >> code.k) {
            return read(code, data & ((1 << code.k) - 1), check);
        }
        let mut answer = read(code, self.seen(data), check);
        if self.has(Place64InLowHalf) && answer.verdict == 1 && answer.place == 64 {
            answer.data = data ^ 1;
        }
        answer
    }

    fn explain(&self, code: &WideCode, data: u128, check: u16, limit: usize, list: &mut [u8]) -> Explained {
        let mut answer = explain(code, self.seen(data), check, limit, list);
        if self.has(FortyEntries) {
            answer.length = answer.length.min(40);
        }
        answer
    }

    fn card_check(&self, code: &WideCode, b: usize) -> CardsChecked {
        card_check(code, b)
    }

    fn pass(&self, code: &WideCode, image: &mut [u8], journal: &mut [u8], asked: &Pass) -> Passed {
        let before = (image.to_vec(), journal.to_vec());
        let mut answer = pass(code, image, journal, asked);
        let is_accepted = judge(code).number == 0;
        if self.has(LongerImages) && answer.number == 12 && (65_520..=65_530).contains(&image.len()) {
            answer.number = 0;
        }
        if self.has(ThirtyByteEntries) && is_accepted && asked.used > journal.len() / 46 {
            answer.number = if asked.used > journal.len() / 30 { 17 } else { 0 };
        }
        if self.has(TenByteRecords) && answer.number == 0 {
            // The check bits are looked for behind eight bytes of data.
            for (record, old) in image.chunks_exact_mut(18).zip(before.0.chunks_exact(18)) {
                record[10..].copy_from_slice(&old[10..]);
            }
        }
        answer
    }

    fn recover(&self, code: &WideCode, data: u128, check: u16, bad: &[usize]) -> Recovered<u128> {
        let answer = recover(code, self.seen(data), check, bad);
        if self.has(EightyPlaces) && answer.number == 0 && bad.iter().any(|&place| place >= 80) {
            return Recovered { number: 22, ..Recovered::default() };
        }
        answer
    }

    fn find_bad(&self, code: &WideCode, first: (u128, u16), second: (u128, u16)) -> Found<u128> {
        let mut answer = find_bad(code, first, second);
        if self.has(LowHalfFound) {
            answer.data &= u128::from(u64::MAX);
        }
        answer
    }
}

impl Questions<WideCode> for Wrong {
    fn wanted(&self, k: usize) -> Wanted {
        let mut answer = wanted_in::<WideCode>(k);
        if self.has(EightCheckBits) {
            answer.check_bits = answer.check_bits.min(8);
        }
        answer
    }

    fn put_back(&self, image: &mut [u8], journal: &mut [u8], used: usize) -> PutBack {
        if self.has(TenByteEntriesBack) {
            return put_back_in::<Code>(image, journal, used);
        }
        put_back_in::<WideCode>(image, journal, used)
    }

    fn make(&self, k: usize, r: usize) -> Made<WideCode> {
        make_in(k, r)
    }
}

const AMOUNTS: Amounts = Amounts {
    codes: 1_000,
    words: 3_000,
    lists: 500,
    cards: 100,
    images: 800,
    turns: 100,
    backs: 300,
    bad: 500,
    finds: 500,
    ..Amounts::NONE
};

#[test]
fn the_comparison_notices_every_fault() {
    let sound: [&dyn Questions<WideCode>; 2] = [&Second, &Wrong(None)];
    assert!(compare_wide(&sound, &AMOUNTS).is_ok());
    for fault in FAULTS {
        let desks: [&dyn Questions<WideCode>; 2] = [&Second, &Wrong(Some(fault))];
        assert!(compare_wide(&desks, &AMOUNTS).is_err(), "{:?} is not noticed", fault);
    }
}

#[test]
fn every_worked_case() {
    assert_eq!(worked_wide(&Second), Vec::<String>::new());
    for fault in FAULTS {
        assert_ne!(worked_wide(&Wrong(Some(fault))), Vec::<String>::new(), "{:?}", fault);
    }
}

#[test]
fn a_wide_code_of_up_to_64_data_bits_answers_as_a_code_does() {
    let mut cases = Cases::new(41);
    for _ in 0..3_000 {
        let cases::WordCase { code, data, check } = cases.word();
        if code.k > 64 {
            continue;
        }
        let wide = WideCode::with(&code.columns, code.k, code.r);
        assert_eq!(judge(&wide), judge(&code));
        assert_eq!(row_balance(&wide), row_balance(&code));
        assert_eq!(write(&wide, data.into()), write(&code, data));
        let (narrow, broad) = (read(&code, data, check), read(&wide, data.into(), check));
        assert_eq!((broad.number, broad.told, broad.verdict), (narrow.number, narrow.told, narrow.verdict));
        assert_eq!((broad.place, broad.syndrome, broad.check), (narrow.place, narrow.syndrome, narrow.check));
        assert_eq!(broad.data, narrow.data.into());
    }
}

#[test]
fn streams_meet_both_halves() {
    let mut cases: CasesOf<WideCode> = CasesOf::new(42);
    let (mut places, mut low, mut high, mut stray) = ([0; 144], 0, 0, [0; 2]);
    for _ in 0..40_000 {
        let word = cases.word();
        let answer = read(&word.code, word.data, word.check);
        match answer.number {
            0 if answer.place != 255 => places[answer.place] += 1,
            7 => stray[usize::from(word.data >> 64 >> word.code.k.saturating_sub(64) != 0)] += 1,
            _ => {}
        }
        low += usize::from(word.data as u64 != 0);
        high += usize::from(word.data >> 64 != 0);
    }
    assert!(places.iter().all(|&met| met > 0) && places[..128].iter().all(|&met| met > 5), "{:?}", places);
    assert!(low > 10_000 && high > 10_000 && stray.iter().all(|&met| met > 500), "{} {} {:?}", low, high, stray);
}

#[test]
fn a_list_of_72_entries() {
    let of_checks = (2..16).map(|row| 1 << row ^ 3);
    let of_data = (4..=u16::MAX).step_by(4).filter(|column| column.count_ones() == 3);
    let columns: Vec<u16> = of_checks.chain(of_data.flat_map(|column| [column, column ^ 3])).take(128).collect();
    let code = WideCode::of(&columns, 16);
    let mut list = [0; 144];
    assert_eq!(explain(&code, 0, 3, 2, &mut list), Explained { number: 0, told: 0, length: 72 });
    assert_eq!(explain(&code, 0, 3, 2, &mut list[..143]), Explained { number: 10, told: 72, length: 0 });
}
