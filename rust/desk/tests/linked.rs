//! What the archive does, seen from Rust: every field of every answer, and the lent bytes that it must leave.

mod common;

use common::*;
use desk::ffi::*;
use desk::ENTRY;

/// The sample with the column at place 5 equal to that at place 4: refused by 6, told 5.
fn repeated() -> Code {
    let mut code = sample();
    code.columns[5] = code.columns[4];
    code
}

/// The sample spoiled in such a way that it is refused by this number, 1 to 6.
fn refused_by(number: usize) -> Code {
    let mut code = sample();
    match number {
        1 => code.k = 0,
        2 => code.r = 2,
        3 => code.columns[7] = 32,
        4 => code.columns[7] = 12,
        5 => code.columns[7] = 16,
        _ => code.columns[7] = 28,
    }
    code
}

/// A record of each verdict as often as its number and one more: the tally is 1, 2, 3, 4, 5, 6.
fn every_verdict() -> Vec<u8> {
    let words = [(0xA5, 27), (0xA4, 27), (0xA5, 26), (0xA6, 27), (0xA6, 26), (0x100, 0)];
    words.iter().enumerate().flat_map(|(verdict, &(data, check))| record(data, check).repeat(verdict + 1)).collect()
}

fn tally(counts: [u16; 6]) -> Tally {
    let [clean, data, check, even, odd, stray] = counts;
    Tally { clean, data, check, even, odd, stray }
}

#[test]
fn check_bits_and_judge() {
    assert_eq!(check_bits(64), CheckBits { number: 0, bits: 8 });
    assert_eq!(check_bits(65), CheckBits { number: 1, bits: 0 });
    assert_eq!(judge(&sample()), Judgement { number: 0, told: 0 });
    assert_eq!(judge(&repeated()), Judgement { number: 6, told: 5 });
}

#[test]
fn every_row_of_a_balance() {
    let columns = [
        0xAF08, 0xD0C0, 0xDE02, 0xE868, 0xEB04, 0xEE10, 0xF680, 0xF6A8, 0xF970, 0xFA80, 0xFB60, 0xFBC0, 0xFC80, 0xFC8C,
        0xFD88, 0xFF40, 0xFFC4,
    ];
    let rows = [-135, -119, -87, -55, -103, -71, -23, 9, -7, 41, 25, 89, 73, 105, 121, 137];
    assert_eq!(row_balance(&code_of(&columns, 16)), RowBalance { number: 0, told: 0, rows });
    assert_eq!(row_balance(&repeated()), RowBalance { number: 6, told: 5, rows: [0; 16] });
}

#[test]
fn writing_and_reading() {
    assert_eq!(write(&sample(), 0xFF), CheckWord { number: 0, told: 0, check: 12 });
    assert_eq!(write(&repeated(), 0xFF), CheckWord { number: 6, told: 5, check: 0 });
    let back = ReadWord { number: 0, told: 0, verdict: 2, place: 10, data: 0xA6, check: 29, syndrome: 4 };
    assert_eq!(read(&sample(), 0xA6, 25), back);
    assert_eq!(read(&repeated(), 0xA6, 25), ReadWord { number: 6, told: 5, ..ReadWord::default() });

    let data = 0x8877_6655_4433_2211;
    let check = write(&full(8), data).check;
    let syndrome = full(8).columns[63];
    let back = ReadWord { number: 0, told: 0, verdict: 1, place: 63, data, check, syndrome };
    assert_eq!(read(&full(8), data ^ 1 << 63, check), back);
}

#[test]
fn the_syndrome_of_every_verdict() {
    let words = [(0xA5, 27, 0, 0), (0xA4, 27, 1, 28), (0xA5, 26, 2, 1), (0xA6, 27, 3, 6), (0xA6, 26, 4, 7)];
    for (data, check, verdict, syndrome) in words {
        let answer = read(&sample(), data, check);
        assert_eq!((answer.verdict, answer.syndrome), (verdict, syndrome));
        assert_eq!(syndrome, write(&sample(), data).check ^ check);
    }
    let sixteen = code_of(&[0xFFFE], 16);
    assert_eq!((read(&sixteen, 1, 0).syndrome, read(&sixteen, 1, 0x4000).syndrome), (0xFFFE, 0xBFFE));
    for (data, check) in [(0x1A4, 27), (0xA5, 59)] {
        assert_eq!(read(&sample(), data, check), ReadWord { number: 7, ..ReadWord::default() });
    }
}

#[test]
fn lists_and_cards() {
    assert_eq!(explain(&sample(), 0xA6, 27, 2, &mut [0; 80]), Listing { number: 0, told: 0, length: 5 });
    assert_eq!(explain(&sample(), 0xA6, 27, 2, &mut []), Listing { number: 10, told: 5, length: 0 });
    assert_eq!(cards(&sample(), 3), CardCheck { number: 9, told: 0, card: 1, mask: 7 });
    assert_eq!(cards(&repeated(), 3), CardCheck { number: 6, told: 5, card: 0, mask: 0 });
}

#[test]
fn a_pass() {
    let mut image = every_verdict();
    let refused = PassAnswer { number: 13, told: 20, used: 0, tally: Tally::default() };
    assert_eq!(pass(&sample(), &mut image, 0, 21, &mut [], 0, 0), refused);

    let mut journal = vec![0xEE; 20 * ENTRY + 7];
    let done = PassAnswer { number: 0, told: 0, used: 20, tally: tally([1, 2, 3, 4, 5, 6]) };
    assert_eq!(pass(&sample(), &mut image, 0, 21, &mut journal, 0, 0x0403_0201), done);
    assert_eq!(journal[..11], [1, 2, 3, 4, 1, 0, 1, 0, 28, 0, 0xA4]);
    assert_eq!(journal[19 * ENTRY..][..12], [1, 2, 3, 4, 20, 0, 5, 255, 0, 0, 0, 1]);
    assert_eq!(journal[20 * ENTRY..], [0xEE; 7]);

    let again = PassAnswer { number: 0, told: 0, used: 15, tally: tally([6, 0, 0, 4, 5, 6]) };
    assert_eq!(pass(&sample(), &mut image, 0, 21, &mut journal, 0, 0), again);
}

#[test]
fn passes_follow_one_another_in_one_journal() {
    for pass in [pass, quick_pass] {
        let (mut image, mut journal) = (every_verdict(), vec![0xEE; 21 * ENTRY + 5]);
        let first = PassAnswer { number: 0, told: 0, used: 9, tally: tally([1, 2, 3, 4, 0, 0]) };
        assert_eq!(pass(&sample(), &mut image, 0, 10, &mut journal, 0, 7), first);
        let before = journal.clone();
        let second = PassAnswer { number: 0, told: 0, used: 20, tally: tally([0, 0, 0, 0, 5, 6]) };
        assert_eq!(pass(&sample(), &mut image, 10, 21, &mut journal, first.used, u32::MAX), second);
        assert_eq!(journal[..9 * ENTRY], before[..9 * ENTRY]);
        assert_eq!(journal[9 * ENTRY..][..11], [255, 255, 255, 255, 10, 0, 4, 255, 7, 0, 0xA6]);
        assert_eq!(journal[20 * ENTRY..], [0xEE; ENTRY + 5]);
    }
}

/// An entry of this record with a head that is no pass's.
fn entry(number: u8, before: Vec<u8>, after: Vec<u8>) -> Vec<u8> {
    [vec![9, 8, 7, 6, number, 0, 99, 77, 88, 66], before, after].concat()
}

#[test]
fn a_put_back() {
    // Record 0 was mended twice, record 1 was left as it was between.
    let (one, two, three) = (record(0xA4, 27), record(0xA5, 27), record(0xA5, 26));
    let entries =
        [entry(0, one.clone(), two.clone()), entry(1, one.clone(), one.clone()), entry(0, two, three.clone())];
    let journal = [entries.concat(), vec![0xEE; ENTRY + 5]].concat();
    let mut image = [three.clone(), one.clone()].concat();
    assert_eq!(put_back(&mut image, &journal, 3), PutBack { number: 0, told: 0, count: 3 });
    assert_eq!(image, one.repeat(2));

    // Entry 3 is not in use: its record lies outside the image. Without the last, record 0 does not match.
    for (used, count) in [(4, 0), (2, 1)] {
        let mut image = [three.clone(), one.clone()].concat();
        assert_eq!(put_back(&mut image, &journal, used), PutBack { number: 18, told: 0, count });
        assert_eq!(image, [three.clone(), one.clone()].concat());
    }
    assert_eq!(put_back(&mut [], &[], 0), PutBack::default());
}

#[test]
fn a_put_back_that_stops_leaves_what_was_put_back() {
    let (read, left, other) = (record(0xA4, 27), record(0xA5, 27), record(0xA7, 27));
    let journal: Vec<u8> = (0..4).flat_map(|number| entry(number, read.clone(), left.clone())).collect();
    let mut image = [left.clone(), other.clone(), left.clone(), left.clone()].concat();
    assert_eq!(put_back(&mut image, &journal, 4), PutBack { number: 18, told: 0, count: 2 });
    assert_eq!(image, [left, other, read.clone(), read].concat());
}

#[test]
fn a_refused_put_back_leaves_the_image() {
    let stays = |length: usize, room: usize, used: usize, number: usize| {
        let mut image = vec![0xEE; length];
        assert_eq!(put_back(&mut image, &[0xEE; 60][..room], used), PutBack { number, told: 0, count: 0 });
        assert_eq!(image, vec![0xEE; length]);
    };
    for length in [1, 9, 11, 19, 65_529, 65_531, 65_540] {
        stays(length, 60, 0, 12);
        stays(length, 60, usize::MAX, 12);
    }
    for (room, used) in [(60, 3), (59, 2), (0, 1), (60, 1 << 32), (60, (1 << 32) + 1), (60, usize::MAX)] {
        stays(20, room, used, 17);
    }
    stays(65_530, 60, 2, 18);
}

#[test]
fn bytes_outside_the_run_stay() {
    let before = every_verdict();
    let mut image = before.clone();
    let answer = pass(&sample(), &mut image, 2, 5, &mut [0; 3 * ENTRY], 0, 0);
    assert_eq!(answer.tally, tally([0, 1, 2, 0, 0, 0]));
    assert_eq!(image[..20], before[..20]);
    assert_eq!(image[20..50], record(0xA5, 27).repeat(3));
    assert_eq!(image[50..], before[50..]);
}

#[test]
fn a_refused_list_is_left_as_it_was() {
    let stays = |code: Code, data: u64, limit: usize, room: usize, number: usize| {
        let mut list = [0xEE; 80];
        let answer = explain(&code, data, 27, limit, &mut list[..room]);
        assert_eq!((answer.number, answer.length, list), (number, 0, [0xEE; 80]));
    };
    for number in 1..=6 {
        stays(refused_by(number), 0xA6, 2, 80, number);
    }
    stays(sample(), 0x100, 2, 80, 7);
    stays(sample(), 0xA6, 2, 9, 10);
    stays(sample(), 0xA6, 3, 80, 11);
}

#[test]
fn a_refused_image_and_its_journal_are_left_as_they_were() {
    // Each entry in use has the stamp EEEEEEEE.
    let stays = |code: Code, length: usize, end: usize, room: usize, used: usize, stamp: u32, number: usize| {
        let (mut image, mut journal) = (every_verdict(), vec![0xEE; 630]);
        let answer = pass(&code, &mut image[..length], 0, end, &mut journal[..room], used, stamp);
        assert_eq!((answer.number, answer.used, answer.tally), (number, 0, Tally::default()));
        assert_eq!((image, journal), (every_verdict(), vec![0xEE; 630]));
    };
    for number in 1..=6 {
        stays(refused_by(number), 210, 21, 600, 0, 0, number);
    }
    stays(sample(), 209, 20, 600, 0, 0, 12);
    stays(sample(), 210, 22, 600, 0, 0, 14);
    stays(sample(), 210, 21, 599, 0, 0, 13);
    stays(sample(), 210, 21, 629, 1, 0xEEEE_EEEE, 13);
    stays(sample(), 210, 21, 630, 1, 0xEEEE_EEED, 16);
    stays(sample(), 210, 0, 630, 21, 0, 16);
    stays(sample(), 210, 21, 630, 22, u32::MAX, 17);
    stays(sample(), 210, 0, 630, usize::MAX, u32::MAX, 17);
    stays(sample(), 210, 0, 630, 1 << 32, u32::MAX, 17);
}

#[test]
fn a_made_code() {
    let made = |columns: &[u16], r: usize| Made { number: 0, code: code_of(columns, r) };
    assert_eq!(make(11, 5), made(&[7, 11, 13, 14, 19, 21, 22, 25, 26, 28, 31], 5));
    assert_eq!(make(1, 16), made(&[7], 16));
    assert_eq!(judge(&make(64, 16).code), Judgement { number: 0, told: 0 });
}

#[test]
fn a_refused_maker_hands_back_zeros() {
    let refused = |number: usize| Made { number, code: code_of(&[], 0) };
    for (k, r) in [(0, 5), (65, 5), (65, 2), (usize::MAX, usize::MAX)] {
        assert_eq!(make(k, r), refused(1));
    }
    for (k, r) in [(64, 2), (64, 17), (1, 0), (1, usize::MAX)] {
        assert_eq!(make(k, r), refused(2));
    }
    for (k, r) in [(2, 3), (5, 4), (12, 5), (27, 6), (58, 7), (64, 3)] {
        assert_eq!(make(k, r), refused(15));
    }
}

/// An answer's numbers and the bits of its figures.
fn plain(answer: SheetAnswer) -> (usize, usize, bool, [u64; 3]) {
    let Sheet { device, station, share } = answer.sheet;
    (answer.number, answer.told, answer.yes, [device, station, share].map(f64::to_bits))
}

#[test]
fn sheets() {
    let figures = [6.0, 1.5, 0.125].map(f64::to_bits);
    assert_eq!(plain(sheet_open(6.0, 4, 8, 1)), (0, 0, true, figures));
    assert_eq!(plain(sheet_ceiling(6.0, 4, 8, 1, 0.125)), (0, 0, true, figures));
    assert_eq!(plain(sheet_ceiling(6.0, 4, 8, 1, 0.1)), (0, 0, false, figures));
    assert_eq!(plain(sheet_band(6.0, 4, 8, 1, 0.125, 0.125)), (0, 0, true, figures));
    assert_eq!(plain(sheet_band(6.0, 4, 8, 1, 0.2, 0.3)), (0, 0, false, figures));
    assert_eq!(plain(sheet_band(6.0, 4, 8, 1, 0.0, 0.1)), (0, 0, false, figures));
    assert_eq!(sheet_open(1.0, 1, 3, 1).sheet.share, 1.0 / 3.0);
}

#[test]
fn a_refused_sheet_is_no_and_three_plus_zeros() {
    let refused = (19, 0, false, [0; 3]);
    let no_hours = [0.0, -0.0];
    let no_figures = [-1.0, -f64::MIN_POSITIVE, f64::INFINITY, f64::NEG_INFINITY, f64::NAN, -f64::NAN];
    for hours in no_hours.into_iter().chain(no_figures) {
        assert_eq!(plain(sheet_open(hours, 4, 8, 1)), refused);
        assert_eq!(plain(sheet_ceiling(hours, 4, 8, 1, 1.0)), refused);
        assert_eq!(plain(sheet_band(hours, 4, 8, 1, 0.0, 1.0)), refused);
    }
    for figure in no_figures {
        assert_eq!(plain(sheet_ceiling(6.0, 4, 8, 1, figure)), refused);
        assert_eq!(plain(sheet_band(6.0, 4, 8, 1, figure, 1.0)), refused);
        assert_eq!(plain(sheet_band(6.0, 4, 8, 1, 0.0, figure)), refused);
    }
    for count in [0, 65_536, 65_537, 1 << 32, usize::MAX] {
        assert_eq!(plain(sheet_open(6.0, count, 8, 1)), refused);
        assert_eq!(plain(sheet_open(6.0, 4, count, 0)), refused);
    }
    assert_eq!(plain(sheet_open(6.0, 4, 8, 9)), refused);
    assert_eq!(plain(sheet_band(6.0, 4, 8, 1, 0.2, 0.1)), refused);
}

/// The word written for 8, a single one in data byte 1.
const EIGHT: u64 = 572_522_504;

#[test]
fn words_of_ten_bytes() {
    assert_eq!(byte_write(8), ByteWriting { number: 0, told: 0, word: EIGHT });
    assert_eq!(byte_write(1 << 18), ByteWriting { number: 0, told: 0, word: 1_025_769_472 });
    assert_eq!(byte_write((1 << 21) - 1), ByteWriting { number: 0, told: 0, word: 16_777_215 });
    let left = |verdict: usize, word: u64| ByteReading { verdict, byte: ByteNumber(255), word, ..Default::default() };
    assert_eq!(byte_read(EIGHT), left(0, EIGHT));
    for t in 0..10 {
        for pattern in 1..8 {
            let once = EIGHT ^ pattern << (3 * t);
            let verdict = if t < 7 { 1 } else { 2 };
            let back = ByteReading { verdict, byte: ByteNumber(t), word: EIGHT, ..Default::default() };
            assert_eq!(byte_read(once), back);
            for s in 0..t {
                assert_eq!(byte_read(once ^ 5 << (3 * s)), left(3, once ^ 5 << (3 * s)));
            }
        }
    }
}

#[test]
fn a_refused_word_of_ten_bytes_is_all_zeros() {
    for bit in 21..64 {
        assert_eq!(byte_write(8 | 1 << bit), ByteWriting { number: 7, ..Default::default() });
    }
    for bit in 30..64 {
        assert_eq!(byte_read(EIGHT | 1 << bit), ByteReading { number: 7, ..Default::default() });
    }
}

#[test]
fn recovering_from_bad_places() {
    let given = |data, check| Recovered { number: 0, told: 0, data, check };
    let refused = |number| Recovered { number, ..Recovered::default() };
    // A6 with 27 is A5 with 27 flipped at places 0 and 1; A6 with 25 also at place 9.
    assert_eq!(recover(&sample(), 0xA6, 27, &[0, 1]), given(0xA5, 27));
    assert_eq!(recover(&sample(), 0xA6, 27, &[1]), given(0xA5, 27));
    assert_eq!(recover(&sample(), 0xA6, 27, &[]), refused(23));
    assert_eq!(recover(&sample(), 0xA6, 27, &[0, 2]), refused(23));
    for bad in [[0, 1, 9], [9, 1, 0], [1, 0, 9]] {
        assert_eq!(recover(&sample(), 0xA6, 25, &bad), given(0xA5, 27));
    }
    // None bad: as reading has it.
    assert_eq!(recover(&sample(), 0xA5, 27, &[]), given(0xA5, 27));
    assert_eq!(recover(&sample(), 0xA6, 25, &[]), given(0xA6, 29));
    // A bad place need not be wrong.
    assert_eq!(recover(&sample(), 0xA5, 27, &[3, 7, 12]), given(0xA5, 27));

    let data = 0x8877_6655_4433_2211;
    let check = write(&full(8), data).check;
    assert_eq!(recover(&full(8), data ^ 1 << 63 ^ 1, check ^ 0x80, &[71, 63, 0]), given(data, check));
}

#[test]
fn refused_bad_places() {
    let refused = |number| Recovered { number, ..Recovered::default() };
    for bad in [&[0, 1, 2, 3][..], &[0, 0], &[0, 1, 0], &[13], &[0, usize::MAX], &[1 << 32, 1]] {
        assert_eq!(recover(&sample(), 0xA5, 27, bad), refused(22));
        assert_eq!(recover(&sample(), 0xA5, 32, bad), refused(7));
        assert_eq!(recover(&repeated(), 0xA5, 32, bad), Recovered { number: 6, told: 5, ..Recovered::default() });
    }
    assert_eq!(recover(&sample(), 0x100, 27, &[0]), refused(7));
}

#[test]
fn finding_bad_places() {
    let found = |data, check| BadPlaces { number: 0, told: 0, data, check };
    assert_eq!(find_bad(&sample(), (0xA5, 27), (0x5A, 4)), found(0, 0));
    assert_eq!(find_bad(&sample(), (0xA5, 27), (0x5B, 5)), found(1, 1));
    assert_eq!(find_bad(&sample(), (0, 0), (0, 0)), found(0xFF, 31));
    assert_eq!(find_bad(&full(8), (1, 2), (1, 2)), found(u64::MAX, 0xFF));
    for (first, second) in [((0x100, 0), (0, 0)), ((0, 0), (0x100, 0)), ((0, 32), (0, 0)), ((0, 0), (0, 32))] {
        assert_eq!(find_bad(&sample(), first, second), BadPlaces { number: 7, ..BadPlaces::default() });
    }
    assert_eq!(find_bad(&repeated(), (0, 32), (0, 0)), BadPlaces { number: 6, told: 5, ..BadPlaces::default() });
}
