//! "Images, journal and tally": runs, tails, what stays, and the tally itself; 02's stamps and entries in use.

mod common;

use common::*;
use second::*;

/// One record of each verdict 0 to 5 under the sample code, and what a pass leaves of it.
fn one_of_each() -> (Vec<Vec<u8>>, Vec<Vec<u8>>) {
    let read = [(0xA5, 27), (0xA4, 27), (0xA5, 26), (0xA6, 27), (0xA6, 26), (0xA5, 0x3B)];
    let left = [(0xA5, 27), (0xA5, 27), (0xA5, 27), (0xA6, 27), (0xA6, 26), (0xA5, 0x3B)];
    let records = |words: [(u64, u16); 6]| words.iter().map(|&(data, check)| record(data, check)).collect();
    (records(read), records(left))
}

#[test]
fn every_run_of_an_image() {
    let (read, left) = one_of_each();
    let places = [NONE, 0, 8, NONE, NONE, NONE];
    let syndromes = [0, 28, 1, 6, 7, 0];
    for start in 0..=6 {
        for end in start..=6 {
            for tail in [0, 1, 29, 30, 62] {
                let noted: Vec<u8> = (start.max(1)..end)
                    .flat_map(|at| {
                        let head = [1, 2, 3, 4, at as u8, 0, at as u8, places[at] as u8, syndromes[at], 0];
                        [&head[..], &read[at], &left[at]].concat()
                    })
                    .collect();
                let (mut image, mut journal) = (read.concat(), vec![0xEE; noted.len() + tail]);
                let mut tally = [0; 6];
                tally[start..end].fill(1);
                let (asked, used) = (Pass { stamp: 0x0403_0201, ..over(start, end) }, noted.len() / 30);
                assert_eq!(pass(&sample_code(), &mut image, &mut journal, &asked), pass_done(used, tally));
                assert_eq!(image, [&read[..start], &left[start..end], &read[end..]].concat().concat());
                assert_eq!(journal, [noted, vec![0xEE; tail]].concat());
            }
        }
    }
}

#[test]
fn equal_ends_are_done() {
    let (read, _) = one_of_each();
    for at in 0..=6 {
        let mut image = read.concat();
        assert_eq!(pass(&sample_code(), &mut image, &mut [], &over(at, at)), pass_done(0, [0; 6]));
        assert_eq!(image, read.concat());
    }
    assert_eq!(pass(&sample_code(), &mut [], &mut [0; 32], &over(0, 0)), pass_done(0, [0; 6]));
}

#[test]
fn record_numbers_count_from_the_images_start() {
    let mut image = vec![0; 65_530];
    image[65_520..].copy_from_slice(&record(0xA4, 27));
    let mut journal = [0xEE; 31];
    let asked = over(6_552, 6_553);
    assert_eq!(pass(&sample_code(), &mut image, &mut journal, &asked), pass_done(1, [0, 1, 0, 0, 0, 0]));
    assert_eq!(journal[..10], hex("00 00 00 00 98 19 01 00 1C 00"));
    assert_eq!(journal[20..], hex("A5 00 00 00 00 00 00 00 1B 00 EE"));
    assert_eq!(image[65_520..], record(0xA5, 27));
}

#[test]
fn a_full_image_of_damaged_records() {
    let mut image = record(0xA4, 27).repeat(6_553);
    let mut journal = vec![0xEE; 30 * 6_553 + 5];
    let (short, asked) = (30 * 6_553 - 1, over(0, 6_553));
    assert_eq!(pass(&sample_code(), &mut image, &mut journal[..short], &asked), pass_refused(13, 6_553));
    assert!(image == record(0xA4, 27).repeat(6_553) && journal.iter().all(|&byte| byte == 0xEE));
    let done = pass_done(6_553, [0, 6_553, 0, 0, 0, 0]);
    assert_eq!(pass(&sample_code(), &mut image, &mut journal, &asked), done);
    assert!(image == record(0xA5, 27).repeat(6_553) && journal[30 * 6_553..] == [0xEE; 5]);
}

#[test]
fn a_second_pass_finds_nothing_to_mend() {
    let (read, left) = one_of_each();
    let mut image = read.concat();
    let mut journal = [0xEE; 150];
    pass(&sample_code(), &mut image, &mut journal, &over(0, 6));
    assert_eq!(pass(&sample_code(), &mut image, &mut journal, &over(0, 6)), pass_done(3, [3, 0, 0, 1, 1, 1]));
    assert_eq!(image, left.concat());
}

#[test]
fn passes_that_follow_one_another_are_one_pass() {
    let (read, left) = one_of_each();
    for middle in 0..=6 {
        let (mut image, mut journal) = (read.concat(), vec![0xEE; 30 * 5 + 3]);
        let first = pass(&sample_code(), &mut image, &mut journal, &Pass { stamp: 9, ..over(0, middle) });
        let next = Pass { start: middle, end: 6, used: first.used, stamp: 9 };
        assert_eq!(pass(&sample_code(), &mut image, &mut journal, &next).used, 5);
        let mut whole = vec![0xEE; 30 * 5 + 3];
        pass(&sample_code(), &mut read.concat(), &mut whole, &Pass { stamp: 9, ..over(0, 6) });
        assert_eq!((image, journal), (left.concat(), whole));
    }
}

#[test]
fn used_entries_stay_whatever_they_say() {
    let (read, _) = one_of_each();
    for used in 0..=4 {
        let before: Vec<u8> = (0..30 * 9 + 5).map(|at| (at * 37) as u8).collect();
        let mut journal = before.clone();
        let asked = Pass { used, stamp: u32::MAX, ..over(0, 6) };
        assert_eq!(pass(&sample_code(), &mut read.concat(), &mut journal, &asked), pass_done(used + 5, [1; 6]));
        assert_eq!(journal[..30 * used], before[..30 * used]);
        assert_eq!(journal[30 * (used + 5)..], before[30 * (used + 5)..]);
        for (entry, at) in journal[30 * used..].chunks(30).zip(1..=5) {
            assert_eq!(entry[..7], [255, 255, 255, 255, at, 0, at]);
        }
    }
}

#[test]
fn the_stamp_of_an_entry_has_its_low_byte_first() {
    assert_eq!(stamp_of(&hex("01 02 03 04 FF")), 0x0403_0201);
    assert_eq!(stamp_of(&hex("FF FF FF FF 00")), u32::MAX);
    assert_eq!(stamp_of(&hex("00 00 00 80")), 1 << 31);
}

#[test]
fn stray_words_stay() {
    for (data, check) in [(0x1A4, 27), (0xA4, 0x801B), (u64::MAX, 0xFFFF), (1 << 63, 0)] {
        let mut image = record(data, check);
        let mut journal = [0xEE; 30];
        let done = pass_done(1, [0, 0, 0, 0, 0, 1]);
        assert_eq!(pass(&sample_code(), &mut image, &mut journal, &over(0, 1)), done);
        assert_eq!(image, record(data, check));
        assert_eq!(journal[..], [&[0, 0, 0, 0, 0, 0, 5, 255, 0, 0], &image[..], &image].concat());
    }
}

#[test]
fn the_tally_counts_and_stays_when_full() {
    assert_eq!(counted([0; 6], 0), [1, 0, 0, 0, 0, 0]);
    assert_eq!(counted([1, 2, 3, 4, 5, 6], 5), [1, 2, 3, 4, 5, 7]);
    assert_eq!(counted([0, 65_534, 0, 0, 0, 0], 1), [0, 65_535, 0, 0, 0, 0]);
    assert_eq!(counted([0, 65_535, 0, 0, 0, 0], 1), [0, 65_535, 0, 0, 0, 0]);
    for verdict in [6, 7, 255, usize::MAX] {
        assert_eq!(counted([1, 2, 3, 4, 5, 6], verdict), [1, 2, 3, 4, 5, 6]);
    }
}

#[test]
fn a_pass_tallies_and_enters_what_reading_one_word_after_the_other_says() {
    let mut cases = Cases::new(7);
    for _ in 0..300 {
        let case = cases.image();
        let mut image = case.image.clone();
        let Pass { start, end, .. } = case.asked;
        let mut journal = vec![0; 30 * 6_553];
        let answer = pass(&case.code, &mut image, &mut journal, &over(start, end));
        let (mut tally, mut entries) = ([0; 6], journal.chunks(30));
        if answer.number == 0 {
            for bytes in case.image.chunks(10).take(end).skip(start) {
                let data = u64::from_le_bytes(bytes[..8].try_into().unwrap());
                let reading = read(&case.code, data, u16::from_le_bytes(bytes[8..].try_into().unwrap()));
                tally = counted(tally, if reading.number == 7 { 5 } else { reading.verdict });
                if reading.number == 7 || reading.verdict != 0 {
                    let entry = entries.next().unwrap();
                    assert_eq!(entry[8..20], [&reading.syndrome.to_le_bytes()[..], bytes].concat());
                }
            }
        }
        assert_eq!(answer.tally, tally);
    }
}
