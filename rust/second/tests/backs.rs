//! Putting back: every entry from the last on, where it stops, what is not judged, and when it is refused.

mod common;

use common::*;
use second::*;

/// An entry of this record with a head that is no pass's.
fn entry(number: u16, read: &[u8], left: &[u8]) -> Vec<u8> {
    let head = [&[1, 2, 3, 4][..], &number.to_le_bytes(), &[99, 77, 88, 66]].concat();
    [&head, read, left].concat()
}

fn back_done(count: usize) -> PutBack {
    PutBack { number: 0, told: 0, count }
}

fn back_stopped(count: usize) -> PutBack {
    PutBack { number: 18, told: 0, count }
}

#[test]
fn passes_are_put_back() {
    let words = [(0xA5, 27), (0xA4, 27), (0xA5, 26), (0xA6, 27), (0xA6, 26), (0xA5, 0x3B)];
    let as_read: Vec<u8> = words.iter().flat_map(|&(data, check)| record(data, check)).collect();
    let mut image = as_read.clone();
    let mut journal = vec![0xEE; 30 * 9 + 5];
    let first = pass(&sample_code(), &mut image, &mut journal, &over(1, 5));
    let second = pass(&sample_code(), &mut image, &mut journal, &Pass { used: first.used, stamp: 9, ..over(0, 6) });
    assert_eq!((first.used, second.used), (4, 7));
    assert_ne!(image, as_read);
    assert_eq!(put_back(&mut image, &journal, 7), back_done(7));
    assert_eq!(image, as_read);
}

#[test]
fn one_record_goes_back_through_all_its_bytes() {
    let states: Vec<Vec<u8>> =
        (0..9).map(|state| record(0x0101_0101_0101_0101 * state, 0x101 * state as u16)).collect();
    let journal: Vec<u8> = states.windows(2).flat_map(|pair| entry(1, &pair[0], &pair[1])).collect();
    let image = |state: usize| [&states[3], &states[state], &states[5]].map(|record| record.to_vec()).concat();
    for used in 0..=8 {
        let mut lent = image(used);
        assert_eq!(put_back(&mut lent, &journal, used), back_done(used));
        assert_eq!(lent, image(0));
        // In any other state the last entry in use does not match.
        for state in (0..=8).filter(|&state| state != used && used > 0) {
            let mut lent = image(state);
            assert_eq!(put_back(&mut lent, &journal, used), back_stopped(0));
            assert_eq!(lent, image(state));
        }
    }
}

#[test]
fn it_stops_at_each_entry_and_leaves_what_was_put_back() {
    let (read, left, other) = (record(0xA4, 27), record(0xA5, 27), record(0xA7, 27));
    let journal: Vec<u8> = (0..5).flat_map(|number| entry(number, &read, &left)).collect();
    for stop in 0..5 {
        let mut records = vec![left.clone(); 5];
        records[stop] = other.clone();
        let mut image = records.concat();
        assert_eq!(put_back(&mut image, &journal, 5), back_stopped(4 - stop));
        records[stop + 1..].fill(read.clone());
        assert_eq!(image, records.concat());
    }
}

#[test]
fn every_bit_of_number_and_bytes_as_left_counts_and_no_other() {
    let (read, left) = (record(0xA4, 27), record(0xA5, 27));
    let journal = entry(0, &read, &left);
    for bit in 0..8 * 30 {
        let (mut image, mut damaged) = (left.repeat(2), journal.clone());
        damaged[bit / 8] ^= 1 << (bit % 8);
        let answer = put_back(&mut image, &damaged, 1);
        match bit / 8 {
            // With bit 0 turned the entry is about record 1, which holds the same.
            4 | 5 if bit == 32 => assert_eq!((answer, &image[10..]), (back_done(1), &read[..])),
            4 | 5 | 20..=29 => assert_eq!((answer, image), (back_stopped(0), left.repeat(2))),
            _ => assert_eq!((answer, &image[..10], &image[10..]), (back_done(1), &damaged[10..20], &left[..])),
        }
    }
}

#[test]
fn a_record_outside_the_image_is_18() {
    let bytes = record(0xA6, 27);
    for records in [0, 1, 2, 255, 256, 257, 6_553] {
        for number in [0, 1, 2, 255, 256, 257, 6_552, 6_553, 65_535] {
            let mut image = bytes.repeat(records);
            let answer = put_back(&mut image, &entry(number, &bytes, &bytes), 1);
            assert_eq!(answer, if usize::from(number) < records { back_done(1) } else { back_stopped(0) });
            assert_eq!(image, bytes.repeat(records));
        }
    }
}

/// A put-back of entries that match, which changes nothing since it is refused.
fn unchanged(bytes: usize, journal: usize, used: usize) -> PutBack {
    let entries = entry(0, &[1; 10], &[0; 10]).repeat(4);
    let mut image = vec![0; bytes];
    let answer = put_back(&mut image, &entries[..journal], used);
    assert!(image.iter().all(|&byte| byte == 0));
    answer
}

#[test]
fn number_12_then_17() {
    for bytes in [1, 9, 11, 19, 65_529, 65_531, 65_535, 65_536, 65_540, 131_060] {
        for used in [0, 1, 5, usize::MAX] {
            assert_eq!(unchanged(bytes, 120, used), Refusal::plain(12).into());
        }
    }
    for bytes in [0, 10, 65_530] {
        for journal in [0, 1, 29, 30, 59, 60, 119, 120] {
            let room = journal / 30;
            for used in [room + 1, room + 2, 256 + room, 1 << 32, (1 << 32) + room, usize::MAX] {
                assert_eq!(unchanged(bytes, journal, used), Refusal::plain(17).into());
            }
            assert_eq!(unchanged(bytes, journal, 0), back_done(0));
        }
    }
    let mut image = [0; 10];
    assert_eq!(put_back(&mut image, &entry(0, &[1; 10], &[0; 10]).repeat(2), 1), back_done(1));
    assert_eq!(image, [1; 10]);
}
