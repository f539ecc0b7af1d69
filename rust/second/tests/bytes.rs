//! Words of ten bytes: the matrix printed, the words that are written, the distance between them, and refusals.

use second::{byte_read, byte_write, single_errors, spoilt, ByteRead, ByteWritten};

fn written(data: u64) -> u64 {
    let answer = byte_write(data);
    assert_eq!((answer.number, answer.told), (0, 0));
    answer.word
}

/// T as printed, row by row, times a vector.
fn times_t(vector: u64) -> u64 {
    const ROWS: [[u64; 3]; 3] = [[0, 0, 1], [1, 0, 1], [0, 1, 0]];
    let bit = |row: [u64; 3]| (0..3).map(|column| row[column] * (vector >> column & 1)).sum::<u64>() % 2;
    bit(ROWS[0]) | bit(ROWS[1]) << 1 | bit(ROWS[2]) << 2
}

fn power_t(power: usize, vector: u64) -> u64 {
    (0..power).fold(vector, |vector, _| times_t(vector))
}

#[test]
fn a_vector_in_one_data_byte_goes_into_the_check_bytes_under_powers_of_t() {
    for i in 0..7 {
        for vector in 0..8 {
            let checks = vector << 21 | power_t(i, vector) << 24 | power_t(2 * i, vector) << 27;
            assert_eq!(written(vector << (3 * i)), vector << (3 * i) | checks);
        }
    }
}

#[test]
fn sums_of_data_give_sums_of_words() {
    for (one, other) in [(1, 8), (0o1234567, 0o7654321), (0o7777777, 0o5252525)] {
        assert_eq!(written(one ^ other), written(one) ^ written(other));
    }
    assert_eq!((written(8), written(1 << 18), written((1 << 21) - 1)), (572_522_504, 1_025_769_472, 16_777_215));
}

#[test]
fn two_words_differ_in_four_bytes_at_least() {
    // Words are linear in their data, so it is enough to look at the bytes that are not zero.
    let wrong = |word: u64| (0..10).filter(|t| word >> (3 * t) & 7 != 0).count();
    let least = (1..1 << 21).map(|data| wrong(written(data))).min();
    assert_eq!(least, Some(4));
}

#[test]
fn an_error_within_one_byte_is_put_right_and_within_two_flagged() {
    for data in [0, 1, 0o1234567, (1 << 21) - 1] {
        let word = written(data);
        assert_eq!(byte_read(word), ByteRead { byte: 255, word, ..ByteRead::default() });
        for (s, first) in single_errors() {
            let once = spoilt(word, s, first);
            let verdict = if s < 7 { 1 } else { 2 };
            assert_eq!(byte_read(once), ByteRead { verdict, byte: s, word, ..ByteRead::default() });
            for (t, second) in single_errors().filter(|&(t, _)| t != s) {
                let twice = spoilt(once, t, second);
                assert_eq!(byte_read(twice), ByteRead { verdict: 3, byte: 255, word: twice, ..ByteRead::default() });
            }
        }
    }
}

#[test]
fn number_7_a_bit_at_21_or_above_in_data_and_at_30_or_above_in_a_word() {
    for bit in 0..64 {
        let refused = ByteWritten { number: 7, ..ByteWritten::default() };
        assert_eq!(byte_write(1 << bit) == refused, bit >= 21);
        assert_eq!(byte_read(1 << bit) == ByteRead { number: 7, ..ByteRead::default() }, bit >= 30);
    }
}
