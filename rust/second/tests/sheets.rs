//! The station sheet: what 19 is said of, the ends of limits, and the worked shares.

use second::{sheet, Limit, Sheeted, Station};

const SIGN: u64 = 1 << 63;
const INFINITY: u64 = 0x7FF << 52;

fn bits(figure: f64) -> u64 {
    figure.to_bits()
}

/// A station that the desk makes a sheet for: 667 hours, 8,192 devices, a quarter of 4 words mended.
fn station() -> Station {
    Station { hours: bits(667.0), devices: 8_192, words: 4, mended: 1, limit: Limit::Open }
}

fn refused() -> Sheeted {
    Sheeted { number: 19, ..Sheeted::default() }
}

fn yes(limit: Limit) -> bool {
    let answer = sheet(&Station { limit, ..station() });
    assert_eq!((answer.number, answer.told), (0, 0));
    answer.yes
}

#[test]
fn a_sheet_has_three_figures() {
    let answer = sheet(&station());
    let expected = Sheeted {
        yes: true,
        device: bits(667.0),
        station: bits(667.0 / 8_192.0),
        share: bits(0.25),
        ..Sheeted::default()
    };
    assert_eq!(answer, expected);
}

#[test]
fn ends_are_inside() {
    assert!(yes(Limit::Ceiling(bits(0.25))) && yes(Limit::Ceiling(bits(0.5))) && yes(Limit::Ceiling(bits(2.0))));
    assert!(!yes(Limit::Ceiling(bits(0.25) - 1)) && !yes(Limit::Ceiling(0)) && !yes(Limit::Ceiling(SIGN)));
    assert!(yes(Limit::Band(bits(0.25), bits(0.25))) && yes(Limit::Band(0, bits(0.25))));
    assert!(yes(Limit::Band(bits(0.25), bits(1.0))) && yes(Limit::Band(SIGN, bits(1.0))));
    assert!(!yes(Limit::Band(bits(0.25) + 1, bits(1.0))) && !yes(Limit::Band(0, bits(0.25) - 1)));
}

#[test]
fn nothing_mended_is_within_a_ceiling_of_either_zero() {
    for zero in [0, SIGN] {
        let answer = sheet(&Station { mended: 0, limit: Limit::Ceiling(zero), ..station() });
        assert_eq!((answer.number, answer.yes, answer.share), (0, true, 0));
        let answer = sheet(&Station { mended: 0, limit: Limit::Band(zero, zero), ..station() });
        assert_eq!((answer.number, answer.yes, answer.share), (0, true, 0));
    }
}

#[test]
fn counts_end_at_0_and_65_535() {
    for count in [1, 65_535] {
        assert_eq!(sheet(&Station { devices: count, ..station() }).number, 0);
        assert_eq!(sheet(&Station { words: count, mended: count, ..station() }).number, 0);
    }
    for count in [0, 65_536, 65_537, 1 << 32, usize::MAX] {
        assert_eq!(sheet(&Station { devices: count, ..station() }), refused());
        assert_eq!(sheet(&Station { words: count, mended: 0, ..station() }), refused());
    }
    for mended in [5, 65_536, 65_540, usize::MAX] {
        assert_eq!(sheet(&Station { mended, ..station() }), refused());
    }
}

#[test]
fn hours_are_finite_and_above_zero() {
    for hours in [1, (1 << 52) - 1, 1 << 52, bits(1.0), INFINITY - 1] {
        assert_eq!(sheet(&Station { hours, ..station() }).number, 0);
    }
    let nans = [INFINITY + 1, bits(f64::NAN), u64::MAX, SIGN | (INFINITY + 1)];
    for hours in [0, SIGN, SIGN | 1, bits(-1.0), INFINITY, SIGN | INFINITY].into_iter().chain(nans) {
        assert_eq!(sheet(&Station { hours, ..station() }), refused());
    }
}

#[test]
fn limits_are_finite_not_below_zero_and_the_right_way_up() {
    let bad = [SIGN | 1, bits(-1.0), INFINITY, SIGN | INFINITY, INFINITY + 1, bits(f64::NAN), u64::MAX];
    for figure in bad {
        for limit in [Limit::Ceiling(figure), Limit::Band(figure, bits(1.0)), Limit::Band(0, figure)] {
            assert_eq!(sheet(&Station { limit, ..station() }), refused());
        }
    }
    assert_eq!(sheet(&Station { limit: Limit::Band(1, 0), ..station() }), refused());
    assert_eq!(sheet(&Station { limit: Limit::Band(bits(0.5), bits(0.5) - 1), ..station() }), refused());
    // Minus zero and zero are one figure: neither band is upside down.
    for limit in [Limit::Band(0, SIGN), Limit::Band(SIGN, 0)] {
        assert_eq!(sheet(&Station { limit, ..station() }).number, 0);
    }
}

#[test]
fn hours_per_station_may_round_to_nothing() {
    let answer = sheet(&Station { hours: 1, devices: 65_535, ..station() });
    assert_eq!((answer.number, answer.device, answer.station), (0, 1, 0));
}
