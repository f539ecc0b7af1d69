//! Stations: every edge of counts, hours and limits, and stations from a seed.

use super::{Cases, HUGE};
use crate::sheet::{share, Limit, Station};

const SIGN: u64 = 1 << 63;
const INFINITY: u64 = 0x7FF << 52;
const ONE: u64 = 0x3FF << 52;

/// Patterns at every edge; each is asked with its sign turned too. Zero, the smallest figures, the largest with fewer
/// digits than 53, the smallest with all, a half, one and its neighbours, 667, the largest; infinity, and NaNs of
/// either kind with small, large and full payloads.
const FIGURES: [u64; 18] = [
    0,
    1,
    2,
    (1 << 52) - 1,
    1 << 52,
    (1 << 52) + 1,
    0x3FE << 52,
    ONE - 1,
    ONE,
    ONE + 1,
    0x4084_D800_0000_0000,
    INFINITY - 1,
    INFINITY,
    INFINITY + 1,
    INFINITY + 0xDEAD_BEEF,
    INFINITY + (1 << 51),
    INFINITY + (1 << 51) + 0xCAFE,
    SIGN - 1,
];

/// Counts at every edge, and such that a narrower number would take for one inside.
const COUNTS: [usize; 9] = [0, 1, 2, 3, 1_000, 65_534, 65_535, 65_536, 65_537];

fn counts() -> impl Iterator<Item = usize> {
    COUNTS.into_iter().chain(HUGE)
}

fn figures() -> impl Iterator<Item = u64> {
    FIGURES.into_iter().flat_map(|pattern| [pattern, pattern | SIGN])
}

/// A station that stands: 667 hours, 7 devices, 1 word of 3 mended.
const SOUND: Station = Station { hours: 0x4084_D800_0000_0000, devices: 7, words: 3, mended: 1, limit: Limit::Open };

/// Limits of every kind about a share: its ends at the share, and next to it.
fn limits_about(share: u64) -> Vec<Limit> {
    let near = [share.saturating_sub(1), share, share + 1, 0, SIGN, ONE];
    let bands = near.iter().flat_map(|&low| near.iter().map(move |&high| Limit::Band(low, high)));
    near.iter().map(|&high| Limit::Ceiling(high)).chain(bands).chain([Limit::Open]).collect()
}

/// Limits with every edge as a figure, and as both ends of a band.
fn limits_at_edges() -> Vec<Limit> {
    let bands = figures().flat_map(|low| figures().map(move |high| Limit::Band(low, high)));
    figures().map(Limit::Ceiling).chain(bands).chain([Limit::Open]).collect()
}

/// Every edge: hours by counts of devices, counts of words by mended ones, limits, and hours with limits.
pub fn edges() -> Vec<Station> {
    let mut edges = Vec::new();
    for hours in figures() {
        edges.extend(counts().map(|devices| Station { hours, devices, ..SOUND }));
        let limits = figures().flat_map(|figure| [Limit::Ceiling(figure), Limit::Band(figure, figure)]);
        edges.extend(limits.map(|limit| Station { hours, limit, ..SOUND }));
    }
    for words in counts() {
        let mended = counts().chain([words.saturating_sub(1), words, words.saturating_add(1)]);
        for station in mended.map(|mended| Station { words, mended, ..SOUND }) {
            let limits =
                [Limit::Open, Limit::Ceiling(0), Limit::Ceiling(ONE), Limit::Band(0, ONE), Limit::Band(ONE, 0)];
            edges.extend(limits.iter().map(|&limit| Station { limit, ..station }));
        }
    }
    for (mended, words) in [(0, 1), (1, 1), (1, 2), (1, 3), (2, 3), (1, 10), (1, 65_535), (65_534, 65_535)] {
        let limits = limits_about(share(mended, words));
        edges.extend(limits.iter().map(|&limit| Station { words, mended, limit, ..SOUND }));
    }
    edges.extend(limits_at_edges().iter().map(|&limit| Station { limit, ..SOUND }));
    edges
}

impl Cases {
    /// A station: mostly one that stands; now and then each part damaged, or more than one.
    pub fn station(&mut self) -> Station {
        let words = self.count();
        let mended = match self.random.below(16) {
            0 => 0,
            1 => words,
            2 => words.wrapping_add(1),
            3 => self.count(),
            _ => self.random.below(words.clamp(1, 65_535) + 1),
        };
        let stands = (1..=65_535).contains(&words) && mended <= words;
        let share = if stands { share(mended, words) } else { ONE };
        let limit = match self.random.below(5) {
            0 | 1 => Limit::Ceiling(self.limit_figure(share)),
            2 | 3 => self.band(share),
            _ => Limit::Open,
        };
        Station { hours: self.hours(), devices: self.count(), words, mended, limit }
    }

    /// A count of devices or of words: small, large, or now and then one that is refused.
    fn count(&mut self) -> usize {
        match self.random.below(24) {
            0 => self.random.pick(&COUNTS),
            1 if self.random.once_in(2) => self.random.pick(&HUGE),
            2..=8 => 1 + self.random.below(20),
            _ => 1 + self.random.below(65_535),
        }
    }

    /// Hours: of every size, whole, with few digits, at an edge, or any pattern.
    fn hours(&mut self) -> u64 {
        match self.random.below(24) {
            0 => self.edge(),
            1 => self.random.draw(),
            2..=5 => self.random.draw() % (1 << 52),
            6..=9 => self.random.draw() % (1 << 20),
            10..=14 => ((1 + self.random.below(100_000)) as f64).to_bits(),
            _ => self.random.draw() % INFINITY,
        }
    }

    fn edge(&mut self) -> u64 {
        self.random.pick(&FIGURES) | if self.random.once_in(3) { SIGN } else { 0 }
    }

    /// A limit's figure: the share, a neighbour of it, any from 0 to 1, an edge, or any pattern.
    fn limit_figure(&mut self, share: u64) -> u64 {
        match self.random.below(24) {
            0 => self.edge(),
            1 => self.random.draw(),
            2..=6 => share,
            7..=12 => (share + self.random.below(7) as u64).saturating_sub(3),
            13..=16 => self.random.draw() % INFINITY,
            _ => self.random.draw() % (ONE + 1),
        }
    }

    /// A band, one in eight as it comes and so perhaps upside down.
    fn band(&mut self, share: u64) -> Limit {
        let (one, two) = (self.limit_figure(share), self.limit_figure(share));
        if self.random.once_in(8) {
            Limit::Band(one, two)
        } else {
            Limit::Band(one.min(two), one.max(two))
        }
    }
}
