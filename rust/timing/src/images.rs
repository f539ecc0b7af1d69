//! The images that are timed: the same at every run.

use crate::editions::{Data, Edition};

/// A small deterministic source of numbers (xorshift).
struct Numbers(u64);

impl Numbers {
    fn draw(&mut self) -> u64 {
        self.0 ^= self.0 << 13;
        self.0 ^= self.0 >> 7;
        self.0 ^= self.0 << 17;
        self.0
    }

    fn below(&mut self, end: usize) -> usize {
        (self.draw() % end as u64) as usize
    }
}

/// How many records are damaged: each that is has one flip or two, at places drawn from all n.
#[derive(Clone, Copy)]
pub enum Damage {
    None,
    Tenth,
    All,
}

impl Damage {
    pub const EACH: [Damage; 3] = [Damage::None, Damage::Tenth, Damage::All];

    pub fn name(self) -> &'static str {
        match self {
            Damage::None => "clean",
            Damage::Tenth => "one in ten damaged",
            Damage::All => "all damaged",
        }
    }
}

/// Images of so many records each, together about as many as the longest image has.
///
/// Different ones, lest the processor learn a short image by heart.
pub fn images<E: Edition>(code: &E::Code, records: usize, damage: Damage) -> Vec<Vec<u8>> {
    let mut numbers = Numbers(88_172_645_463_325_252);
    (0..E::IMAGE / E::RECORD / records).map(|_| image::<E>(code, records, damage, &mut numbers)).collect()
}

/// An image of random data.
fn image<E: Edition>(code: &E::Code, records: usize, damage: Damage, numbers: &mut Numbers) -> Vec<u8> {
    let (k, n) = (E::k(code), E::k(code) + E::r(code));
    let mut image = vec![0; E::RECORD * records];
    for record in image.chunks_exact_mut(E::RECORD) {
        for byte in &mut record[..E::Data::BYTES] {
            *byte = numbers.below(256) as u8;
        }
        let mut data = E::Data::read(record) >> (8 * E::Data::BYTES - k);
        let mut check = E::check_bits(code, data);
        let is_damaged = match damage {
            Damage::None => false,
            Damage::Tenth => numbers.below(10) == 0,
            Damage::All => true,
        };
        let flips = if is_damaged { 1 + numbers.below(2) } else { 0 };
        let first = numbers.below(n);
        let second = (first + 1 + numbers.below(n - 1)) % n;
        for place in [first, second].into_iter().take(flips) {
            if place < k {
                data = data ^ E::Data::ONE << place;
            } else {
                check ^= 1 << (place - k);
            }
        }
        data.put(record);
        record[E::Data::BYTES..].copy_from_slice(&check.to_le_bytes());
    }
    image
}
