//! The card check: every set of two or more places of a card is flipped, and reading must flag it.

use crate::answers::{CardsChecked, Refusal};
use crate::code::{ones, switches, Coded};
use crate::word::Accepted;

/// Does reading flag this word, neither clean nor one flip from clean?
// A set flipped in a clean word gives a clean one iff its columns' exclusive or is 0, one flip from clean iff a column.
fn is_flagged(code: &Accepted, word: &[bool]) -> bool {
    code.verdict(word).0 > 2
}

/// The places of each card, by the cards' numbers: b places fill a card, and none has data and check places.
pub fn cards(code: &Accepted, b: usize) -> Vec<Vec<usize>> {
    let mut cards: Vec<Vec<usize>> = Vec::new();
    for place in 0..code.n() {
        match cards.last_mut() {
            Some(card) if card.len() < b && place != code.k => card.push(place),
            _ => cards.push(vec![place]),
        }
    }
    cards
}

/// The first card, and on it the smallest mask, whose flips in the given clean word are not flagged.
pub fn weak_spot(code: &Accepted, clean: &[bool], b: usize) -> Option<(usize, usize)> {
    for (card, on_card) in cards(code, b).iter().enumerate() {
        for mask in 0..1usize << on_card.len() {
            let chosen = switches(mask as u128, on_card.len());
            if ones(&chosen) < 2 {
                continue;
            }
            let mut word = clean.to_vec();
            for (&place, _) in on_card.iter().zip(chosen).filter(|&(_, on)| on) {
                word[place] = !word[place];
            }
            if !is_flagged(code, &word) {
                return Some((card, mask));
            }
        }
    }
    None
}

/// Is the code card-proof for cards of b places?
pub fn card_check<C: Coded>(code: &C, b: usize) -> CardsChecked {
    try_card_check(code, b).unwrap_or_else(CardsChecked::from)
}

fn try_card_check<C: Coded>(code: &C, b: usize) -> Result<CardsChecked, Refusal> {
    let code = Accepted::new(code)?;
    if !(2..=8).contains(&b) {
        return Err(Refusal::plain(8));
    }
    let mut clean = vec![true; code.n()];
    code.write(&mut clean);
    Ok(match weak_spot(&code, &clean, b) {
        Some((card, mask)) => CardsChecked { number: 9, card, mask, ..CardsChecked::default() },
        None => CardsChecked::default(),
    })
}

#[cfg(test)]
mod tests {
    use super::*;
    use crate::{program::sample_code, word::word_of, word::write};

    #[test]
    fn every_clean_word_shows_the_same_weak_spot() {
        let sample = Accepted::new(&sample_code()).unwrap();
        for data in 0..=0xFFu64 {
            let clean = word_of(&sample, data.into(), write(&sample_code(), data).check).unwrap();
            assert_eq!(weak_spot(&sample, &clean, 2), None);
            assert_eq!(weak_spot(&sample, &clean, 3), Some((1, 7)));
            assert_eq!(weak_spot(&sample, &clean, 4), Some((0, 11)));
        }
    }

    #[test]
    fn cards_begin_again_at_the_first_check_place() {
        let sample = Accepted::new(&sample_code()).unwrap();
        assert_eq!(cards(&sample, 8), [vec![0, 1, 2, 3, 4, 5, 6, 7], vec![8, 9, 10, 11, 12]]);
        assert_eq!(cards(&sample, 5), [vec![0, 1, 2, 3, 4], vec![5, 6, 7], vec![8, 9, 10, 11, 12]]);
        let numbers: Vec<usize> =
            (2..=8).map(|b| cards(&sample, b).iter().position(|card| card[0] == 8).unwrap()).collect();
        assert_eq!(numbers, [4, 3, 2, 2, 2, 2, 1]);
    }
}
