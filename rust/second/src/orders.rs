//! Any order of passes (request 113). What every order must leave is found from the first image alone, each record read
//! once and no pass run; a desk is asked for every order.

use crate::cases::{OrdersCase, OverlapCase};
use crate::code::Hsiao;
use crate::compare::Lent;
use crate::desk::Questions;
use crate::pass::{see, stamp_of, Pass, Seen};
use crate::word::Accepted;

/// An entry as bytes, and of the stamp nothing.
fn unstamped(entry: &[u8]) -> Vec<u8> {
    entry[4..].to_vec()
}

/// The number of the record that an entry is of.
fn record_of(entry: &[u8]) -> usize {
    usize::from(entry[4]) + 256 * usize::from(entry[5])
}

/// Every record of the image, read.
fn read_all<C: Hsiao>(code: &C, image: &[u8]) -> Vec<Seen> {
    let code = Accepted::new(code).unwrap_or_else(|_| panic!("the case has a sound code"));
    image.chunks_exact(C::RECORD).enumerate().map(|(record, bytes)| see(&code, record, bytes)).collect()
}

/// What passes over runs apart leave: every byte but those of stamps, guards too.
#[derive(Clone, PartialEq, Eq, Debug)]
pub struct Left {
    pub image: Vec<u8>,
    /// The journal before the new entries, and behind them.
    pub front: Vec<u8>,
    pub tail: Vec<u8>,
    /// The new entries without their stamps, by their records.
    pub entries: Vec<Vec<u8>>,
    /// Whether each new entry has the stamp of its pass.
    pub is_stamped: bool,
    /// Each run's number and tally, as the case names the runs.
    pub answers: Vec<(usize, [usize; 6])>,
}

/// The journal before the entries from one count in use up to another, these, and what is behind them, guards too.
fn parted<C: Hsiao>(journal: &Lent, from: usize, to: usize) -> (Vec<u8>, Vec<Vec<u8>>, Vec<u8>) {
    let (front, rest) = journal.halves(C::ENTRY.saturating_mul(from));
    let (new, tail) = rest.split_at(C::ENTRY.saturating_mul(to.saturating_sub(from)).min(rest.len()));
    (front.to_vec(), new.chunks_exact(C::ENTRY).map(<[u8]>::to_vec).collect(), tail.to_vec())
}

/// What every order of the passes must leave: one and the same.
pub fn promised_orders<C: Hsiao>(case: &OrdersCase<C>) -> Vec<Left> {
    let seen = read_all(&case.code, &case.image);
    let is_passed = |one: &&Seen| case.runs.iter().any(|&(start, end)| start <= one.record && one.record < end);
    let passed: Vec<&Seen> = seen.iter().filter(is_passed).collect();
    let mut image = case.image.clone();
    for one in &passed {
        image[C::RECORD * one.record..][..C::RECORD].copy_from_slice(&one.after);
    }
    let entries: Vec<Vec<u8>> =
        passed.iter().filter(|one| one.verdict != 0).map(|one| unstamped(&one.entry(0))).collect();
    let tally = |&(start, end): &(usize, usize)| {
        let of = |verdict: usize| seen[start..end].iter().filter(|one| one.verdict == verdict).count();
        (0, [of(0), of(1), of(2), of(3), of(4), of(5)])
    };
    let (front, _, tail) = parted::<C>(&Lent::new(&case.journal), case.used, case.used + entries.len());
    let answers = case.runs.iter().map(tally).collect();
    vec![Left { image: Lent::new(&image).all().to_vec(), front, tail, entries, is_stamped: true, answers }]
}

/// What one order of the passes leaves: the runs by their places in the case, in the order in which they are passed over.
fn left_by<C: Hsiao>(desk: &dyn Questions<C>, case: &OrdersCase<C>, order: &[usize]) -> Left {
    let (mut image, mut journal) = (Lent::new(&case.image), Lent::new(&case.journal));
    let (mut used, mut stamps, mut answers) = (case.used, Vec::new(), vec![(0, [0; 6]); order.len()]);
    for (&run, &stamp) in order.iter().zip(&case.stamps) {
        let (start, end) = case.runs[run];
        let answer = desk.pass(&case.code, image.bytes(), journal.bytes(), &Pass { start, end, used, stamp });
        if answer.number == 0 {
            stamps.extend(vec![stamp; answer.tally[1..].iter().sum()]);
            used = answer.used;
        }
        answers[run] = (answer.number, answer.tally);
    }
    let (front, mut new, tail) = parted::<C>(&journal, case.used, used);
    let is_stamped = new.iter().map(|entry| stamp_of(entry)).eq(stamps);
    new.sort_by_key(|entry| record_of(entry));
    let entries = new.iter().map(|entry| unstamped(entry)).collect();
    Left { image: image.all().to_vec(), front, tail, entries, is_stamped, answers }
}

/// Every order of so many things.
fn orders_of(count: usize) -> Vec<Vec<usize>> {
    (0..count).fold(vec![vec![]], |orders, next| {
        let put = |order: &Vec<usize>, at: usize| [&order[..at], &[next], &order[at..]].concat();
        orders.iter().flat_map(|order| (0..=order.len()).map(move |at| put(order, at))).collect()
    })
}

/// All that the orders of the passes leave, each once: so one, where every order leaves the same.
pub fn in_every_order<C: Hsiao>(desk: &dyn Questions<C>, case: &OrdersCase<C>) -> Vec<Left> {
    let mut all = Vec::new();
    for left in orders_of(case.runs.len()).iter().map(|order| left_by(desk, case, order)) {
        if !all.contains(&left) {
            all.push(left);
        }
    }
    all
}

/// What two passes make of the records that lie in both their runs.
#[derive(Clone, PartialEq, Eq, Debug)]
pub struct Shared {
    /// The numbers of the first answer and the last.
    pub numbers: [usize; 2],
    /// Each record in both runs.
    pub records: Vec<InBoth>,
}

/// One of them: what the first pass enters of it and what the last one, without stamps, and its bytes afterwards.
#[derive(Clone, PartialEq, Eq, Debug)]
pub struct InBoth {
    pub record: usize,
    pub first: Option<Vec<u8>>,
    pub last: Option<Vec<u8>>,
    pub bytes: Vec<u8>,
}

/// The records in the runs of the first pass and of the last.
fn in_both<C>(case: &OverlapCase<C>) -> std::ops::Range<usize> {
    let (first, last) = (case.passes[0], case.passes[case.passes.len() - 1]);
    first.0.max(last.0)..first.1.min(last.1)
}

/// What must come of them: a mended record is clean to the last pass, an unmended one is entered again.
pub fn promised_overlap<C: Hsiao>(case: &OverlapCase<C>) -> Shared {
    let seen = read_all(&case.code, &case.image);
    let in_both_runs = |record: usize| {
        let one = &seen[record];
        let entry = unstamped(&one.entry(0));
        let (first, last) = ((one.verdict > 0).then(|| entry.clone()), (one.verdict > 2).then(|| entry.clone()));
        InBoth { record, first, last, bytes: one.after.clone() }
    };
    Shared { numbers: [0, 0], records: in_both(case).map(in_both_runs).collect() }
}

/// What comes of them at this desk.
pub fn both_passed<C: Hsiao>(desk: &dyn Questions<C>, case: &OverlapCase<C>) -> Shared {
    let (mut image, mut journal) = (Lent::new(&case.image), Lent::new(&case.journal));
    let (mut used, mut made) = (case.used, Vec::new());
    for &(start, end, stamp) in &case.passes {
        let answer = desk.pass(&case.code, image.bytes(), journal.bytes(), &Pass { start, end, used, stamp });
        let now = if answer.number == 0 { answer.used } else { used };
        made.push((answer.number, parted::<C>(&journal, used, now).1));
        used = now;
    }
    let ends = [&made[0], &made[made.len() - 1]];
    let in_both_runs = |record: usize| {
        let [first, last] = ends.map(|(_, new)| new.iter().find(|entry| record_of(entry) == record));
        let unstamped = |entry: Option<&Vec<u8>>| entry.map(|entry| unstamped(entry));
        let bytes = image.halves(C::RECORD * record).1[..C::RECORD].to_vec();
        InBoth { record, first: unstamped(first), last: unstamped(last), bytes }
    };
    Shared { numbers: ends.map(|(number, _)| *number), records: in_both(case).map(in_both_runs).collect() }
}
