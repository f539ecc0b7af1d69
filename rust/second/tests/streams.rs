//! The streams of cases: fixed by their seed, and wide enough that every line of the document is asked.

use second::cases::{edges, edges_of_bits, BackCase, BadCase, CardCase, ImageCase, HUGE};
use second::*;
use std::collections::{BTreeMap, BTreeSet, HashSet};

const SMALL: Amounts = Amounts {
    seed: 1,
    codes: 4_000,
    words: 10_000,
    lists: 2_000,
    cards: 1_000,
    images: 1_000,
    turns: 1_000,
    orders: 20,
    overlaps: 200,
    backs: 4_000,
    histories: 500,
    sheets: 4_000,
    byte_errors: 2,
    byte_words: 4_000,
    small_bad: 1,
    bad: 10_000,
    finds: 4_000,
    inputs: 40,
};

#[test]
fn the_same_seed_gives_the_same_cases() {
    let all = |seed: u64| {
        let mut cases = Cases::new(seed);
        let some = |_| {
            let passes = (cases.image(), cases.turns(), cases.orders(), cases.overlap());
            let program = (cases.back(), cases.history(), cases.program_input());
            let bytes = (cases.byte_data(), cases.byte_errors().sum::<u64>(), cases.byte_word());
            (cases.code(), cases.word(), cases.list(), cases.card(), cases.station(), bytes, passes, program)
        };
        format!("{:?}", (0..50).map(some).collect::<Vec<_>>())
    };
    assert!(all(1) == all(1));
    assert!(all(1) != all(2));
    assert_eq!(Random::new(0).draw(), 0xe220_a839_7b1d_cdaf);
}

#[test]
fn every_number_of_every_question_is_met() {
    let met = |number: &[usize]| number.iter().copied().collect::<BTreeSet<usize>>();
    let wanted = [
        ("check bits", met(&[0, 1])),
        ("judge", met(&[0, 1, 2, 3, 4, 5, 6, 21])),
        ("row balance", met(&[0, 1, 2, 3, 4, 5, 6, 21])),
        ("write", met(&[0, 1, 2, 3, 4, 5, 6, 7, 21])),
        ("read", met(&[0, 1, 2, 3, 4, 5, 6, 7, 21])),
        ("explain", met(&[0, 1, 2, 3, 4, 5, 6, 7, 10, 11, 21])),
        ("card check", met(&[0, 1, 2, 3, 4, 5, 6, 8, 9, 21])),
        ("pass", met(&[0, 1, 2, 3, 4, 5, 6, 12, 13, 14, 16, 17, 21])),
        ("passes", met(&[0, 1, 2, 3, 4, 5, 6, 13, 14, 16, 21])),
        ("orders", met(&[0])),
        ("overlaps", met(&[0])),
        ("put back", met(&[0, 12, 17, 18])),
        ("history", met(&[0])),
        ("sheet", met(&[0, 19])),
        ("make", met(&[0, 1, 2, 15])),
        ("byte write", met(&[0, 7])),
        ("byte errors", met(&[0])),
        ("byte read", met(&[0, 7])),
        ("small bad", met(&[0, 23])),
        ("bad places", met(&[0, 1, 2, 3, 4, 5, 6, 7, 21, 22, 23])),
        ("find bad", met(&[0, 1, 2, 3, 4, 5, 6, 7, 21])),
        ("mend", met(&[0, 12])),
    ];
    let lines = compare(&[&Second, &Second], &SMALL).expect("the second program agrees with itself");
    assert_eq!(lines.len(), wanted.len());
    for (line, (question, numbers)) in lines.iter().zip(wanted) {
        assert_eq!(line.question, question);
        assert_eq!(line.numbers.keys().copied().collect::<BTreeSet<_>>(), numbers, "{}", question);
        assert_eq!(line.numbers.values().sum::<usize>(), line.cases);
    }
}

#[test]
fn sound_codes_have_every_shape_and_are_sound() {
    let mut cases = Cases::new(3);
    let mut shapes = HashSet::new();
    for _ in 0..1_100 {
        let code = cases.sound_code();
        assert_eq!(judge(&code).number, 0);
        shapes.insert((code.k, code.r));
    }
    let possible = |k: usize| (3..=16).filter(move |&r| r >= wanted(k).check_bits).map(move |r| (k, r));
    assert_eq!(shapes, (1..=64).flat_map(possible).collect());
    assert_eq!(shapes.len(), 675);
}

#[test]
fn damaged_codes_have_every_damage() {
    let mut cases = Cases::new(4);
    let mut seen = HashSet::new();
    for _ in 0..20_000 {
        let code = cases.damaged_code();
        let answer = judge(&code);
        seen.insert((answer.number, answer.told));
        seen.extend([(100, code.k), (200, code.r)]);
    }
    for number in [3, 4, 5, 6, 21] {
        let first = usize::from(number == 6 || number == 21);
        let places = (first..64).filter(|&place| seen.contains(&(number, place))).count();
        assert!(places > 50 && seen.contains(&(number, first)) && seen.contains(&(number, 63)), "{}", number);
    }
    assert!([0, 65].iter().chain(&HUGE).all(|&k| seen.contains(&(100, k))));
    assert!([2, 17].iter().chain(&HUGE).all(|&r| seen.contains(&(200, r))));
}

#[test]
fn words_have_every_verdict_and_place() {
    let mut cases = Cases::new(5);
    let mut verdicts = [0; 5];
    let mut places = HashSet::new();
    for _ in 0..20_000 {
        let word = cases.word();
        let answer = read(&word.code, word.data, word.check);
        if answer.number == 0 {
            verdicts[answer.verdict] += 1;
            places.insert(answer.place);
        }
    }
    assert!(verdicts.iter().all(|&count| count > 500), "{:?}", verdicts);
    assert!((0..80).chain([255]).all(|place| places.contains(&place)));
}

#[test]
fn runs_to_be_passed_over_in_any_order_are_apart_and_of_every_shape() {
    let mut cases = Cases::new(8);
    let mut seen = BTreeSet::new();
    for _ in 0..1_000 {
        let case = cases.orders();
        let is_in = |record: usize| case.runs.iter().filter(|run| (run.0..run.1).contains(&record)).count();
        assert!((0..case.image.len() / 10).all(|record| is_in(record) < 2));
        assert!(case.stamps.windows(2).all(|two| two[0] <= two[1]));
        let is_empty = |run: &(usize, usize)| run.0 == run.1;
        let within = |run: &(usize, usize)| case.runs.iter().any(|other| other.0 < run.0 && run.0 < other.1);
        let touches = |run: &(usize, usize)| case.runs.iter().any(|other| other != run && other.1 == run.0);
        seen.insert(("runs", case.runs.len()));
        seen.insert(("empty", usize::from(case.runs.iter().any(is_empty))));
        seen.insert(("empty within another", usize::from(case.runs.iter().any(|run| is_empty(run) && within(run)))));
        seen.insert(("touching", usize::from(case.runs.iter().any(touches))));
        seen.insert(("used", usize::from(case.used > 0)));
        seen.insert(("equal stamps", usize::from(case.stamps.windows(2).any(|two| two[0] == two[1]))));
    }
    let either = ["empty", "empty within another", "touching", "used", "equal stamps"];
    assert!(either.iter().all(|&what| seen.contains(&(what, 0)) && seen.contains(&(what, 1))), "{:?}", seen);
    assert!((2..=5).all(|runs| seen.contains(&("runs", runs))));
}

#[test]
fn records_in_two_runs_have_every_verdict() {
    let mut cases = Cases::new(9);
    let (mut verdicts, mut between) = ([0; 6], BTreeSet::new());
    for _ in 0..300 {
        let case = cases.overlap();
        let (first, last) = (case.passes[0], case.passes[case.passes.len() - 1]);
        let both = first.0.max(last.0)..first.1.min(last.1);
        assert!(!both.is_empty());
        let mut journal = vec![0; 3 * case.image.len()];
        let asked = Pass { start: both.start, end: both.end, ..Pass::default() };
        let tally = pass(&case.code, &mut case.image.clone(), &mut journal, &asked).tally;
        (0..6).for_each(|verdict| verdicts[verdict] += tally[verdict]);
        between.insert(case.passes.len() - 2);
    }
    assert!(verdicts.iter().all(|&count| count > 50), "{:?}", verdicts);
    assert_eq!(between, (0..4).collect());
}

#[test]
fn lists_are_empty_and_full_and_in_every_room() {
    let mut cases = Cases::new(6);
    let (mut lengths, mut rooms, mut limits) = (BTreeSet::new(), BTreeSet::new(), BTreeSet::new());
    for _ in 0..20_000 {
        let case = cases.list();
        let mut list = case.list.clone();
        let answer = explain(&case.word.code, case.word.data, case.word.check, case.limit, &mut list);
        limits.insert(case.limit);
        if answer.number == 0 {
            assert!(list[2 * answer.length..] == case.list[2 * answer.length..]);
            lengths.insert(answer.length);
            rooms.insert((case.list.len() as isize - 2 * answer.length as isize).min(3));
        } else {
            assert!(list == case.list);
            if answer.number == 10 {
                rooms.insert((case.list.len() as isize - 2 * answer.told as isize).max(-3));
            }
        }
    }
    assert!((0..=32).all(|length| lengths.contains(&length)), "{:?}", lengths);
    assert_eq!(lengths.iter().max(), Some(&40), "no list exceeds 40 entries, and one has them");
    assert_eq!(rooms, (-3..=3).collect());
    assert!((0..=4).chain(HUGE).all(|limit| limits.contains(&limit)));
}

#[test]
fn cards_are_proof_and_weak_for_every_b() {
    let mut cases = Cases::new(7);
    let (mut seen, mut weak) = (HashSet::new(), HashSet::new());
    for _ in 0..5_000 {
        let CardCase { code, b } = cases.card();
        let answer = card_check(&code, b);
        seen.insert((b, answer.number));
        if answer.number == 9 {
            let data_cards = (code.k + b - 1) / b;
            let is_data = answer.card < data_cards;
            let left = if is_data { code.k - answer.card * b } else { code.r - (answer.card - data_cards) * b };
            weak.insert((is_data, left < b));
        }
    }
    assert_eq!(weak.len(), 4, "data and check cards, short and not");
    assert!(seen.contains(&(2, 0)) && !seen.contains(&(2, 9)), "two different odd columns mix to no column");
    for b in 3..=8 {
        assert!(seen.contains(&(b, 0)) && seen.contains(&(b, 9)), "b {}", b);
    }
    assert!([0, 1, 9, 10].iter().chain(&HUGE).all(|&b| seen.contains(&(b, 8))));
}

/// Shapes of cases, and whether or how far they were met.
type Shapes = HashSet<(&'static str, usize)>;

/// What a done pass leaves, and the shapes of its case.
fn done_pass(case: &ImageCase<Code>, answer: &Passed, image: &[u8], journal: &[u8], seen: &mut Shapes) {
    let Pass { start, end, used, stamp } = case.asked;
    let (records, room) = (case.image.len() / 10, case.journal.len() / 30);
    let noted: usize = answer.tally[1..].iter().sum();
    assert_eq!(answer.used, used + noted);
    assert!(journal[..30 * used] == case.journal[..30 * used]);
    assert!(journal[30 * answer.used..] == case.journal[30 * answer.used..]);
    let changed = (0..image.len()).filter(|&at| image[at] != case.image[at]);
    assert!(changed.into_iter().all(|at| (start..end).contains(&(at / 10))));
    seen.insert(("inner run", (start > 0 && end < records && noted > 0).into()));
    seen.insert(("equal ends", (start == end).into()));
    seen.insert(("over a byte", (end > 256 && noted > 0).into()));
    seen.insert(("longest", (case.image.len() == 65_530).into()));
    seen.insert(("room", (case.journal.len() - 30 * answer.used).min(31)));
    seen.insert(("used", used.min(3)));
    seen.insert(("equal stamp", (last_stamp(case) == Some(stamp) && noted > 0).into()));
    seen.insert(("highest stamp", (stamp == u32::MAX && used > 0 && noted > 0).into()));
    let first = case.journal.get(..30).map(stamp_of);
    seen.insert(("below the first", (used > 1 && first > Some(stamp)).into()));
    seen.insert(("below what is not in use", (used == 0 && first > Some(stamp)).into()));
    seen.insert(("full and all clean", (used == room && used > 0 && noted == 0 && start < end).into()));
}

/// The shapes of a refused pass's case.
fn refused_pass(case: &ImageCase<Code>, answer: &Passed, seen: &mut Shapes) {
    let Pass { start, end, used, stamp } = case.asked;
    let (number, records, room) = (answer.number, case.image.len() / 10, case.journal.len() / 30);
    seen.insert(("backwards", (number == 14 && start > end).into()));
    seen.insert(("beyond by one", (number == 14 && end == records + 1).into()));
    seen.insert(("far beyond", (number == 14 && end == usize::MAX).into()));
    seen.insert(("odd length", (number == 12 && case.image.len() % 10 != 0).into()));
    seen.insert(("too long", (number == 12 && case.image.len() == 65_540).into()));
    let needed = 30 * (used.min(room) + answer.told);
    seen.insert(("short by", if number == 13 { needed - case.journal.len() } else { 0 }));
    seen.insert(("short by what is in use", (number == 13 && answer.told <= room).into()));
    seen.insert(("one too many in use", (number == 17 && used == room + 1).into()));
    seen.insert(("far too many in use", (number == 17 && used == usize::MAX).into()));
    seen.insert(("cut short they would fit", (number == 17 && used as u32 as usize <= room).into()));
    seen.insert(("lower by one", (number == 16 && last_stamp(case) == stamp.checked_add(1)).into()));
    seen.insert(("not below the first", (number == 16 && stamp >= stamp_of(&case.journal)).into()));
    seen.insert(("lower, and nothing to write", (number == 16 && start == end).into()));
}

/// The stamp of the last entry in use.
fn last_stamp(case: &ImageCase<Code>) -> Option<u32> {
    let (used, room) = (case.asked.used, case.journal.len() / 30);
    Some(used).filter(|used| (1..=room).contains(used)).map(|used| stamp_of(&case.journal[30 * used - 30..]))
}

#[test]
fn images_have_every_verdict_run_and_journal() {
    let mut cases = Cases::new(11);
    let (mut tally, mut seen) = ([0; 6], Shapes::new());
    for _ in 0..2_000 {
        let case = cases.image();
        let (mut image, mut journal) = (case.image.clone(), case.journal.clone());
        let answer = pass(&case.code, &mut image, &mut journal, &case.asked);
        if answer.number == 0 {
            tally.iter_mut().zip(answer.tally).for_each(|(all, count)| *all += count);
            done_pass(&case, &answer, &image, &journal, &mut seen);
        } else {
            assert!(image == case.image && journal == case.journal);
            refused_pass(&case, &answer, &mut seen);
        }
    }
    assert!(tally.iter().all(|&count| count > 1_000), "{:?}", tally);
    let shapes = ["inner run", "equal ends", "over a byte", "longest", "backwards", "beyond by one", "far beyond"];
    let stamps = ["equal stamp", "highest stamp", "below the first", "below what is not in use", "full and all clean"];
    let lower = ["lower by one", "not below the first", "lower, and nothing to write"];
    let counts = ["short by what is in use", "one too many in use", "far too many in use", "cut short they would fit"];
    let all = shapes.iter().chain(&["odd length", "too long", "short by"]).chain(&stamps).chain(&lower).chain(&counts);
    for shape in all {
        assert!(seen.contains(&(shape, 1)), "{}", shape);
    }
    assert!([0, 1, 29, 31].iter().all(|&over| seen.contains(&("room", over))));
    assert!((0..=3).all(|used| seen.contains(&("used", used))));
    assert!(seen.contains(&("short by", 30)));
}

#[test]
fn passes_in_turn_go_on_in_one_journal() {
    let mut cases = Cases::new(10);
    let (mut done, mut refused_between, mut longest) = (0, 0, 0);
    for _ in 0..500 {
        let case = cases.turns();
        let (mut image, mut journal, mut used) = (case.image.clone(), case.journal.clone(), 0);
        let (mut stamps, mut numbers) = (Vec::new(), Vec::new());
        for &(code, start, end, stamp) in &case.turns {
            let before = journal.clone();
            let answer = pass(&code, &mut image, &mut journal, &Pass { start, end, used, stamp });
            assert!(journal[..30 * used] == before[..30 * used]);
            if answer.number == 0 {
                stamps.resize(answer.used, stamp);
                used = answer.used;
            }
            numbers.push(answer.number);
        }
        assert!(journal.chunks(30).zip(&stamps).all(|(entry, &stamp)| stamp_of(entry) == stamp));
        assert!(stamps.windows(2).all(|pair| pair[0] <= pair[1]), "stamps never fall");
        assert!(journal[30 * used..] == case.journal[30 * used..]);
        let first = numbers.iter().position(|&number| number == 0);
        let last = numbers.iter().rposition(|&number| number == 0);
        done += numbers.iter().filter(|&&number| number == 0).count();
        refused_between += usize::from(first < last && numbers[first.unwrap()..last.unwrap()].iter().any(|&n| n != 0));
        stamps.dedup();
        longest = longest.max(stamps.len());
    }
    assert!(done > 500 && refused_between > 50 && longest > 3, "{} {} {}", done, refused_between, longest);
}

/// What an entry says: the number of its record, its bytes as read and as left.
fn said(journal: &[u8], at: usize) -> (usize, &[u8], &[u8]) {
    let entry = &journal[30 * at..30 * at + 30];
    (u16::from_le_bytes([entry[4], entry[5]]).into(), &entry[10..20], &entry[20..])
}

/// How many bits differ.
fn bits_between(one: &[u8], other: &[u8]) -> u32 {
    one.iter().zip(other).map(|(one, other)| (one ^ other).count_ones()).sum()
}

/// Shapes of put-backs by their number, and whether they were met.
type Backs = HashSet<(usize, &'static str, bool)>;

/// The shapes of a put-back's case that is refused by 12 or 17.
fn refused_back(case: &BackCase, number: usize, seen: &mut Backs) {
    let (room, bytes, used) = (case.journal.len() / 30, case.image.len(), case.used);
    seen.insert((12, "a byte too long", number == 12 && bytes % 10 == 1 && bytes < 65_530));
    seen.insert((12, "a byte short", number == 12 && bytes % 10 == 9));
    seen.insert((12, "a record too long", bytes == 65_540));
    seen.insert((12, "and over the room", number == 12 && used > room));
    seen.insert((17, "one too many", number == 17 && used == room + 1));
    seen.insert((17, "a byte short", number == 17 && used == room + 1 && case.journal.len() % 30 == 29));
    seen.insert((17, "cut short they would fit", number == 17 && used as u32 as usize <= room));
    seen.insert((17, "no room", number == 17 && room == 0));
}

/// The shapes of a done one.
fn done_back(case: &BackCase, image: &[u8], seen: &mut Backs) {
    let (journal, used) = (&case.journal, case.used);
    let (room, bytes) = (journal.len() / 30, image.len());
    let named: Vec<usize> = (0..used).map(|at| said(journal, at).0).collect();
    seen.insert((0, "none in use", used == 0 && room > 0));
    seen.insert((0, "room and a tail", used > 0 && used < room && journal.len() % 30 > 0));
    seen.insert((0, "a full journal", used > 0 && 30 * used == journal.len()));
    seen.insert((0, "no image", bytes == 0));
    seen.insert((0, "the longest image", bytes == 65_530 && used > 0));
    seen.insert((0, "a number of two bytes", named.iter().any(|&record| record > 255)));
    let is_changed = |&at: &usize| said(journal, at).1 != said(journal, at).2;
    let changed = (0..used).filter(is_changed).filter(|&at| said(journal, at).0 == named[0]).count();
    seen.insert((0, "a record changed three times", changed > 2));
    seen.insert((0, "nothing changed", used > 0 && image == case.image));
}

/// The shapes of one that stopped after `count` entries.
fn stopped_back(case: &BackCase, image: &[u8], count: usize, seen: &mut Backs) {
    let (records, used) = (image.len() / 10, case.used);
    let (record, _, left) = said(&case.journal, used - count - 1);
    let held = image.get(10 * record..10 * record + 10);
    assert_ne!(held, Some(left));
    seen.insert((18, "at the last entry", count == 0 && used > 1));
    seen.insert((18, "at the first entry", count + 1 == used && used > 1));
    seen.insert((18, "between", count > 1 && count + 1 < used && image != case.image));
    seen.insert((18, "outside by one", record == records && count > 0));
    seen.insert((18, "far outside", record == 65_535));
    seen.insert((18, "outside by its high byte", held.is_none() && record % 256 < records));
    seen.insert((18, "by one bit", held.map_or(false, |held| bits_between(held, left) == 1)));
    seen.insert((18, "no image", image.is_empty()));
}

#[test]
fn put_backs_are_done_refused_and_stopped_in_every_way() {
    let mut cases = Cases::new(12);
    let (mut numbers, mut seen) = ([0; 19], Backs::new());
    for _ in 0..4_000 {
        let case = cases.back();
        let mut image = case.image.clone();
        let answer = put_back(&mut image, &case.journal, case.used);
        numbers[answer.number] += 1;
        assert_eq!(answer.told, 0);
        if answer.number == 12 || answer.number == 17 {
            assert!(image == case.image && answer.count == 0);
            refused_back(&case, answer.number, &mut seen);
            continue;
        }
        // Each record holds what the first entry that was put back there says, or what it held.
        let back = case.used - answer.count..case.used;
        for (record, bytes) in image.chunks(10).enumerate() {
            let first = back.clone().map(|at| said(&case.journal, at)).find(|said| said.0 == record);
            assert_eq!(bytes, first.map_or(&case.image[10 * record..10 * record + 10], |said| said.1));
        }
        if answer.number == 0 {
            assert_eq!(answer.count, case.used);
            done_back(&case, &image, &mut seen);
        } else {
            stopped_back(&case, &image, answer.count, &mut seen);
        }
    }
    for (number, &count) in numbers.iter().enumerate() {
        assert_eq!(count > 100, [0, 12, 17, 18].contains(&number), "{} {} times", number, count);
    }
    let shapes: HashSet<_> = seen.iter().map(|&(number, shape, _)| (number, shape)).collect();
    assert_eq!(shapes.len(), 24);
    for (number, shape) in shapes {
        assert!(seen.contains(&(number, shape, true)), "{} {}", number, shape);
    }
}

#[test]
fn histories_have_several_codes_overlapping_runs_and_refused_passes() {
    let mut cases = Cases::new(13);
    let (mut lengths, mut refused, mut seen) = (BTreeSet::new(), BTreeSet::new(), BTreeMap::new());
    for _ in 0..500 {
        let case = cases.history();
        let (mut image, mut journal, mut used, mut done) = (case.image.clone(), case.journal.clone(), 0, Vec::new());
        for &(code, start, end, stamp) in &case.turns {
            let answer = pass(&code, &mut image, &mut journal, &Pass { start, end, used, stamp });
            if answer.number == 0 {
                used = answer.used;
                done.push((code, start, end));
            } else {
                refused.insert(answer.number);
            }
        }
        lengths.insert(case.turns.len());
        let entries: Vec<_> = (0..used).map(|at| said(&journal, at)).collect();
        // Entered as it was by one pass and mended by a later one: in another order they do not match.
        let ordered = |at: usize| entries[at].1 != entries[at].2 && entries[..at].iter().any(|e| e.0 == entries[at].0);
        let codes = done.iter().map(|&(code, _, _)| code.columns).collect::<HashSet<_>>().len();
        let overlaps = |pair: &[(Code, usize, usize)]| pair[0].1.max(pair[1].1) < pair[0].2.min(pair[1].2);
        let is = [
            ("nothing is entered", used == 0),
            ("the image changes", image != case.image),
            ("three codes", codes > 2),
            ("runs overlap", done.windows(2).any(overlaps)),
            ("their order counts", (0..used).any(ordered)),
            ("refused among done", !done.is_empty() && done.len() < case.turns.len()),
            ("a full journal", used > 0 && used == journal.len() / 30),
        ];
        for (shape, is) in is {
            *seen.entry(shape).or_insert(0) += usize::from(is);
        }
    }
    assert_eq!(lengths, (0..=10).collect());
    assert!([13, 14, 16].iter().all(|number| refused.contains(number)) && refused.contains(&4), "{:?}", refused);
    assert!(seen.values().all(|&count| count >= 10), "{:?}", seen);
}

#[test]
fn stations_stand_and_fall_by_every_part() {
    let mut cases = Cases::new(9);
    let mut seen = HashSet::new();
    for station in edges().into_iter().chain((0..20_000).map(|_| cases.station())) {
        let answer = sheet(&station);
        let nan = |pattern: u64| f64::from_bits(pattern).is_nan();
        seen.insert(("yes", (answer.number, answer.yes)));
        seen.insert(("hours round to 0", (answer.number, answer.station == 0)));
        seen.insert(("NaN hours", (answer.number, nan(station.hours))));
        seen.insert(("all mended", (answer.number, station.mended == station.words)));
        match station.limit {
            Limit::Ceiling(high) => seen.insert(("ceiling is the share", (answer.number, high == answer.share))),
            Limit::Band(low, high) if low == high => seen.insert(("one figure", (answer.number, answer.yes))),
            Limit::Band(low, high) => seen.insert(("NaN end", (answer.number, nan(low) || nan(high)))),
            Limit::Open => seen.insert(("open", (answer.number, answer.yes))),
        };
    }
    for shape in ["yes", "hours round to 0", "all mended", "ceiling is the share", "one figure"] {
        assert!(seen.contains(&(shape, (0, true))) && seen.contains(&(shape, (0, false))), "{}", shape);
    }
    for shape in ["NaN hours", "NaN end"] {
        assert!(seen.contains(&(shape, (19, true))) && !seen.contains(&(shape, (0, true))), "{}", shape);
    }
    assert!(seen.contains(&("open", (0, true))) && !seen.contains(&("open", (0, false))));
}

#[test]
fn words_of_ten_bytes_have_every_verdict_and_byte() {
    let mut cases = Cases::new(10);
    let mut seen = HashSet::new();
    let mut verdicts = [0; 4];
    for word in edges_of_bits().chain((0..20_000).map(|_| cases.byte_word())) {
        let answer = byte_read(word);
        if answer.number == 0 {
            verdicts[answer.verdict] += 1;
            seen.insert(answer.byte);
        } else {
            seen.insert(1_000 + (63 - word.leading_zeros() as usize));
        }
    }
    assert!(verdicts.iter().all(|&count| count > 500), "{:?}", verdicts);
    assert!((0..10).chain([255]).chain(1_030..1_064).all(|each| seen.contains(&each)));

    let counts = |verdict: usize, errors: &[u64]| errors.iter().filter(|&&w| byte_read(w).verdict == verdict).count();
    for _ in 0..20 {
        let errors: Vec<u64> = cases.byte_errors().collect();
        assert_eq!([0, 1, 2, 3].map(|verdict| counts(verdict, &errors)), [1, 49, 21, 2_205]);
        assert_eq!(errors.iter().collect::<HashSet<_>>().len(), 1 + 70 + 2_205);
    }
    assert!((0..1_000).any(|_| byte_write(cases.byte_data()).number == 7));
}

#[test]
fn every_small_code_is_asked_with_every_set_of_bad_places() {
    let mut asked: BTreeMap<(usize, usize), BTreeSet<Vec<usize>>> = BTreeMap::new();
    let mut unsorted = 0;
    for BadCase { word, mut bad } in Cases::new(1).small_bad() {
        assert_eq!(judge(&word.code).number, 0);
        unsorted += usize::from(bad.windows(2).any(|pair| pair[0] > pair[1]));
        bad.sort_unstable();
        asked.entry((word.code.k, word.code.r)).or_default().insert(bad);
    }
    let shapes = (3..=16).flat_map(|r| (1..=20 - r).map(move |k| (k, r))).filter(|&(k, r)| k <= (1 << (r - 1)) - r);
    let sets = |n: usize| 1 + n + n * (n - 1) / 2 + n * (n - 1) * (n - 2) / 6;
    let wanted: BTreeMap<(usize, usize), usize> = shapes.map(|(k, r)| ((k, r), sets(k + r))).collect();
    assert_eq!(asked.iter().map(|(&shape, sets)| (shape, sets.len())).collect::<BTreeMap<_, _>>(), wanted);
    assert!(unsorted > 10_000);
}

#[test]
fn bad_places_are_named_in_every_way() {
    let mut met = BTreeMap::new();
    let mut cases = Cases::new(1);
    for BadCase { word, bad } in (0..10_000).map(|_| cases.bad()) {
        if judge(&word.code).number != 0 {
            continue;
        }
        let n = word.code.k + word.code.r;
        let number = recover(&word.code, word.data, word.check, &bad).number;
        let different: BTreeSet<usize> = bad.iter().copied().collect();
        let ways = [
            ("four or more", bad.len() > 3),
            ("a repeat alone", bad.len() < 4 && different.len() < bad.len() && bad.iter().all(|&place| place < n)),
            ("n", bad.len() < 4 && bad.contains(&n)),
            ("far above n", bad.iter().any(|&place| place > 1 << 31)),
            ("22 or stray", number == 7 && bad.len() > 3),
            ("none", bad.is_empty() && number == 0),
            ("one", bad.len() == 1 && number == 0),
            ("two", bad.len() == 2 && number == 0),
            ("three", bad.len() == 3 && number == 0),
            ("none near", bad.is_empty() && number == 23),
            ("none near one", bad.len() == 1 && number == 23),
            ("none near two", bad.len() == 2 && number == 23),
            ("none near three", bad.len() == 3 && number == 23),
        ];
        for (way, is_met) in ways {
            *met.entry(way).or_insert(0) += usize::from(is_met);
        }
    }
    assert!(met.values().all(|&count| count >= 20), "{:?}", met);
}

#[test]
fn what_the_finder_finds_is_recovered() {
    let mut cases = Cases::new(1);
    let mut recovered_words = 0;
    for BadCase { word, bad } in (0..20_000).map(|_| cases.bad()) {
        let code = word.code;
        if judge(&code).number != 0 || bad.len() > 3 || bad.iter().any(|&place| place >= code.k + code.r) {
            continue;
        }
        // The bad places are stuck at the digits that the word as read has there.
        let at = |place: &usize| if *place < code.k { (1 << place, 0) } else { (0, 1 << (place - code.k)) };
        let stuck = bad.iter().map(at).fold((0u64, 0u16), |a, b| (a.0 | b.0, a.1 | b.1));
        let back = |(data, check): (u64, u16)| {
            (data & !stuck.0 | word.data & stuck.0, check & !stuck.1 | word.check & stuck.1)
        };
        let ones = (u64::MAX >> (64 - code.k), u16::MAX >> (16 - code.r));
        let pattern = (word.data & ones.0, word.check & ones.1);
        let inverse = (!pattern.0 & ones.0, !pattern.1 & ones.1);
        if pattern != (word.data, word.check) {
            continue;
        }
        assert_eq!(
            find_bad(&code, back(pattern), back(inverse)),
            Found { data: stuck.0, check: stuck.1, ..Found::default() }
        );
        let written = (pattern.0, write(&code, pattern.0).check);
        let read = back(written);
        let mut places = bad;
        places.sort_unstable();
        places.dedup();
        let answer = recover(&code, read.0, read.1, &places);
        assert_eq!(answer, Recovered { data: written.0, check: written.1, ..Recovered::default() });
        recovered_words += 1;
    }
    assert!(recovered_words > 5_000);
}
