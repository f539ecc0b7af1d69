//! The comparison: the same cases to every desk, every number and every byte of the answers.

use crate::answers::{Balanced, CardsChecked, Explained, Found, Judged, Passed, PutBack, Reading, Recovered, Written};
use crate::cases::{
    asked_shapes_in, edges, edges_of_bits, BackCase, BadCase, Cases, CasesOf, ImageCase, ListCase, TurnsCase, WordCase,
    HUGE,
};
use crate::code::{Code, Coded, Data, Hsiao, WideCode};
use crate::desk::{Desk, OfCodes, Questions, Second};
use crate::make::Made;
use crate::orders::{both_passed, in_every_order, promised_orders, promised_overlap};
use crate::pass::Pass;
use crate::rows::Chosen;
use std::collections::BTreeMap;
use std::fmt;
use std::time::{Duration, Instant};

/// How many cases of each question.
#[derive(Clone, Copy, Debug)]
pub struct Amounts {
    pub seed: u64,
    pub codes: usize,
    pub words: usize,
    pub lists: usize,
    pub cards: usize,
    pub images: usize,
    /// Images over which passes follow one another in one journal; and as many of which image or journal has the other
    /// edition's size.
    pub turns: usize,
    /// Images with two to five runs apart, passed over in every order.
    pub orders: usize,
    /// Images with two runs that overlap.
    pub overlaps: usize,
    /// Images and journals to put back with.
    pub backs: usize,
    /// Histories: passes from a new journal, put back, and passed again.
    pub histories: usize,
    /// Stations from the seed; every edge is asked besides.
    pub sheets: usize,
    /// Data words, each asked with every error within one byte and within two.
    pub byte_errors: usize,
    /// Words of ten bytes from the seed, and as many data words to write; every edge is asked besides.
    pub byte_words: usize,
    /// Words for every set of up to three bad places of every code with at most 20 places.
    pub small_bad: usize,
    /// Words with bad places of every kind.
    pub bad: usize,
    /// Pairs of reads for the finder.
    pub finds: usize,
    pub inputs: usize,
}

impl Amounts {
    /// The amounts of the gate.
    pub const GATE: Amounts = Amounts {
        seed: 1,
        codes: 20_000,
        words: 200_000,
        lists: 20_000,
        cards: 5_000,
        images: 3_000,
        turns: 1_000,
        orders: 500,
        overlaps: 1_000,
        backs: 20_000,
        histories: 2_000,
        sheets: 100_000,
        byte_errors: 1_000,
        byte_words: 100_000,
        small_bad: 4,
        bad: 50_000,
        finds: 50_000,
        inputs: 200,
    };

    /// No case of any question but the edges.
    pub const NONE: Amounts = Amounts {
        seed: 1,
        codes: 0,
        words: 0,
        lists: 0,
        cards: 0,
        images: 0,
        turns: 0,
        orders: 0,
        overlaps: 0,
        backs: 0,
        histories: 0,
        sheets: 0,
        byte_errors: 0,
        byte_words: 0,
        small_bad: 0,
        bad: 0,
        finds: 0,
        inputs: 0,
    };
}

/// What was asked of one question: how often, the numbers that were answered, the time of each desk.
#[derive(Clone, Debug)]
pub struct Line {
    pub question: &'static str,
    pub cases: usize,
    pub numbers: BTreeMap<usize, usize>,
    pub times: Vec<Duration>,
}

impl fmt::Display for Line {
    fn fmt(&self, f: &mut fmt::Formatter) -> fmt::Result {
        write!(f, "{:<12}{:>8} cases", self.question, self.cases)?;
        for time in &self.times {
            write!(f, "{:>9.3} s", time.as_secs_f64())?;
        }
        let numbers: Vec<String> =
            self.numbers.iter().map(|(number, count)| format!("{}: {}", number, count)).collect();
        write!(f, "   by number {}", numbers.join(", "))
    }
}

/// The first case on which two desks do not agree.
#[derive(Clone, Debug)]
pub struct Difference {
    pub question: &'static str,
    pub turn: usize,
    pub case: String,
    pub answers: [(&'static str, String); 2],
}

impl fmt::Display for Difference {
    fn fmt(&self, f: &mut fmt::Formatter) -> fmt::Result {
        let short = |text: &str| text.chars().take(2_000).collect::<String>();
        writeln!(f, "{}, case {}: {}", self.question, self.turn, short(&self.case))?;
        let [one, other] = &self.answers;
        writeln!(f, "{} answers {}", one.0, short(&one.1))?;
        write!(f, "{} answers {}", other.0, short(&other.1))
    }
}

/// Whoever is asked has a name.
trait Named {
    fn named(&self) -> &'static str;
}

impl Named for dyn Desk + '_ {
    fn named(&self) -> &'static str {
        self.name()
    }
}

impl<C: Coded> Named for dyn OfCodes<C> + '_ {
    fn named(&self) -> &'static str {
        self.name()
    }
}

impl<C: Hsiao> Named for dyn Questions<C> + '_ {
    fn named(&self) -> &'static str {
        self.name()
    }
}

/// Asks every desk the same cases, one question of them; `number` is the number that an answer hands back.
fn ask<Q: Named + ?Sized, C: fmt::Debug, A: fmt::Debug + PartialEq>(
    question: &'static str,
    desks: &[&Q],
    cases: impl Iterator<Item = C>,
    answer: impl Fn(&Q, &C) -> A,
    number: impl Fn(&A) -> usize,
) -> Result<Line, Box<Difference>> {
    ask_promised(question, desks, cases, |_| None, answer, number)
}

/// The same, where a document may promise what the answer is, so that desks which agree with one another can all be wrong.
fn ask_promised<Q: Named + ?Sized, C: fmt::Debug, A: fmt::Debug + PartialEq>(
    question: &'static str,
    desks: &[&Q],
    cases: impl Iterator<Item = C>,
    promised: impl Fn(&C) -> Option<A>,
    answer: impl Fn(&Q, &C) -> A,
    number: impl Fn(&A) -> usize,
) -> Result<Line, Box<Difference>> {
    let times = vec![Duration::default(); desks.len()];
    let mut line = Line { question, cases: 0, numbers: BTreeMap::new(), times };
    for case in cases {
        let mut answers: Vec<(&str, A)> = promised(&case).map(|answer| ("the promise", answer)).into_iter().collect();
        for (desk, time) in desks.iter().zip(&mut line.times) {
            let begin = Instant::now();
            answers.push((desk.named(), answer(desk, &case)));
            *time += begin.elapsed();
        }
        if let Some(other) = answers.iter().find(|other| other.1 != answers[0].1) {
            let told = |(name, answer): &(&'static str, A)| (*name, format!("{:?}", answer));
            let (case, answers) = (format!("{:?}", case), [told(&answers[0]), told(other)]);
            return Err(Box::new(Difference { question, turn: line.cases, case, answers }));
        }
        line.cases += 1;
        *line.numbers.entry(number(&answers[0].1)).or_insert(0) += 1;
    }
    Ok(line)
}

/// The first `count` cases of a stream of their own; it is not begun for none.
fn cases<C: Coded, T>(
    amounts: &Amounts,
    question: u64,
    count: usize,
    next: fn(&mut CasesOf<C>) -> T,
) -> impl Iterator<Item = T> {
    let seed = amounts.seed.wrapping_mul(1_000).wrapping_add(question);
    let mut cases = if count > 0 { Some(CasesOf::new(seed)) } else { None };
    (0..count).filter_map(move |_| cases.as_mut().map(next))
}

/// The questions about the codes of one edition, and its put-back; that of the maker comes apart.
fn compare_codes<C: Hsiao>(
    desks: &[&dyn Questions<C>],
    amounts: &Amounts,
) -> Result<(Vec<Line>, Line), Box<Difference>> {
    let numbers_of_bits = (0..=300).chain(HUGE);
    let codes = || cases(amounts, 1, amounts.codes, CasesOf::<C>::code);
    let words = || cases(amounts, 2, amounts.words, CasesOf::<C>::word);
    let lists = cases(amounts, 3, amounts.lists, CasesOf::<C>::list);
    let cards = cases(amounts, 4, amounts.cards, CasesOf::<C>::card);
    let images = cases(amounts, 5, amounts.images, CasesOf::<C>::image);
    let turns = cases(amounts, 8, amounts.turns, CasesOf::<C>::turns);
    let orders = cases(amounts, 14, amounts.orders, CasesOf::<C>::orders);
    let overlaps = cases(amounts, 15, amounts.overlaps, CasesOf::<C>::overlap);
    let backs = cases(amounts, 12, amounts.backs, CasesOf::<C>::back);
    let histories = cases(amounts, 13, amounts.histories, CasesOf::<C>::history);
    let every_order = |o: &_| Some(promised_orders::<C>(o));
    let lines = vec![
        ask("check bits", desks, numbers_of_bits, |d, &k| d.wanted(k), |a| a.number)?,
        ask("judge", desks, codes(), |d, c| d.judge(c), |a| a.number)?,
        ask("row balance", desks, codes(), |d, c| d.row_balance(c), |a| a.number)?,
        ask("write", desks, words(), |d, w| d.write(&w.code, w.data), |a| a.number)?,
        ask("read", desks, words(), |d, w| d.read(&w.code, w.data, w.check), |a| a.number)?,
        ask("explain", desks, lists, |d, l| explained(d, l), |a| a.0.number)?,
        ask("card check", desks, cards, |d, c| d.card_check(&c.code, c.b), |a| a.number)?,
        ask("pass", desks, images, |d, i| passed(d, i), |a| a.0.number)?,
        ask("passes", desks, turns, |d, t| passed_in_turn(d, t), |a| a.0.last().map_or(0, |last| last.number))?,
        ask_promised("orders", desks, orders, every_order, |d, o| in_every_order(d, o), |a| a[0].answers[0].0)?,
        ask_promised(
            "overlaps",
            desks,
            overlaps,
            |o| Some(promised_overlap(o)),
            |d, o| both_passed(d, o),
            |a| a.numbers[0],
        )?,
        ask("put back", desks, backs, |d, b| put_back(d, b), |a| a.0.number)?,
        ask_promised("history", desks, histories, |h| Some(promised(h)), |d, h| history(d, h), |a| a.back.0.number)?,
    ];
    Ok((lines, ask("make", desks, asked_shapes_in::<C>(), |d, c| made(d, c), |a| a.0.number)?))
}

/// Passes of which image or journal has the other edition's size.
fn compare_across<C: Hsiao>(desks: &[&dyn Questions<C>], amounts: &Amounts) -> Result<Line, Box<Difference>> {
    let across = cases(amounts, 19, amounts.turns, CasesOf::<C>::across);
    ask("pass across", desks, across, |d, c| passed(d, c), |a| a.0.number)
}

/// What is asked of the ten-byte edition by the wide one's sizes.
pub fn compare_narrow(desks: &[&dyn Desk], amounts: &Amounts) -> Result<Vec<Line>, Box<Difference>> {
    let of_codes: Vec<&dyn Questions<Code>> = desks.iter().map(|desk| desk as &dyn Questions<Code>).collect();
    Ok(vec![compare_across(&of_codes, amounts)?])
}

/// All questions, of every desk; with one desk alone it only counts and times.
pub fn compare(desks: &[&dyn Desk], amounts: &Amounts) -> Result<Vec<Line>, Box<Difference>> {
    let of_codes: Vec<&dyn Questions<Code>> = desks.iter().map(|desk| desk as &dyn Questions<Code>).collect();
    let (mut lines, made) = compare_codes(&of_codes, amounts)?;
    let stations = edges().into_iter().chain(cases(amounts, 7, amounts.sheets, Cases::station));
    let byte_data = edges_of_bits().chain(cases(amounts, 9, amounts.byte_words, Cases::byte_data));
    let byte_errors = cases(amounts, 10, amounts.byte_errors, Cases::byte_errors).flatten();
    let byte_words = edges_of_bits().chain(cases(amounts, 11, amounts.byte_words, Cases::byte_word));
    let inputs = cases(amounts, 6, amounts.inputs, Cases::program_input);
    lines.extend([
        ask("sheet", desks, stations, |d, s| d.sheet(s), |a| a.number)?,
        made,
        ask("byte write", desks, byte_data, |d, &data| d.byte_write(data), |a| a.number)?,
        ask("byte errors", desks, byte_errors, |d, &word| d.byte_read(word), |a| a.number)?,
        ask("byte read", desks, byte_words, |d, &word| d.byte_read(word), |a| a.number)?,
    ]);
    lines.extend(compare_bad(&of_codes, amounts)?);
    lines.push(ask("mend", desks, inputs, |d, i| d.mend(i), |text| if text == "refused 12\n" { 12 } else { 0 })?);
    Ok(lines)
}

/// The questions of the wide edition, of every desk; and what is asked of it by the ten-byte one's sizes.
pub fn compare_wide(desks: &[&dyn Questions<WideCode>], amounts: &Amounts) -> Result<Vec<Line>, Box<Difference>> {
    let (bad, across) = (compare_bad(desks, amounts)?, compare_across(desks, amounts)?);
    let (mut lines, made) = compare_codes(desks, amounts)?;
    lines.push(made);
    lines.extend(bad);
    lines.push(across);
    Ok(lines)
}

/// The questions about bad places.
fn compare_bad<C: Hsiao>(desks: &[&dyn Questions<C>], amounts: &Amounts) -> Result<Vec<Line>, Box<Difference>> {
    let small_bad = cases(amounts, 16, amounts.small_bad, CasesOf::<C>::small_bad).flatten();
    let bad = cases(amounts, 17, amounts.bad, CasesOf::<C>::bad);
    let finds = cases(amounts, 18, amounts.finds, CasesOf::<C>::find);
    Ok(vec![
        ask("small bad", desks, small_bad, |d, b| recovered(d, b), |a| a.number)?,
        ask("bad places", desks, bad, |d, b| recovered(d, b), |a| a.number)?,
        ask("find bad", desks, finds, |d, f| d.find_bad(&f.code, f.first, f.second), |a| a.number)?,
    ])
}

/// The code word, where places are bad.
fn recovered<C: Coded, Q: OfCodes<C> + ?Sized>(desk: &Q, case: &BadCase<C>) -> Recovered<C::Data> {
    desk.recover(&case.word.code, case.word.data, case.word.check, &case.bad)
}

/// Every question that takes a code, of codes with a set of rows; and that an accepted old code is answered the same by both
/// families.
pub fn compare_rows<C: Chosen>(
    desks: &[&dyn OfCodes<C>],
    old: &[&dyn OfCodes<C::Old>],
    amounts: &Amounts,
) -> Result<Vec<Line>, Box<Difference>> {
    let codes = || cases(amounts, 21, amounts.codes, CasesOf::<C>::code);
    let words = || cases(amounts, 22, amounts.words / 20, CasesOf::<C>::word);
    let lists = cases(amounts, 23, amounts.lists / 5, CasesOf::<C>::list);
    let cards = cases(amounts, 24, amounts.cards / 5, CasesOf::<C>::card);
    // Four short streams rather than a long one, whose later codes have many check bits: writing tries them all for each word.
    let images = |stream| cases(amounts, stream, amounts.images / 5, CasesOf::<C>::image);
    let images = [25, 30, 31, 32].into_iter().flat_map(images);
    let turns = cases(amounts, 26, amounts.turns / 5, CasesOf::<C>::turns);
    let bad = cases(amounts, 28, amounts.bad / 5, CasesOf::<C>::bad);
    let finds = cases(amounts, 29, amounts.finds / 5, CasesOf::<C>::find);
    let sounds = cases(amounts, 27, amounts.codes / 20, CasesOf::<C::Old>::sound_word);
    let both: Vec<Both<C>> = desks.iter().zip(old).map(|(&new, &old)| Both { new, old }).collect();
    let both: Vec<&Both<C>> = both.iter().collect();
    Ok(vec![
        ask("judge", desks, codes(), |d, c| d.judge(c), by_reason)?,
        ask("row balance", desks, codes(), |d, c| d.row_balance(c), |a| a.number)?,
        ask("write", desks, words(), |d, w| d.write(&w.code, w.data), |a| a.number)?,
        ask("read", desks, words(), |d, w| d.read(&w.code, w.data, w.check), |a| a.number)?,
        ask("explain", desks, lists, |d, l| explained(d, l), |a| a.0.number)?,
        ask("card check", desks, cards, |d, c| d.card_check(&c.code, c.b), |a| a.number)?,
        ask("pass", desks, images, |d, i| passed(d, i), |a| a.0.number)?,
        ask("passes", desks, turns, |d, t| passed_in_turn(d, t), |a| a.0.last().map_or(0, |last| last.number))?,
        ask("bad places", desks, bad, |d, b| recovered(d, b), |a| a.number)?,
        ask("find bad", desks, finds, |d, f| d.find_bad(&f.code, f.first, f.second), |a| a.number)?,
        ask_promised(
            "families",
            &both,
            sounds,
            |w| Some(answers(&Second, &w.code, w)),
            |b, w| b.agree(w),
            |a| a.judged.number,
        )?,
    ])
}

/// What a reason of refusal 20 is counted under: 20 and the reason behind it.
pub fn reason_number(reason: usize) -> usize {
    200 + reason
}

fn by_reason(answer: &Judged) -> usize {
    match answer.number {
        20 => reason_number(answer.told),
        number => number,
    }
}

/// A desk's two families.
struct Both<'a, C: Chosen> {
    new: &'a dyn OfCodes<C>,
    old: &'a dyn OfCodes<C::Old>,
}

impl<C: Chosen> Named for Both<'_, C> {
    fn named(&self) -> &'static str {
        self.new.name()
    }
}

/// What is answered of a word under a code, question by question.
#[derive(PartialEq, Debug)]
struct Answers<D> {
    judged: Judged,
    balanced: Balanced,
    written: Written,
    reading: Reading<D>,
    explained: (Explained, Vec<u8>),
    cards: Vec<CardsChecked>,
    passed: (Passed, Vec<u8>, Vec<u8>),
    recovered: Recovered<D>,
    found: Found<D>,
}

fn answers<C: Coded, D: Coded<Data = C::Data>>(
    desk: &dyn OfCodes<C>,
    code: &C,
    word: &WordCase<D>,
) -> Answers<C::Data> {
    let (data, check): (u128, u16) = (word.data.into(), word.check);
    let mut list = vec![0xD5; C::PLACES + 16];
    let explained = desk.explain(code, word.data, check, 2, &mut list);
    let bytes = [data.to_le_bytes()[..C::PLACES / 8].to_vec(), check.to_le_bytes().to_vec()].concat();
    let (mut image, mut journal) = (bytes.repeat(2), vec![0xD5; 2 * C::ENTRY]);
    let asked = Pass { start: 0, end: 2, used: 0, stamp: 7 };
    let passed = desk.pass(code, &mut image, &mut journal, &asked);
    Answers {
        judged: desk.judge(code),
        balanced: desk.row_balance(code),
        written: desk.write(code, word.data),
        reading: desk.read(code, word.data, check),
        explained: (explained, list),
        cards: (2..=4).map(|b| desk.card_check(code, b)).collect(),
        passed: (passed, image, journal),
        recovered: desk.recover(code, word.data, check, &[0, C::PLACES % (code.k() + code.r()).max(1)]),
        found: desk.find_bad(code, (word.data, check), (C::Data::of(0), check)),
    }
}

impl<C: Chosen> Both<'_, C> {
    /// The answers of the new family, if they are those of the old one too.
    fn agree(&self, word: &WordCase<C::Old>) -> Answers<C::Data> {
        let old = answers(self.old, &word.code, word);
        let new = answers(self.new, &C::from_old(&word.code), word);
        assert_eq!(old, new, "{}: both families of {:?}", self.new.name(), word);
        new
    }
}

/// Bytes on either side of a lent buffer, which no desk may touch.
const GUARD: usize = 16;

/// A buffer to lend: these bytes between two guards.
pub(crate) struct Lent(Vec<u8>);

impl Lent {
    pub fn new(bytes: &[u8]) -> Lent {
        Lent([&[0xD5; GUARD], bytes, &[0xD5; GUARD]].concat())
    }

    pub fn bytes(&mut self) -> &mut [u8] {
        let end = self.0.len() - GUARD;
        &mut self.0[GUARD..end]
    }

    /// Every byte, guards too.
    pub fn all(&self) -> &[u8] {
        &self.0
    }

    /// The same in two parts, the second from the lent byte `at` on.
    pub fn halves(&self, at: usize) -> (&[u8], &[u8]) {
        self.0.split_at(at.saturating_add(GUARD).min(self.0.len()))
    }
}

/// The answer and every byte of the list, guards too.
fn explained<C: Coded, Q: OfCodes<C> + ?Sized>(desk: &Q, case: &ListCase<C>) -> (Explained, Vec<u8>) {
    let ListCase { word, limit, list } = case;
    let mut list = Lent::new(list);
    (desk.explain(&word.code, word.data, word.check, *limit, list.bytes()), list.0)
}

/// The answer and every byte of the image and of the journal, guards too.
fn passed<C: Coded, Q: OfCodes<C> + ?Sized>(desk: &Q, case: &ImageCase<C>) -> (Passed, Vec<u8>, Vec<u8>) {
    let ImageCase { code, image, journal, asked } = case;
    let (mut image, mut journal) = (Lent::new(image), Lent::new(journal));
    (desk.pass(code, image.bytes(), journal.bytes(), asked), image.0, journal.0)
}

/// The answers of passes that go by the count handed back, and every byte of the image and of the journal, guards too.
type InTurn = (Vec<Passed>, Vec<u8>, Vec<u8>);

fn passed_in_turn<C: Coded, Q: OfCodes<C> + ?Sized>(desk: &Q, case: &TurnsCase<C>) -> InTurn {
    let (mut image, mut journal) = (Lent::new(&case.image), Lent::new(&case.journal));
    let answers = turns(desk, case, &mut image, &mut journal, |_| ());
    (answers, image.0, journal.0)
}

/// Passes that go by the count handed back, from a journal of which nothing is in use; `seen` is shown the image after each
/// that is done.
fn turns<C: Coded, Q: OfCodes<C> + ?Sized>(
    desk: &Q,
    case: &TurnsCase<C>,
    image: &mut Lent,
    journal: &mut Lent,
    mut seen: impl FnMut(&Lent),
) -> Vec<Passed> {
    let (mut answers, mut used) = (Vec::new(), 0);
    for &(code, start, end, stamp) in &case.turns {
        let answer = desk.pass(&code, image.bytes(), journal.bytes(), &Pass { start, end, used, stamp });
        if answer.number == 0 {
            used = answer.used;
            seen(image);
        }
        answers.push(answer);
    }
    answers
}

/// The answer and every byte of the image and of the journal, guards too.
fn put_back<C: Hsiao>(desk: &dyn Questions<C>, case: &BackCase) -> (PutBack, Vec<u8>, Vec<u8>) {
    let (mut image, mut journal) = (Lent::new(&case.image), Lent::new(&case.journal));
    (desk.put_back(image.bytes(), journal.bytes(), case.used), image.0, journal.0)
}

/// What passes leave, and what comes of it when they are put back; all bytes with their guards.
#[derive(PartialEq, Debug)]
struct History {
    passes: InTurn,
    /// All entries in use put back: the answer, the image and the journal.
    back: (PutBack, Vec<u8>, Vec<u8>),
    /// The entries of one done pass after the other put back, the last pass first: the answers and the images.
    each_back: Vec<(PutBack, Vec<u8>)>,
    /// The same passes over what was put back, in the same journal.
    again: InTurn,
}

/// The counts in use from none on, after each done pass.
fn counts_in_use(answers: &[Passed]) -> Vec<usize> {
    let done = answers.iter().filter(|answer| answer.number == 0).map(|answer| answer.used);
    [0].into_iter().chain(done).collect()
}

fn history<C: Hsiao>(desk: &dyn Questions<C>, case: &TurnsCase<C>) -> History {
    let passes = passed_in_turn(desk, case);
    let counts = counts_in_use(&passes.0);
    let (mut image, mut journal) = (Lent(passes.1.clone()), Lent(passes.2.clone()));
    let mut each_back = Vec::new();
    for ends in counts.windows(2).rev() {
        let entries = journal.bytes().get_mut(C::ENTRY * ends[0]..C::ENTRY * ends[1]).unwrap_or(&mut []);
        let answer = desk.put_back(image.bytes(), entries, ends[1] - ends[0]);
        each_back.push((answer, image.0.clone()));
    }
    let (mut image, mut journal) = (Lent(passes.1.clone()), Lent(passes.2.clone()));
    let answer = desk.put_back(image.bytes(), journal.bytes(), counts[counts.len() - 1]);
    let back = (answer, image.0.clone(), journal.0.clone());
    let answers = turns(desk, case, &mut image, &mut journal, |_| ());
    History { passes, back, each_back, again: (answers, image.0, journal.0) }
}

/// What 02's request 104 promises of a history, by whole copies of the image and with no put-back: all entries are put
/// back, pass by pass the copy from before it comes again, the journal stays, and the same passes do the same again.
fn promised<C: Hsiao>(case: &TurnsCase<C>) -> History {
    let (mut image, mut journal) = (Lent::new(&case.image), Lent::new(&case.journal));
    let mut copies = vec![image.0.clone()];
    let answers = turns(&Second, case, &mut image, &mut journal, |left| copies.push(left.0.clone()));
    let counts = counts_in_use(&answers);
    let back = |count: usize| PutBack { number: 0, told: 0, count };
    let each_back = counts.windows(2).zip(&copies).map(|(ends, copy)| (back(ends[1] - ends[0]), copy.clone()));
    let passes = (answers, image.0, journal.0);
    History {
        back: (back(counts[counts.len() - 1]), copies[0].clone(), passes.2.clone()),
        each_back: each_back.rev().collect(),
        again: passes.clone(),
        passes,
    }
}

/// What words of a made code hold: each is cut to its k data bits.
const WORDS: [u64; 4] = [0, u64::MAX, 0xA5A5_A5A5_A5A5_A5A5, 0x0123_4567_89AB_CDEF];

/// The lowest bits of a number.
fn cut(number: u128, bits: usize) -> u128 {
    (0..bits.min(128)).fold(0, |low, bit| low | number & 1 << bit)
}

/// What is made, how its code is judged, and each word written to it and read from it: as written, with one flip and with
/// two; in the wide edition also with one on either side of the halves.
fn made<C: Hsiao>(
    desk: &dyn Questions<C>,
    &(k, r): &(usize, usize),
) -> (Made<C>, Judged, Vec<(Written, Vec<Reading<C::Data>>)>) {
    let made = desk.make(k, r);
    let code = made.code;
    let (k, r) = (code.k(), code.r());
    let flipped = |data: u128, check: u16, flips: &[usize]| {
        let (mut data, mut check) = (data, check);
        for flip in flips {
            match flip % (k + r).max(1) {
                place if place < k => data ^= 1 << place,
                place => check ^= 1 << (place - k),
            }
        }
        desk.read(&code, C::Data::of(data), check)
    };
    let words = WORDS.iter().enumerate().map(|(at, &word)| {
        let both = u128::from(word) | u128::from(word.rotate_left(7)) << 64;
        let data = cut(both, k.min(C::PLACES));
        let written = desk.write(&code, C::Data::of(data));
        let flips = [&[][..], &[at + k], &[at, 3 * at + r + 1], &[63], &[64], &[127]];
        let asked = if C::PLACES == 64 { 3 } else { flips.len() };
        (written, flips[..asked].iter().map(|places| flipped(data, written.check, places)).collect())
    });
    (made, desk.judge(&code), words.collect())
}
