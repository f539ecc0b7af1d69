//! A comparison is worth what it notices: desks with one fault each, among them every "easy way to go wrong".

use second::*;
use std::ops::Range;

#[derive(Clone, Copy, PartialEq, Debug)]
enum Fault {
    // Document 01, "Easy ways to go wrong", 1 to 5.
    EvenIsMended,
    OddIsMended,
    ChecksAreNotCompared,
    CheckBitsStayUnmended,
    PairsComeTwice,
    // Codes.
    OneCheckBitMore,
    BalanceOfDataColumns,
    BalancePastTheRows,
    LeftoversAreJudged,
    LeftoversAreIgnored,
    OnlyTheNextPlaceIsSeen,
    LastPlaceIsNotSeen,
    NarrowNumbers,
    PlaceIsNotTold,
    SmallestNumberFirst,
    // Words and lists.
    StrayCheckBitsPass,
    RefusedWordComesBack,
    CleanHasPlaceZero,
    LimitBeforeStray,
    HalfAnEntryIsRoom,
    RefusedListIsWritten,
    ListTailIsCleared,
    RefusedListHasLength,
    // Cards.
    LargestMask,
    ShortDataCardIsSkipped,
    ShortCheckCardIsSkipped,
    CardsRunStraightOn,
    DataCardIsJoined,
    CheckCardsAreLeftOut,
    CheckCardsFromZero,
    MaskFromThePart,
    OnlyDataColumnsCount,
    // Images.
    RunBeforeLength,
    JournalBeforeRun,
    LastRecordIsBeyond,
    WholeImageIsMended,
    NumbersFromTheRun,
    RefusedPassIsNoted,
    JournalTailIsCleared,
    NothingIsMended,
    StrayIsNotCounted,
    RefusedPassHasTally,
    // Stamps and entries in use.
    StampHighByteFirst,
    WrittenOverAUsedEntry,
    FirstStampIsCompared,
    EqualStampIsRefused,
    StampIsTriedWithNoneUsed,
    RoomFromTheStart,
    OneUsedTooMany,
    FullJournalIsRefused,
    NoRoomForTheLast,
    NarrowCountInUse,
    RoomBeforeStamp,
    StampBeforeRun,
    StampIsNotWritten,
    NewEntriesAreHandedBack,
    RefusedPassHasCount,
    LastUsedEntryIsStamped,
    // Passes in any order, and over the same record twice.
    LaterRunsMustLieBehind,
    NextRecordIsMended,
    TallyGoesOn,
    EnteredOnce,
    MendedIsEnteredAgain,
    // Syndromes.
    SyndromeBeforePlace,
    MendedSyndromeIsEntered,
    StraySyndromeIsEntered,
    SyndromeHighByteFirst,
    SyndromeIsCutToAByte,
    SyndromeOnRefusal,
    WrittenBitsAreTold,
    NoSyndromeIsTold,
    // Putting back.
    FirstToLast,
    MismatchIsLetThrough,
    AsReadIsMatched,
    CountWithoutTheLast,
    FirstEntryIsSkipped,
    JournalIsWritten,
    StopUndoes,
    NumberIsNotChecked,
    ToldInsteadOfCount,
    StopGoesOn,
    UnmatchedIsWritten,
    AllAreCounted,
    HeadIsJudged,
    UnchangedIsNotCounted,
    OnlyDataIsCompared,
    OnlyDataIsPutBack,
    NarrowRecordNumber,
    CountBeforeLength,
    LongImageIsPutBack,
    OverTheRoomIsPutBack,
    FullJournalIsNotPutBack,
    NarrowCountIsPutBack,
    CountOnRefusal,
    // Sheets.
    EndsAreOutside,
    CeilingIsAFloor,
    RoundedTwice,
    HoursAreNotJudged,
    BandUpsideDownPasses,
    YesOnRefusal,
    HoursOnRefusal,
    MinusZeroIsBelow,
    NarrowCounts,
    // Made codes.
    FiveBeforeThree,
    LargerNumberFirst,
    ColumnLeftOut,
    LeftoverIsMade,
    RoomForOneLess,
    RoomForOneMore,
    ChecksBeforeData,
    RefusedCodeHasItsSize,
    // Words of ten bytes.
    TransposedT,
    SeventhByteIsLost,
    PartsAreExchanged,
    CheckBytesStayUnmended,
    NineIsData,
    FlaggedIsMended,
    BitThirtyPasses,
    StrayDataIsCut,
    ByteOnRefusal,
    // Places known to be bad, and the finder.
    FlipBesideTwo,
    NoFlipBesideOne,
    BadPlacesStay,
    ProperIsRefused,
    RepeatPasses,
    PlaceAtNPasses,
    FourthIsIgnored,
    BadBeforeStray,
    NoneIsBadPlaces,
    WordOnRefusal,
    NarrowPlaces,
    ThirdIsIgnored,
    DifferingIsFound,
    FoundAboveN,
    SecondStrayPasses,
    ChecksAreNotFound,
    // The program.
    SyndromeIsNotPrinted,
    NoLastLineEnd,
    RefusedPrintsTally,
}

use Fault::*;

/// The first of these cards that is weak, where what a mask makes is compared with the columns below `compared`.
fn first_weak(code: &Code, cards: impl Iterator<Item = Range<usize>>, compared: usize) -> CardsChecked {
    let columns: Vec<u16> = code.columns[..code.k].iter().copied().chain((0..code.r).map(|row| 1 << row)).collect();
    for (number, card) in cards.enumerate() {
        let made =
            |mask: usize| card.clone().filter(|p| mask >> (p - card.start) & 1 == 1).fold(0, |s, p| s ^ columns[p]);
        let is_weak =
            |mask: &usize| mask.count_ones() > 1 && (made(*mask) == 0 || columns[..compared].contains(&made(*mask)));
        if let Some(mask) = (0..1 << card.len()).find(is_weak) {
            return CardsChecked { number: 9, told: 0, card: number, mask };
        }
    }
    CardsChecked::default()
}

struct Sloppy(Fault);

impl Sloppy {
    fn has(&self, fault: Fault) -> bool {
        self.0 == fault
    }

    /// The code as this desk takes it.
    fn taken(&self, code: &Code) -> Code {
        let without = |places: Range<usize>| {
            let mut code = *code;
            code.columns[places].fill(0);
            code
        };
        let k = code.k.min(64);
        match self.0 {
            LeftoversAreIgnored => without(k..64),
            OnlyTheNextPlaceIsSeen => without((k + 1).min(64)..64),
            LastPlaceIsNotSeen => without(k.max(63)..64),
            LeftoversAreJudged if (1..=64).contains(&code.k) && code.columns[code.k..].iter().any(|&c| c != 0) => {
                Code { k: 64, ..*code }
            }
            NarrowNumbers => Code { k: code.k as u32 as usize, r: code.r as u32 as usize, ..*code },
            _ => *code,
        }
    }
}

/// The records that entries are of, by the low byte of their number.
fn entered(entries: &[u8]) -> impl Iterator<Item = usize> + '_ {
    entries.chunks_exact(30).map(|entry| usize::from(entry[4]))
}

/// Leaves out those of the new entries whose record has been entered before: the count in use.
fn enter_once(journal: &mut [u8], before: &[u8], new: Range<usize>) -> usize {
    let (old, entries) = journal[..30 * new.end].split_at(30 * new.start);
    let is_new = |entry: &&[u8]| !entered(old).any(|record| record == usize::from(entry[4]));
    let kept: Vec<u8> = entries.chunks(30).filter(is_new).flatten().copied().collect();
    journal.copy_from_slice(before);
    journal[30 * new.start..][..kept.len()].copy_from_slice(&kept);
    new.start + kept.len() / 30
}

/// Gives the records whose check bit was mended what they held before.
fn unmend_check_bits(image: &mut [u8], before: &[u8], entries: &[u8]) {
    let check_bits = entries.chunks(30).filter(|entry| entry[6] == 2).map(|entry| usize::from(entry[4]));
    for at in check_bits.map(|record| 10 * record) {
        image[at..at + 10].copy_from_slice(&before[at..at + 10]);
    }
}

/// A pass that is refused by this number: image and journal are as they were.
fn refused_pass(number: usize, image: &mut [u8], journal: &mut [u8], before: (Vec<u8>, Vec<u8>)) -> Passed {
    image.copy_from_slice(&before.0);
    journal.copy_from_slice(&before.1);
    Passed { number, ..Passed::default() }
}

impl Sloppy {
    /// Whether this desk refuses a stamp that the document lets pass.
    fn refuses_stamp(&self, stamp: u32, used: usize, is_used: bool, first: u32, last: u32) -> bool {
        match self.0 {
            FirstStampIsCompared => is_used && stamp < first,
            EqualStampIsRefused => is_used && stamp == last,
            StampIsTriedWithNoneUsed => used == 0 && stamp < first,
            _ => false,
        }
    }

    /// A pass as this desk takes stamps and the count in use.
    fn pass_by_the_count(&self, code: &Code, image: &mut [u8], journal: &mut [u8], asked: &Pass) -> Passed {
        let Pass { used, stamp, .. } = *asked;
        let (before, room) = ((image.to_vec(), journal.to_vec()), journal.len() / 30);
        let is_used = (1..=room).contains(&used);
        let stamp_at = |entry: usize| before.1.get(30 * entry..30 * entry + 4).map_or(0, stamp_of);
        let (first, last) = (stamp_at(0), if is_used { stamp_at(used - 1) } else { 0 });
        let mut answer = pass(code, image, journal, asked);
        if matches!(answer.number, 0 | 13) && self.refuses_stamp(stamp, used, is_used, first, last) {
            return refused_pass(16, image, journal, before);
        }
        let new = 30 * used.min(room)..30 * answer.used.max(used.min(room));
        match (self.0, answer.number) {
            (StampHighByteFirst, 0) => journal[new].chunks_mut(30).for_each(|entry| entry[..4].reverse()),
            (StampIsNotWritten, 0) => journal[new].chunks_mut(30).for_each(|entry| entry[..4].fill(0)),
            (WrittenOverAUsedEntry, 0) if is_used => journal.copy_within(new, 30 * (used - 1)),
            (LastUsedEntryIsStamped, 0) if is_used => {
                journal[30 * (used - 1)..][..4].copy_from_slice(&stamp.to_le_bytes())
            }
            (FirstStampIsCompared, 16) if stamp >= first => answer.number = 0,
            (RoomFromTheStart, 13) if answer.told <= room => answer = Passed::default(),
            (OneUsedTooMany, 17) if used == room + 1 => answer.number = 0,
            (FullJournalIsRefused, 0 | 13 | 16) if used == room => return refused_pass(17, image, journal, before),
            (NoRoomForTheLast, 0) if answer.used == room && answer.used > used => {
                return refused_pass(13, image, journal, before)
            }
            (NarrowCountInUse, 17) => {
                return pass(code, image, journal, &Pass { used: used as u32 as usize, ..*asked })
            }
            (RoomBeforeStamp, 16) => match pass(code, image, journal, &Pass { stamp: u32::MAX, ..*asked }) {
                without if without.number == 13 => return without,
                _ => return refused_pass(16, image, journal, before),
            },
            (StampBeforeRun, 14) if is_used && stamp < last => answer.number = 16,
            (NewEntriesAreHandedBack, 0) => answer.used -= used,
            (RefusedPassHasCount, 13 | 16) => answer.used = used,
            _ => {}
        }
        answer
    }
}

impl Sloppy {
    /// The number by which this desk refuses to put back at all.
    fn refused_back(&self, length: usize, room: usize, used: usize) -> usize {
        let is_long = length > 65_530 && !self.has(LongImageIsPutBack);
        let is_over = match self.0 {
            OverTheRoomIsPutBack => used > room + 1,
            FullJournalIsNotPutBack => used >= room.max(1),
            NarrowCountIsPutBack => used as u32 as usize > room,
            _ => used > room,
        };
        match (is_long || length % 10 != 0, is_over) {
            (true, true) if self.has(CountBeforeLength) => 17,
            (true, _) => 12,
            (false, true) => 17,
            (false, false) => 0,
        }
    }

    /// Whether an entry matches, as this desk takes it; if so it is put back.
    fn entry_back(&self, image: &mut [u8], entry: &mut [u8]) -> bool {
        let high = if self.has(NarrowRecordNumber) { 0 } else { 256 * usize::from(entry[5]) };
        let record = 10 * (usize::from(entry[4]) + high);
        let held = match image.get_mut(record..record + 10) {
            Some(held) => held,
            None => return self.has(NumberIsNotChecked) || self.has(MismatchIsLetThrough),
        };
        let left = if self.has(AsReadIsMatched) { &entry[10..20] } else { &entry[20..] };
        let compared = if self.has(OnlyDataIsCompared) { 8 } else { 10 };
        let is_judged = self.has(HeadIsJudged) && !(1..=5).contains(&entry[6]);
        let matches = held[..compared] == left[..compared] && !is_judged || self.has(MismatchIsLetThrough);
        let written = if self.has(OnlyDataIsPutBack) { 8 } else { 10 };
        if matches || self.has(UnmatchedIsWritten) {
            held[..written].copy_from_slice(&entry[10..10 + written]);
        }
        if matches && self.has(JournalIsWritten) {
            entry.copy_within(10..20, 20);
        }
        matches
    }
}

/// The check bits that writing gives, and the syndrome, of a word whose stray bits are not looked at.
fn unjudged(code: &Code, data: u64, check: u16) -> (u16, u16) {
    let written = write(code, (u128::from(data) & ((1 << code.k.min(64)) - 1)) as u64).check;
    (written, written ^ check)
}

impl Sloppy {
    /// The syndrome of one word as this desk tells it, on a refusal by 7 too.
    fn told_syndrome(&self, code: &Code, data: u64, check: u16, answer: &Reading) -> u16 {
        let (written, syndrome) = unjudged(code, data, check);
        match (self.0, answer.number) {
            (SyndromeOnRefusal, 7) => syndrome,
            (WrittenBitsAreTold, 0) => written,
            (SyndromeIsCutToAByte, 0) => syndrome & 255,
            (NoSyndromeIsTold, 0) => 0,
            _ => answer.syndrome,
        }
    }

    /// What this desk enters behind an entry's verdict: from the place up to the bytes as read.
    fn enter_syndrome(&self, code: &Code, entry: &mut [u8]) {
        let data = u64::from_le_bytes(entry[10..18].try_into().unwrap());
        let (written, syndrome) = unjudged(code, data, u16::from_le_bytes([entry[18], entry[19]]));
        match (self.0, entry[6]) {
            (SyndromeBeforePlace, _) => entry[7..10].rotate_left(1),
            (MendedSyndromeIsEntered, 1 | 2) => entry[8..10].fill(0),
            (StraySyndromeIsEntered, 5) => entry[8..10].copy_from_slice(&syndrome.to_le_bytes()),
            (SyndromeHighByteFirst, _) => entry[8..10].reverse(),
            (SyndromeIsCutToAByte, _) => entry[9] = 0,
            (WrittenBitsAreTold, 1..=4) => entry[8..10].copy_from_slice(&written.to_le_bytes()),
            _ => {}
        }
    }
}

impl Desk for Sloppy {
    fn name(&self) -> &'static str {
        "sloppy"
    }

    fn wanted(&self, k: usize) -> Wanted {
        let mut answer = wanted(k);
        answer.check_bits += usize::from(self.has(OneCheckBitMore) && k == 57);
        answer
    }

    fn judge(&self, code: &Code) -> Judged {
        let mut answer = judge(&self.taken(code));
        if self.has(ChecksAreNotCompared) && answer.number == 5 {
            answer = Judged::default();
        }
        if self.has(PlaceIsNotTold) {
            answer.told = 0;
        }
        if self.has(SmallestNumberFirst) && (4..=6).contains(&answer.number) {
            let wide = code.columns[..code.k].iter().position(|&column| column >> (code.r - 1) > 1);
            answer = wide.map_or(answer, |told| Judged { number: 3, told });
        }
        answer
    }

    fn row_balance(&self, code: &Code) -> Balanced {
        let mut answer = row_balance(code);
        if answer.number == 0 && self.has(BalanceOfDataColumns) {
            answer.rows.iter_mut().take(code.r).for_each(|balance| *balance -= code.r as i32);
        }
        if answer.number == 0 && self.has(BalancePastTheRows) {
            answer.rows[code.r..].fill(-1);
        }
        answer
    }

    fn write(&self, code: &Code, data: u64) -> Written {
        write(code, data)
    }

    fn read(&self, code: &Code, data: u64, check: u16) -> Reading {
        let mut answer = read(code, data, check);
        match (self.0, answer.number, answer.verdict) {
            (EvenIsMended, 0, 3) => answer = Reading { verdict: 1, place: 0, data: data ^ 1, ..answer },
            (OddIsMended, 0, 4) => answer = Reading { verdict: 1, place: 0, data: data ^ 1, ..answer },
            (CheckBitsStayUnmended, 0, 2) => answer.check = check,
            (CleanHasPlaceZero, 0, 0) => answer.place = 0,
            (RefusedWordComesBack, 7, _) => answer.data = data,
            (StrayCheckBitsPass, 7, _) => answer = read(code, data, check & ((1 << code.r.min(15)) - 1)),
            _ => {}
        }
        answer.syndrome = self.told_syndrome(code, data, check, &answer);
        answer
    }

    fn explain(&self, code: &Code, data: u64, check: u16, limit: usize, list: &mut [u8]) -> Explained {
        let mut answer = explain(code, data, check, limit, list);
        match self.0 {
            LimitBeforeStray if answer.number == 7 && limit > 2 => answer.number = 11,
            HalfAnEntryIsRoom if answer.number == 10 && list.len() + 1 == 2 * answer.told => {
                answer = Explained { length: answer.told, ..Explained::default() }
            }
            RefusedListIsWritten if answer.number == 10 => list.fill(0),
            RefusedListHasLength if answer.number == 10 => answer.length = answer.told,
            ListTailIsCleared if answer.number == 0 => list[2 * answer.length..].fill(0),
            PairsComeTwice if answer.number == 0 && answer.length > 0 && list.len() >= 4 && list[1] != 255 => {
                list.copy_within(0..2, 2);
                list[2..4].reverse();
            }
            _ => {}
        }
        answer
    }

    fn card_check(&self, code: &Code, b: usize) -> CardsChecked {
        let answer = card_check(code, b);
        if !(answer.number == 9 || answer.number == 0) {
            return answer;
        }
        let (k, n, data_cards) = (code.k, code.k + code.r, (code.k + b - 1) / b);
        let data = |end: usize| (0..k).step_by(b).map(move |first| first..end.min(first + b));
        let check = (k..n).step_by(b).map(|first| first..n.min(first + b));
        let is_weak = answer.number == 9;
        let past = answer.card.saturating_sub(data_cards);
        match self.0 {
            LargestMask if is_weak => CardsChecked { mask: (1 << b) - 1, ..answer },
            ShortDataCardIsSkipped if is_weak && answer.card < data_cards && (answer.card + 1) * b > k => {
                Default::default()
            }
            ShortCheckCardIsSkipped if answer.card >= data_cards && (past + 1) * b > code.r => Default::default(),
            CheckCardsAreLeftOut if answer.card >= data_cards => Default::default(),
            CheckCardsFromZero if answer.card >= data_cards => CardsChecked { card: past, ..answer },
            MaskFromThePart if answer.card >= data_cards => CardsChecked { mask: answer.mask << (past * b), ..answer },
            CardsRunStraightOn => first_weak(code, (0..n).step_by(b).map(|first| first..n.min(first + b)), n),
            DataCardIsJoined => first_weak(code, data(n).chain(check), n),
            OnlyDataColumnsCount => first_weak(code, data(k).chain(check), k),
            _ => answer,
        }
    }

    fn pass(&self, code: &Code, image: &mut [u8], journal: &mut [u8], asked: &Pass) -> Passed {
        let Pass { start, end, used, .. } = *asked;
        let (before, journal_before, records) = (image.to_vec(), journal.to_vec(), image.len() / 10);
        let bad_run = start > end || end > records;
        let mut answer = self.pass_by_the_count(code, image, journal, asked);
        let noted: usize = answer.tally[1..].iter().sum();
        if ENTERED.contains(&self.0) {
            let new = 30 * (answer.used - noted)..30 * answer.used;
            journal[new].chunks_mut(30).for_each(|entry| self.enter_syndrome(code, entry));
        }
        match (self.0, answer.number) {
            (RunBeforeLength, 12) if bad_run => answer.number = 14,
            (JournalBeforeRun, 14) if start < records && journal.len() < 30 => answer.number = 13,
            (LastRecordIsBeyond, 0) if end == records => answer = Passed { number: 14, ..Passed::default() },
            (WholeImageIsMended, 0) => {
                let whole = Pass { start: 0, end: records, ..Pass::default() };
                pass(code, image, &mut vec![0; 30 * records], &whole);
            }
            (NumbersFromTheRun, 0) if noted > 0 => {
                journal[30 * used + 4] = journal[30 * used + 4].wrapping_sub(start as u8)
            }
            (RefusedPassIsNoted, 13) => journal.fill(0),
            (JournalTailIsCleared, 0) => journal[30 * answer.used..].fill(0),
            (NothingIsMended, 0) => image.copy_from_slice(&before),
            (LaterRunsMustLieBehind, 0) if entered(&journal[..30 * used]).any(|record| record > end) => {
                return refused_pass(14, image, journal, (before, journal_before))
            }
            (NextRecordIsMended, 0) if end < records => {
                pass(code, image, &mut [0; 30], &Pass { start: end, end: end + 1, ..Pass::default() });
            }
            (TallyGoesOn, 0) => answer.tally[0] += used,
            (EnteredOnce, 0) => answer.used = enter_once(journal, &journal_before, used..answer.used),
            (MendedIsEnteredAgain, 0) => unmend_check_bits(image, &before, &journal[30 * used..30 * answer.used]),
            (StrayIsNotCounted, 0) => answer.tally[5] = 0,
            (RefusedPassHasTally, 13) => answer.tally[3] = answer.told,
            _ => {}
        }
        answer
    }

    fn put_back(&self, image: &mut [u8], journal: &mut [u8], used: usize) -> PutBack {
        let number = self.refused_back(image.len(), journal.len() / 30, used);
        if number != 0 {
            return PutBack { number, told: 0, count: if self.has(CountOnRefusal) { used } else { 0 } };
        }
        let before = image.to_vec();
        let (mut answer, first) = (PutBack::default(), usize::from(self.has(FirstEntryIsSkipped)));
        let mut order: Vec<usize> = (first..(used as u32 as usize).min(journal.len() / 30)).rev().collect();
        if self.has(FirstToLast) {
            order.reverse();
        }
        for at in order {
            let entry = &mut journal[30 * at..30 * at + 30];
            let is_counted = !self.has(UnchangedIsNotCounted) || entry[10..20] != entry[20..];
            if self.entry_back(image, entry) {
                answer.count += usize::from(is_counted);
            } else {
                answer.number = 18;
                if !self.has(StopGoesOn) {
                    break;
                }
            }
        }
        match (self.0, answer.number) {
            (StopUndoes, 18) => image.copy_from_slice(&before),
            (AllAreCounted, 18) => answer.count = used,
            (CountWithoutTheLast, 0) => answer.count = answer.count.saturating_sub(1),
            (ToldInsteadOfCount, _) => answer = PutBack { told: answer.count, count: 0, ..answer },
            _ => {}
        }
        answer
    }

    fn sheet(&self, asked: &Station) -> Sheeted {
        let mut answer = sheet(asked);
        let ends = match asked.limit {
            Limit::Ceiling(high) => vec![high],
            Limit::Band(low, high) => vec![low, high],
            Limit::Open => vec![],
        };
        match (self.0, answer.number, asked.limit) {
            (EndsAreOutside, 0, _) if ends.contains(&answer.share) => answer.yes = false,
            (CeilingIsAFloor, 0, Limit::Ceiling(high)) => answer.yes = answer.share >= high,
            (RoundedTwice, 0, _) => answer.share = f64::from(f64::from_bits(answer.share) as f32).to_bits(),
            (HoursAreNotJudged, 19, _) if f64::from_bits(asked.hours) <= 0.0 => {
                answer = sheet(&Station { hours: 1, ..*asked })
            }
            (BandUpsideDownPasses, 19, Limit::Band(low, high)) => {
                answer = sheet(&Station { limit: Limit::Band(high, low), ..*asked })
            }
            (YesOnRefusal, 19, _) => answer.yes = true,
            (HoursOnRefusal, 19, _) => answer.device = asked.hours,
            (MinusZeroIsBelow, 0, _) if ends.contains(&(1 << 63)) => answer = Refusal::plain(19).into(),
            (NarrowCounts, 19, _) => answer = sheet(&Station { devices: asked.devices as u16 as usize, ..*asked }),
            _ => {}
        }
        answer
    }

    fn make(&self, k: usize, r: usize) -> Made {
        let mut made = make(k, r);
        let columns = &mut made.code.columns;
        match (self.0, made.number) {
            (FiveBeforeThree, 0) if k > 10 && r == 5 => columns[..k].rotate_right(1),
            (LargerNumberFirst, 0) if r > 3 => columns[..k].reverse(),
            (ColumnLeftOut, 0) if k > 1 && k < 64 && make(k + 1, r).number == 0 => {
                *columns = make(k + 1, r).code.columns;
                columns[0..=k].rotate_left(1);
                columns[k] = 0;
            }
            (LeftoverIsMade, 0) if k < 64 && make(k + 1, r).number == 0 => columns[k] = make(k + 1, r).code.columns[k],
            (RoomForOneLess, 0) if k == (1 << (r - 1)) - r => made = make(64, 3),
            (RoomForOneMore, 15) if k == (1 << (r - 1)) - r + 1 => made = Made { number: 0, ..make(k - 1, r) },
            (ChecksBeforeData, 1) if !(3..=16).contains(&r) => made.number = 2,
            (RefusedCodeHasItsSize, 15) => made.code = Code { k, r, ..made.code },
            _ => {}
        }
        made
    }

    fn byte_write(&self, data: u64) -> ByteWritten {
        let answer = byte_write(data);
        let check = |t: usize| answer.word >> (3 * t) & 7;
        match (self.0, answer.number) {
            // T takes 1 to 2, and transposed to 4.
            (TransposedT, 0) if data == 1 << 3 => ByteWritten { word: spoilt(answer.word, 8, 2 ^ 4), ..answer },
            (PartsAreExchanged, 0) => {
                let both = check(8) ^ check(9);
                ByteWritten { word: spoilt(spoilt(answer.word, 8, both), 9, both), ..answer }
            }
            (StrayDataIsCut, 7) => byte_write(data % (1 << 21)),
            _ => answer,
        }
    }

    fn byte_read(&self, word: u64) -> ByteRead {
        let answer = byte_read(word);
        match (self.0, answer.number, answer.verdict) {
            (SeventhByteIsLost, 0, 1) if answer.byte == 6 => ByteRead { verdict: 3, byte: 255, word, ..answer },
            (CheckBytesStayUnmended, 0, 2) => ByteRead { word, ..answer },
            (NineIsData, 0, 2) if answer.byte == 9 => ByteRead { verdict: 1, ..answer },
            (FlaggedIsMended, 0, 3) => ByteRead { word: word ^ 1, ..answer },
            (BitThirtyPasses, 7, _) if word >> 31 == 0 => byte_read(word % (1 << 30)),
            (ByteOnRefusal, 7, _) => ByteRead { byte: 255, ..answer },
            _ => answer,
        }
    }

    fn recover(&self, code: &Code, data: u64, check: u16, bad: &[usize]) -> Recovered {
        let answer = recover(code, data, check, bad);
        let with = |bad: Vec<usize>| recover(code, data, check, &bad);
        let n = code.k.saturating_add(code.r);
        let as_read = answer.data == data && answer.check == check;
        let word = |data: u64, check: u16| u128::from(data) | u128::from(check) << code.k;
        let beside = |a: &Recovered| {
            let bad = bad.iter().fold(0, |places, &place| places | 1u128 << place);
            (word(a.data, a.check) ^ word(data, check)) & !bad != 0
        };
        match (self.0, answer.number) {
            (FlipBesideTwo, 23) if bad.len() == 2 => with(bad[..1].to_vec()),
            (NoFlipBesideOne, 0) if bad.len() == 1 && beside(&answer) => Refusal::plain(23).into(),
            (BadPlacesStay, 0 | 23) => with(vec![]),
            (ProperIsRefused, 0) if as_read => Refusal::plain(23).into(),
            (RepeatPasses, 22) => {
                let mut once = bad.to_vec();
                once.sort_unstable();
                once.dedup();
                with(once)
            }
            (PlaceAtNPasses, 22) => with(bad.iter().copied().filter(|&place| place != n).collect()),
            (FourthIsIgnored, 22) if bad.len() == 4 => with(bad[..3].to_vec()),
            (BadBeforeStray, 7) if bad.len() > 1 && bad[0] == bad[1] => Recovered { number: 22, ..answer },
            (NoneIsBadPlaces, 23) => Recovered { number: 22, ..answer },
            (WordOnRefusal, 23) => Recovered { data, check, ..answer },
            (NarrowPlaces, 22) => with(bad.iter().map(|&place| place as u32 as usize).collect()),
            (ThirdIsIgnored, 0 | 23) if bad.len() == 3 => with(bad[..2].to_vec()),
            _ => answer,
        }
    }

    fn find_bad(&self, code: &Code, first: (u64, u16), second: (u64, u16)) -> Found {
        let answer = find_bad(code, first, second);
        match (self.0, answer.number) {
            (DifferingIsFound, 0) => Found { data: first.0 ^ second.0, check: first.1 ^ second.1, ..answer },
            (FoundAboveN, 0) => Found { data: !(first.0 ^ second.0), check: !(first.1 ^ second.1), ..answer },
            (SecondStrayPasses, 7) => find_bad(code, first, first),
            (ChecksAreNotFound, 0) => Found { check: 0, ..answer },
            _ => answer,
        }
    }

    fn mend(&self, input: &[u8]) -> String {
        let text = mend(input);
        match self.0 {
            SyndromeIsNotPrinted => {
                let without = |line: &str| match line.split(' ').collect::<Vec<&str>>()[..] {
                    [record, verdict, place, _] => format!("{} {} {}\n", record, verdict, place),
                    _ => line.to_string() + "\n",
                };
                text.lines().map(without).collect()
            }
            NoLastLineEnd => text.trim_end().to_string(),
            RefusedPrintsTally if text.starts_with("refused") => text + &mend(&[]),
            _ => text,
        }
    }
}

const NO_CASES: Amounts = Amounts::NONE;

/// Every fault is noticed, at this question, with no more cases than these.
fn noticed(faults: &[Fault], question: &str, amounts: Amounts) {
    for &fault in faults {
        match compare(&[&Second, &Sloppy(fault)], &amounts) {
            Ok(_) => panic!("{:?} is not noticed", fault),
            Err(difference) => {
                assert_eq!(difference.question, question, "{:?}", fault);
                assert!(difference.to_string().contains("sloppy answers"));
            }
        }
    }
}

#[test]
fn every_fault_of_a_code_is_noticed() {
    let amounts = Amounts { codes: 2_000, ..NO_CASES };
    noticed(&[OneCheckBitMore], "check bits", NO_CASES);
    noticed(&[ChecksAreNotCompared, LeftoversAreJudged, NarrowNumbers], "judge", amounts);
    noticed(&[LeftoversAreIgnored, OnlyTheNextPlaceIsSeen, LastPlaceIsNotSeen], "judge", amounts);
    noticed(&[PlaceIsNotTold, SmallestNumberFirst], "judge", amounts);
    noticed(&[BalanceOfDataColumns, BalancePastTheRows], "row balance", amounts);
}

#[test]
fn every_fault_of_a_word_is_noticed() {
    let amounts = Amounts { words: 10_000, ..NO_CASES };
    noticed(&[EvenIsMended, OddIsMended, CheckBitsStayUnmended], "read", amounts);
    noticed(&[CleanHasPlaceZero, StrayCheckBitsPass, RefusedWordComesBack], "read", amounts);
}

#[test]
fn every_fault_of_a_list_or_a_card_is_noticed() {
    let amounts = Amounts { lists: 2_000, cards: 500, ..NO_CASES };
    noticed(&[PairsComeTwice, LimitBeforeStray, HalfAnEntryIsRoom], "explain", amounts);
    noticed(&[RefusedListIsWritten, RefusedListHasLength, ListTailIsCleared], "explain", amounts);
    noticed(&[LargestMask, ShortDataCardIsSkipped, ShortCheckCardIsSkipped], "card check", amounts);
    noticed(&[CardsRunStraightOn, DataCardIsJoined], "card check", amounts);
    noticed(&[CheckCardsAreLeftOut, CheckCardsFromZero, MaskFromThePart, OnlyDataColumnsCount], "card check", amounts);
}

#[test]
fn every_fault_of_a_pass_is_noticed() {
    let amounts = Amounts { images: 500, inputs: 40, ..NO_CASES };
    noticed(&[RunBeforeLength, JournalBeforeRun, LastRecordIsBeyond], "pass", amounts);
    noticed(&[RefusedPassIsNoted, RefusedPassHasTally, JournalTailIsCleared], "pass", amounts);
    noticed(&[WholeImageIsMended, NumbersFromTheRun, NothingIsMended, StrayIsNotCounted], "pass", amounts);
    noticed(&[SyndromeIsNotPrinted, NoLastLineEnd, RefusedPrintsTally], "mend", amounts);
}

/// The faults of a stamp and of the count in use.
const STAMPS: [Fault; 16] = [
    StampHighByteFirst,
    WrittenOverAUsedEntry,
    FirstStampIsCompared,
    EqualStampIsRefused,
    StampIsTriedWithNoneUsed,
    RoomFromTheStart,
    OneUsedTooMany,
    FullJournalIsRefused,
    NoRoomForTheLast,
    NarrowCountInUse,
    RoomBeforeStamp,
    StampBeforeRun,
    StampIsNotWritten,
    NewEntriesAreHandedBack,
    RefusedPassHasCount,
    LastUsedEntryIsStamped,
];

#[test]
fn every_fault_of_a_stamp_or_a_count_in_use_is_noticed() {
    noticed(&STAMPS, "pass", Amounts { images: 1_000, ..NO_CASES });
}

#[test]
fn passes_in_turn_notice_what_a_true_count_shows() {
    let faults = [StampHighByteFirst, WrittenOverAUsedEntry, FirstStampIsCompared, EqualStampIsRefused];
    noticed(&faults, "passes", Amounts { turns: 500, ..NO_CASES });
    let faults = [StampIsTriedWithNoneUsed, RoomFromTheStart, NoRoomForTheLast, NewEntriesAreHandedBack];
    noticed(&faults, "passes", Amounts { turns: 500, ..NO_CASES });
}

#[test]
fn every_order_of_passes_notices_what_depends_on_the_order() {
    let amounts = Amounts { orders: 20, ..NO_CASES };
    noticed(&[LaterRunsMustLieBehind, NextRecordIsMended, TallyGoesOn], "orders", amounts);
    noticed(&[WholeImageIsMended, NothingIsMended, EqualStampIsRefused, NoRoomForTheLast], "orders", amounts);
    noticed(&[WrittenOverAUsedEntry, NewEntriesAreHandedBack, StampIsNotWritten], "orders", amounts);
}

#[test]
fn runs_that_overlap_notice_a_record_that_is_entered_wrongly_again() {
    let amounts = Amounts { overlaps: 100, ..NO_CASES };
    noticed(&[EnteredOnce, MendedIsEnteredAgain, NothingIsMended], "overlaps", amounts);
    noticed(&[MendedSyndromeIsEntered, NumbersFromTheRun, NewEntriesAreHandedBack], "overlaps", amounts);
}

/// The faults of a syndrome that reading tells, and of one that is entered.
const TOLD: [Fault; 4] = [SyndromeOnRefusal, WrittenBitsAreTold, SyndromeIsCutToAByte, NoSyndromeIsTold];
const ENTERED: [Fault; 6] = [
    SyndromeBeforePlace,
    MendedSyndromeIsEntered,
    StraySyndromeIsEntered,
    SyndromeHighByteFirst,
    SyndromeIsCutToAByte,
    WrittenBitsAreTold,
];

#[test]
fn every_fault_of_a_syndrome_is_noticed() {
    noticed(&TOLD, "read", Amounts { words: 1_000, ..NO_CASES });
    noticed(&ENTERED, "pass", Amounts { images: 500, ..NO_CASES });
    noticed(&ENTERED, "passes", Amounts { turns: 500, ..NO_CASES });
}

/// The faults of a put-back that true histories show, and those that want damage.
const BACK: [Fault; 9] = [
    FirstToLast,
    AsReadIsMatched,
    CountWithoutTheLast,
    FirstEntryIsSkipped,
    JournalIsWritten,
    ToldInsteadOfCount,
    UnchangedIsNotCounted,
    OnlyDataIsPutBack,
    FullJournalIsNotPutBack,
];
const DAMAGED_BACK: [Fault; 14] = [
    MismatchIsLetThrough,
    StopUndoes,
    NumberIsNotChecked,
    StopGoesOn,
    UnmatchedIsWritten,
    AllAreCounted,
    HeadIsJudged,
    OnlyDataIsCompared,
    NarrowRecordNumber,
    CountBeforeLength,
    LongImageIsPutBack,
    OverTheRoomIsPutBack,
    NarrowCountIsPutBack,
    CountOnRefusal,
];

#[test]
fn every_fault_of_a_put_back_is_noticed() {
    let amounts = Amounts { backs: 2_000, ..NO_CASES };
    noticed(&BACK, "put back", amounts);
    noticed(&DAMAGED_BACK, "put back", amounts);
}

#[test]
fn histories_notice_what_breaks_their_promise() {
    let amounts = Amounts { histories: 300, ..NO_CASES };
    noticed(&BACK, "history", amounts);
    // The promise is the document's: it is noticed too where all desks have the same fault.
    for fault in BACK {
        let difference = compare(&[&Sloppy(fault), &Sloppy(fault)], &amounts).expect_err("a promise is broken");
        assert_eq!((difference.question, difference.answers[0].0), ("history", "the promise"));
    }
}

#[test]
fn a_put_back_without_a_fault_is_not_noticed() {
    let amounts = Amounts { backs: 2_000, histories: 300, ..NO_CASES };
    assert!(compare(&[&Second, &Sloppy(NoLastLineEnd)], &amounts).is_ok());
}

#[test]
fn every_fault_of_a_sheet_is_noticed() {
    noticed(&[EndsAreOutside, CeilingIsAFloor, RoundedTwice, HoursAreNotJudged], "sheet", NO_CASES);
    noticed(&[BandUpsideDownPasses, YesOnRefusal, HoursOnRefusal], "sheet", NO_CASES);
    noticed(&[MinusZeroIsBelow, NarrowCounts], "sheet", NO_CASES);
}

#[test]
fn every_fault_of_a_made_code_is_noticed() {
    noticed(&[FiveBeforeThree, LargerNumberFirst, ColumnLeftOut, LeftoverIsMade], "make", NO_CASES);
    noticed(&[RoomForOneLess, RoomForOneMore, ChecksBeforeData, RefusedCodeHasItsSize], "make", NO_CASES);
}

#[test]
fn every_fault_of_a_word_of_ten_bytes_is_noticed() {
    let amounts = Amounts { byte_errors: 1, ..NO_CASES };
    noticed(&[TransposedT, PartsAreExchanged, StrayDataIsCut], "byte write", NO_CASES);
    noticed(&[SeventhByteIsLost, CheckBytesStayUnmended, NineIsData, FlaggedIsMended], "byte errors", amounts);
    noticed(&[BitThirtyPasses, ByteOnRefusal], "byte read", NO_CASES);
}

/// The faults of bad places and of the finder.
const BAD: [Fault; 12] = [
    FlipBesideTwo,
    NoFlipBesideOne,
    BadPlacesStay,
    ProperIsRefused,
    RepeatPasses,
    PlaceAtNPasses,
    FourthIsIgnored,
    BadBeforeStray,
    NoneIsBadPlaces,
    WordOnRefusal,
    NarrowPlaces,
    ThirdIsIgnored,
];
const FOUND: [Fault; 4] = [DifferingIsFound, FoundAboveN, SecondStrayPasses, ChecksAreNotFound];

#[test]
fn every_fault_of_a_bad_place_is_noticed() {
    noticed(&BAD, "bad places", Amounts { bad: 4_000, ..NO_CASES });
    noticed(&FOUND, "find bad", Amounts { finds: 500, ..NO_CASES });
    let small = [FlipBesideTwo, NoFlipBesideOne, BadPlacesStay, ProperIsRefused, NoneIsBadPlaces, WordOnRefusal];
    noticed(&small, "small bad", Amounts { small_bad: 1, ..NO_CASES });
}

#[test]
fn the_worked_cases_notice_every_easy_way_to_go_wrong_and_every_byte() {
    let ways = [EvenIsMended, OddIsMended, ChecksAreNotCompared, CheckBitsStayUnmended, PairsComeTwice];
    let bytes = [RefusedListIsWritten, ListTailIsCleared, RefusedPassIsNoted, NothingIsMended];
    let amended = [CardsRunStraightOn, DataCardIsJoined, CheckCardsAreLeftOut, CheckCardsFromZero];
    let made = [FiveBeforeThree, LargerNumberFirst, ColumnLeftOut, LeftoverIsMade, RoomForOneLess, RoomForOneMore];
    let leftovers = [LeftoversAreJudged, LeftoversAreIgnored, OnlyTheNextPlaceIsSeen, LastPlaceIsNotSeen];
    let ways = ways.into_iter().chain(bytes).chain(amended).chain(made).chain(leftovers);
    for fault in ways.chain(STAMPS).chain(TOLD).chain(ENTERED).chain(BACK).chain(DAMAGED_BACK).chain(BAD).chain(FOUND) {
        assert!(!worked(&Sloppy(fault)).is_empty(), "{:?}", fault);
    }
}
