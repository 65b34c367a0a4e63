//! Engines that are wrong on purpose part from the second implementation in random traces, on random sheets, or on tables and sheets that
//! are awkward for an index, and these shrink.

use against::cases::Tally;
use against::entries::{ALREADY_MARKED, Answer, CANNOT_BE_MARKED_NOW, Entries, FACT, MARKED, NO, NO_GROUP, NO_RECORD, Second, YES};
use against::trace::{Plan, Trace, parting, random_trace, shortest};
use second::marking::MarkRecord;
use second::random::{self, Chance, WordRole, head_places, line_places, word_roles};
use second::refusal::Refusal;
use second::table::Literal;
use second::truth::I;

/// Wrong answers of marking by picks and of the count, of reading the words of a table, to the question of conflict, and to which group is
/// wholly in a set.
#[derive(Clone, Copy, Debug, PartialEq, Eq)]
enum Wrong {
    PickNeverMarks,
    FirstPickMarksEverything,
    MadeUpCount,
    NeighbourMarkedToo,
    ReportBeforeSettled,
    RefusedPickAltersAWord,
    ByteWrittenPastN,
    AtomBeforeWords,
    MarksPastNForgotten,
    RefusedFreshKeepsN,
    MarkedAndNotCounted,
    CountedAndNotMarked,
    CountedTwice,
    AlreadyMarkedIsCounted,
    CannotBeMarkedIsCounted,
    RefusedPickIsCounted,
    FreshWithCount1,
    RefusedFreshWithCount1,
    CountOneAboveTaken,
    CountOneBelowTaken,
    CountSeenIn32Bits,
    CountNTakenForSettled,
    WrongCountRepaired,
    WrongCountPutRightByARefusal,
    BitsOfAWrongCountCounted,
    CountedMarkPastNTaken,
    MarkPastNNotCountedTaken,
    WrongCountBefore1,
    WrongCountAfter3,
    WrongCountAfterTheWords,
    WrongCountAfter16,
    WrongCountAfter18,
    WrongCountAfter2,
    LineAbove32768Taken,
    Line32768Refused,
    LineCheckedAfterM,
    LineReadAsM,
    RecordByHandLeftOut,
    NeverInConflict,
    AlwaysInConflict,
    ConflictOfAtom0Alone,
    ConflictOfTheLastAtomOverlooked,
    ConflictByALiteralHeldAndNotClean,
    ConflictWhereBothSignsHaveARule,
    ConflictBeforeAFaultyWord,
    ConflictWithWordsBefore1,
    ConflictWithWordsBefore2,
    ConflictWith2Before1,
    HighestGroup,
    GroupsFrom0,
    NoGroupForAFact,
    FactWhereTheFirstGroupIsIn,
    LastLiteralOfAGroupNotSeen,
    LastGroupNotSeen,
    LastWordOfTheSetNotSeen,
    LiteralPastTheSetTaken,
    NoGroupForNoRecord,
    GroupBeforeAFaultyWord,
}

/// Each beside the most steps of its shortest trace.
const WRONG: [(Wrong, usize); 55] = [
    (Wrong::PickNeverMarks, 2),
    (Wrong::FirstPickMarksEverything, 2),
    (Wrong::MadeUpCount, 2),
    (Wrong::NeighbourMarkedToo, 2),
    (Wrong::ReportBeforeSettled, 2),
    (Wrong::RefusedPickAltersAWord, 1),
    (Wrong::ByteWrittenPastN, 1),
    (Wrong::AtomBeforeWords, 1),
    (Wrong::MarksPastNForgotten, 2),
    (Wrong::RefusedFreshKeepsN, 1),
    (Wrong::MarkedAndNotCounted, 2),
    (Wrong::CountedAndNotMarked, 2),
    (Wrong::CountedTwice, 2),
    (Wrong::AlreadyMarkedIsCounted, 2),
    (Wrong::CannotBeMarkedIsCounted, 2),
    (Wrong::RefusedPickIsCounted, 1),
    (Wrong::FreshWithCount1, 1),
    (Wrong::RefusedFreshWithCount1, 1),
    (Wrong::CountOneAboveTaken, 2),
    (Wrong::CountOneBelowTaken, 2),
    (Wrong::CountSeenIn32Bits, 2),
    (Wrong::CountNTakenForSettled, 2),
    (Wrong::WrongCountRepaired, 2),
    (Wrong::WrongCountPutRightByARefusal, 2),
    (Wrong::BitsOfAWrongCountCounted, 2),
    (Wrong::CountedMarkPastNTaken, 2),
    (Wrong::MarkPastNNotCountedTaken, 2),
    (Wrong::WrongCountBefore1, 2),
    (Wrong::WrongCountAfter3, 2),
    (Wrong::WrongCountAfterTheWords, 2),
    (Wrong::WrongCountAfter16, 2),
    (Wrong::WrongCountAfter18, 2),
    (Wrong::LineAbove32768Taken, 2),
    (Wrong::Line32768Refused, 2),
    (Wrong::LineCheckedAfterM, 2),
    (Wrong::LineReadAsM, 2),
    (Wrong::RecordByHandLeftOut, 2),
    (Wrong::NeverInConflict, 1),
    (Wrong::AlwaysInConflict, 1),
    (Wrong::ConflictOfAtom0Alone, 1),
    (Wrong::ConflictOfTheLastAtomOverlooked, 1),
    (Wrong::ConflictByALiteralHeldAndNotClean, 1),
    (Wrong::ConflictWhereBothSignsHaveARule, 1),
    (Wrong::ConflictBeforeAFaultyWord, 1),
    (Wrong::ConflictWithWordsBefore1, 1),
    (Wrong::HighestGroup, 1),
    (Wrong::GroupsFrom0, 1),
    (Wrong::NoGroupForAFact, 1),
    (Wrong::FactWhereTheFirstGroupIsIn, 1),
    (Wrong::LastLiteralOfAGroupNotSeen, 1),
    (Wrong::LastGroupNotSeen, 1),
    (Wrong::LastWordOfTheSetNotSeen, 1),
    (Wrong::LiteralPastTheSetTaken, 1),
    (Wrong::NoGroupForNoRecord, 1),
    (Wrong::GroupBeforeAFaultyWord, 1),
];

/// Noticed by tables above 8,192 words alone, which cannot shrink below that; each beside the most steps of its shortest trace.
const WRONG_OF_LONG_TABLES: [(Wrong, usize); 3] =
    [(Wrong::ConflictWithWordsBefore2, 1), (Wrong::ConflictWith2Before1, 1), (Wrong::WrongCountAfter2, 2)];

/// Marks an atom below N and counts it.
fn mark(record: &mut MarkRecord, atom: u64) {
    if atom < record.n.min(512) && !record.has(atom as usize) {
        record.marks[atom as usize / 64] |= 1 << (atom % 64);
        record.count += 1;
    }
}

/// The record with its number of marks as the count.
fn counted(record: &MarkRecord) -> MarkRecord {
    MarkRecord::counted(record.n, record.marks)
}

/// The record without the marks past N, and with the number of the others as the count.
fn cut_at_n(record: &MarkRecord) -> MarkRecord {
    let mut cut = MarkRecord { n: record.n, ..MarkRecord::EMPTY };
    (0..record.n.min(512)).filter(|&atom| record.has(atom as usize)).for_each(|atom| mark(&mut cut, atom));
    cut
}

/// The words with each record's line set by a rule of the line.
fn with_lines(words: &[u16], line: impl Fn(u16) -> u16) -> Vec<u16> {
    let mut words = words.to_vec();
    for at in line_places(&words) {
        words[at] = line(words[at]);
    }
    words
}

/// The words of a table that has no lines, with a line 0 after each head.
fn lines_put_in(words: &[u16]) -> Vec<u16> {
    let mut row = Vec::new();
    let mut at = 0;
    let number = |at: usize| words.get(at).copied().unwrap_or(0) as usize;
    while at < words.len() {
        let mut end = at + 2;
        for _ in 0..number(at + 1).min(64) {
            end += 1 + number(end);
        }
        row.extend([words[at], 0]);
        row.extend(&words[(at + 1).min(words.len())..end.min(words.len())]);
        at = end;
    }
    row
}

/// The records that have a line; all of a table that is not sound.
fn without_records_by_hand(n: u64, words: &[u16]) -> Vec<u16> {
    match second::table::parse(n, words) {
        Ok(records) => {
            let kept: Vec<_> = records.into_iter().filter(|record| record.line > 0).collect();
            second::table::encode(&kept)
        }
        Err(_) => words.to_vec(),
    }
}

/// The values of an accepted table.
fn values(n: u64, words: &[u16]) -> Vec<u8> {
    let mut values = vec![9; n as usize];
    Second.evaluate(n, words, &mut values).expect("an accepted table");
    values
}

/// Whether an atom can be marked after a mark by hand at atom 0, and so also one with only one literal held, which is not clean.
fn markable_after_a_mark(n: u64, words: &[u16]) -> bool {
    let mut record = MarkRecord { n, ..MarkRecord::EMPTY };
    mark(&mut record, 0);
    Second.settled(&record, words) == Ok(NO)
}

fn both_signs_have_a_rule(n: u64, words: &[u16]) -> bool {
    let rules = second::table::rules_of(n, words).expect("an accepted table");
    rules.iter().any(|rule| rules.iter().any(|other| other.head == second::table::negation(rule.head)))
}

/// The words with the groups of the first record altered; as they are if they are not sound.
fn with_first_groups(n: u64, words: &[u16], alter: impl FnOnce(&mut Vec<Vec<Literal>>)) -> Vec<u16> {
    let Ok(mut records) = second::table::parse(n, words) else { return words.to_vec() };
    if let Some(first) = records.first_mut() {
        alter(&mut first.rule.groups);
    }
    second::table::encode(&records)
}

/// The first faulty word, if there is one.
fn fault(n: u64, words: &[u16]) -> Option<Refusal> {
    second::table::parse(n, words).err()
}

/// The records in front of the one with a faulty word.
fn sound_records(words: &[u16], place: u64) -> &[u16] {
    let mut heads = head_places(words).into_iter();
    &words[..heads.rfind(|&head| head as u64 <= place).unwrap_or(0)]
}

impl Wrong {
    /// The words as the engine takes them.
    fn read(&self, n: u64, words: &[u16]) -> Vec<u16> {
        match self {
            Wrong::LineAbove32768Taken => with_lines(words, |line| line.min(32_768)),
            Wrong::Line32768Refused => with_lines(words, |line| if line == 32_768 { 32_769 } else { line }),
            Wrong::LineReadAsM => lines_put_in(words),
            Wrong::RecordByHandLeftOut if n <= 512 => without_records_by_hand(n, words),
            _ => words.to_vec(),
        }
    }

    /// The words as the engine takes them where it says which group of the first record is wholly in a set.
    fn groups_seen(&self, n: u64, words: &[u16]) -> Vec<u16> {
        with_first_groups(n.min(512), words, |groups| match self {
            Wrong::HighestGroup => groups.reverse(),
            // What is not seen does not matter: what stands before it, once more.
            Wrong::LastLiteralOfAGroupNotSeen => groups.iter_mut().for_each(|group| *group.last_mut().expect("a literal") = group[0]),
            Wrong::LastGroupNotSeen => {
                if let [.., before, last] = &mut groups[..] {
                    last.clone_from(before);
                }
            }
            _ => {}
        })
    }

    /// The record as the engine takes it.
    fn record_seen(&self, record: &MarkRecord) -> MarkRecord {
        let (right, cut) = (counted(record), cut_at_n(record));
        let takes = match self {
            Wrong::CountOneAboveTaken => record.count == right.count + 1,
            Wrong::CountOneBelowTaken => right.count.checked_sub(1) == Some(record.count),
            Wrong::CountSeenIn32Bits => u64::from(record.count as u32) == right.count,
            Wrong::WrongCountRepaired => true,
            _ => false,
        };
        match self {
            _ if takes => right,
            Wrong::CountedMarkPastNTaken if record.count == right.count => cut,
            Wrong::MarkPastNNotCountedTaken if record.count == cut.count => cut,
            _ => *record,
        }
    }

    /// The answer of an entry that has refused a wrong count, by what it says once the count is right.
    fn in_order(&self, record: &MarkRecord, answer: Answer, entry: impl FnOnce(&MarkRecord) -> Answer) -> Answer {
        let right = counted(record);
        if *record == right {
            return answer;
        }
        match (self, answer, entry(&right)) {
            (Wrong::WrongCountBefore1, Err(Refusal { number: 1, .. }), _) => Err(Refusal { number: 17, place: 0 }),
            (Wrong::WrongCountAfter2, Err(Refusal { number: 17, .. }), first @ Err(Refusal { number: 2, .. }))
            | (Wrong::WrongCountAfter3, Err(Refusal { number: 17, .. }), first @ Err(Refusal { number: 3, .. }))
            | (Wrong::WrongCountAfterTheWords, Err(Refusal { number: 17, .. }), first @ Err(Refusal { number: 4..=7, .. }))
            | (Wrong::WrongCountAfter16, Err(Refusal { number: 17, .. }), first @ Err(Refusal { number: 16, .. }))
            | (Wrong::WrongCountAfter18, Err(Refusal { number: 17, .. }), first @ Err(Refusal { number: 18, .. })) => first,
            _ => answer,
        }
    }

    /// The set as the engine takes it.
    fn set_seen(&self, set: &[u64]) -> Vec<u64> {
        match self {
            Wrong::LastWordOfTheSetNotSeen => set[..set.len().saturating_sub(1)].to_vec(),
            Wrong::LiteralPastTheSetTaken => [set, &[!0; 16]].concat(),
            _ => set.to_vec(),
        }
    }

    /// What the second implementation answers to the words as the engine takes them, as the engine says it.
    fn ask(&self, n: u64, words: &[u16], second: impl FnOnce(&[u16]) -> Answer) -> Answer {
        let read = self.read(n, words);
        let answer = second(&read);
        let Err(Refusal { number: number @ 4..=7, place }) = answer else { return answer };
        match self {
            // 6 at m, or 4 for want of it.
            Wrong::LineCheckedAfterM if number == 6 && word_roles(words)[place as usize] == WordRole::Line => {
                match words.get(place as usize + 1) {
                    None => Err(Refusal { number: 4, place: place + 1 }),
                    Some(m) if *m > 64 => Err(Refusal { number: 6, place: place + 1 }),
                    Some(_) => answer,
                }
            }
            Wrong::LineReadAsM => {
                let put_in = line_places(&read).into_iter().filter(|&at| (at as u64) < place).count();
                Err(Refusal { number, place: place - put_in as u64 })
            }
            _ => answer,
        }
    }
}

impl Entries for Wrong {
    fn and(&self, v: u64, w: u64) -> Answer {
        Second.and(v, w)
    }

    fn or(&self, v: u64, w: u64) -> Answer {
        Second.or(v, w)
    }

    fn not(&self, v: u64) -> Answer {
        Second.not(v)
    }

    fn implication(&self, body: u64, head: u64) -> Answer {
        Second.implication(body, head)
    }

    fn check(&self, n: u64, words: &[u16]) -> Answer {
        self.ask(n, words, |words| Second.check(n, words))
    }

    fn fresh(&self, n: u64) -> (MarkRecord, Answer) {
        let (record, answer) = Second.fresh(n);
        match self {
            Wrong::RefusedFreshKeepsN => (MarkRecord { n, ..record }, answer),
            Wrong::FreshWithCount1 if answer.is_ok() => (MarkRecord { count: 1, ..record }, answer),
            Wrong::RefusedFreshWithCount1 if answer.is_err() => (MarkRecord { count: 1, ..record }, answer),
            _ => (record, answer),
        }
    }

    fn pick(&self, record: &mut MarkRecord, words: &[u16], atom: u64) -> Answer {
        let before = *record;
        let mut seen = self.record_seen(&before);
        let answer = self.ask(before.n, words, |words| Second.pick(&mut seen, words, atom));
        let answer = self.in_order(&before, answer, |right| Second.pick(&mut right.clone(), words, atom));
        // What is refused stays, and so do the marks that the engine did not see.
        if answer.is_ok() {
            (0..8).for_each(|word| seen.marks[word] |= before.marks[word]);
            *record = seen;
        }
        match self {
            Wrong::PickNeverMarks if answer == Ok(MARKED) => *record = before,
            Wrong::MarkedAndNotCounted if answer == Ok(MARKED) => record.count = before.count,
            Wrong::CountedAndNotMarked if answer == Ok(MARKED) => record.marks = before.marks,
            Wrong::CountedTwice if answer == Ok(MARKED) => record.count += 1,
            Wrong::AlreadyMarkedIsCounted if answer == Ok(ALREADY_MARKED) => record.count += 1,
            Wrong::CannotBeMarkedIsCounted if answer == Ok(CANNOT_BE_MARKED_NOW) => record.count += 1,
            Wrong::RefusedPickIsCounted if answer.is_err() => record.count = before.count.wrapping_add(1),
            Wrong::WrongCountPutRightByARefusal if answer.is_err() => *record = counted(record),
            Wrong::FirstPickMarksEverything if answer == Ok(MARKED) => {
                (0..record.n).for_each(|atom| mark(record, atom));
            }
            Wrong::NeighbourMarkedToo if answer == Ok(MARKED) => mark(record, atom + 1),
            Wrong::RefusedPickAltersAWord if answer.is_err() => record.marks[7] ^= 1,
            Wrong::AtomBeforeWords if atom >= record.n && answer.is_err_and(|refusal| (4..8).contains(&refusal.number)) => {
                return Err(Refusal { number: 16, place: 0 });
            }
            Wrong::MarksPastNForgotten if answer == Err(Refusal { number: 17, place: 0 }) && cut_at_n(record).marks != record.marks => {
                return Ok(ALREADY_MARKED);
            }
            _ => {}
        }
        answer
    }

    fn settled(&self, record: &MarkRecord, words: &[u16]) -> Answer {
        let seen = self.record_seen(record);
        let answer = self.ask(record.n, words, |words| Second.settled(&seen, words));
        match self {
            Wrong::CountNTakenForSettled if answer == Err(Refusal { number: 17, place: 0 }) && record.count == record.n => Ok(YES),
            _ => self.in_order(record, answer, |right| Second.settled(right, words)),
        }
    }

    fn report(&self, record: &MarkRecord, words: &[u16], values: &mut [u8]) -> Answer {
        let seen = self.record_seen(record);
        let answer = self.ask(record.n, words, |words| Second.report(&seen, words, values));
        let answer = self.in_order(record, answer, |right| Second.report(right, words, &mut values.to_vec()));
        match self {
            Wrong::ReportBeforeSettled if answer == Err(Refusal { number: 18, place: 0 }) => Ok(0),
            Wrong::ByteWrittenPastN if answer.is_ok() => {
                if let Some(past) = values.get_mut(record.n as usize) {
                    *past = !*past;
                }
                answer
            }
            _ => answer,
        }
    }

    fn mark_count(&self, record: &MarkRecord) -> Answer {
        let answer = Second.mark_count(&self.record_seen(record));
        match self {
            Wrong::MadeUpCount => answer.map(|marks| marks.min(1)),
            Wrong::BitsOfAWrongCountCounted => Second.mark_count(&counted(record)),
            _ => self.in_order(record, answer, |right| Second.mark_count(right)),
        }
    }

    fn evaluate(&self, n: u64, words: &[u16], values: &mut [u8]) -> Answer {
        self.ask(n, words, |words| Second.evaluate(n, words, values))
    }

    fn conflict(&self, n: u64, words: &[u16]) -> Answer {
        let answer = self.ask(n, words, |words| Second.conflict(n, words));
        let yes = match (self, answer) {
            (Wrong::ConflictWithWordsBefore1, Err(Refusal { number: 1, .. })) => return fault(512, words).map_or(answer, Err),
            (Wrong::ConflictWithWordsBefore2, Err(Refusal { number: 2, .. })) => return fault(n, words).map_or(answer, Err),
            (Wrong::ConflictWith2Before1, Err(_)) if words.len() > 8192 => return Err(Refusal { number: 2, place: 0 }),
            (Wrong::ConflictBeforeAFaultyWord, Err(Refusal { number: 4..=7, place })) => {
                return if Second.conflict(n, sound_records(words, place)) == Ok(YES) { Ok(YES) } else { answer };
            }
            (_, Err(_)) => return answer,
            (Wrong::NeverInConflict, _) => false,
            (Wrong::AlwaysInConflict, _) => true,
            (Wrong::ConflictOfAtom0Alone, _) => values(n, words).first() == Some(&I),
            (Wrong::ConflictOfTheLastAtomOverlooked, _) => values(n, words).iter().rev().skip(1).any(|&value| value == I),
            (Wrong::ConflictByALiteralHeldAndNotClean, Ok(NO)) => markable_after_a_mark(n, words),
            (Wrong::ConflictWhereBothSignsHaveARule, Ok(NO)) => both_signs_have_a_rule(n, words),
            (_, Ok(said)) => return Ok(said),
        };
        Ok(u64::from(yes))
    }

    fn which_group(&self, n: u64, words: &[u16], set: &[u64]) -> Answer {
        let seen = self.groups_seen(n, words);
        let answer = self.ask(n, &seen, |words| Second.which_group(n, words, &self.set_seen(set)));
        match (self, answer) {
            (Wrong::GroupBeforeAFaultyWord, Err(Refusal { number: 4..=7, place })) => match sound_records(words, place) {
                [] => answer,
                sound => Second.which_group(n, sound, set),
            },
            (Wrong::HighestGroup, Ok(number @ 1..NO_GROUP)) => Ok(u64::from(words[2]) + 1 - number),
            (Wrong::GroupsFrom0, Ok(number @ 1..NO_GROUP)) => Ok(number - 1),
            (Wrong::FactWhereTheFirstGroupIsIn, Ok(1)) => Ok(FACT),
            (Wrong::NoGroupForAFact, Ok(FACT)) | (Wrong::NoGroupForNoRecord, Ok(NO_RECORD)) => Ok(NO_GROUP),
            _ => answer,
        }
    }
}

const PLAN: Plan = Plan { table: |chance| random::small_table(chance, 6), tables: 3, damaged: 15, forged: 15, steps: 40 };

fn trace(seed: u64) -> Trace {
    random_trace(&mut Chance::new(seed), PLAN)
}

#[test]
fn each_is_noticed_and_its_trace_shrinks() {
    for (wrong, most) in WRONG {
        let mut tally = Tally::default();
        let found = (0..500).find_map(|seed| parting(&trace(seed), &wrong, &mut tally).map(|parting| (seed, parting)));
        let (seed, first) = found.unwrap_or_else(|| panic!("{wrong:?} was not noticed"));
        let (short, last) = shortest(&trace(seed), first, &wrong);
        println!("{wrong:?}, found by trace {seed}:\n{short}at step {}, {}\n", last.step, last.what);
        assert!(short.steps.len() <= most, "{wrong:?}: {short}");
        let words: usize = short.tables.iter().map(Vec::len).sum();
        assert!(words <= 12, "{wrong:?}: {short}");
    }
}

#[test]
fn each_is_noticed_by_a_long_table() {
    for (wrong, most) in WRONG_OF_LONG_TABLES {
        let trace = |seed| random_trace(&mut Chance::new(seed), Plan { damaged: 90, ..PLAN });
        let found = (0..2_000).find_map(|seed| parting(&trace(seed), &wrong, &mut Tally::default()).map(|parting| (seed, parting)));
        let (seed, first) = found.unwrap_or_else(|| panic!("{wrong:?} was not noticed"));
        let (short, last) = shortest(&trace(seed), first, &wrong);
        let steps: Vec<_> = short.steps.iter().map(|step| format!("{step:?}")).collect();
        println!("{wrong:?}, found by trace {seed}: {}; {}", steps.join(", "), last.what);
        assert!(short.steps.len() <= most, "{wrong:?}: {}", steps.join(", "));
        let words: usize = short.tables.iter().map(Vec::len).sum();
        assert_eq!(words, 8193, "{wrong:?}: {}", steps.join(", "));
    }
}

#[test]
fn the_second_implementation_does_not_part_from_itself() {
    for seed in 0..2_000 {
        assert_eq!(parting(&trace(seed), &Second, &mut Tally::default()), None);
    }
}

mod sheets {
    use against::shrink::without_parts;
    use second::random::{self, Chance, heads_and_others, line_places, lines_length, word_count};
    use second::refusal::{MOST_WORDS, Refusal, TEXT_ROOM_TOO_SMALL, WORDS_PASS_8192, refuse};
    use second::sheet::{Accepted, read_sheet};

    /// What is wrong about a value sheet, or about the words.
    #[derive(Clone, Copy, Debug, PartialEq, Eq)]
    enum Wrong {
        NoLineForANameOnlyInBodies,
        NoLineWhereTheValueIsU,
        RoomForTheHeadsIsEnough,
        LengthOfTheHeadsLines,
        LinesOfTheHeadsFirst,
        LinesFrom0,
        LineOfTheRecordBefore,
        TwoWordsForAHead,
    }

    /// Each beside the most bytes of its shortest sheet; where 14 is wrong, a sheet fills 8,192 words at least.
    const WRONG: [(Wrong, usize); 8] = [
        (Wrong::NoLineForANameOnlyInBodies, 5),
        (Wrong::NoLineWhereTheValueIsU, 5),
        (Wrong::RoomForTheHeadsIsEnough, 5),
        (Wrong::LengthOfTheHeadsLines, 5),
        (Wrong::LinesOfTheHeadsFirst, 7),
        (Wrong::LinesFrom0, 2),
        (Wrong::LineOfTheRecordBefore, 5),
        (Wrong::TwoWordsForAHead, 30_000),
    ];

    type Left = (Result<Accepted, Refusal>, Vec<u16>, Vec<u32>, Vec<u8>);

    fn right(sheet: &[u8], room: usize) -> Left {
        let (mut words, mut names, mut text) = (vec![7; 8192], vec![7; 512], vec![7; room]);
        let answer = read_sheet(sheet, &mut words, &mut names, &mut text);
        (answer, words, names, text)
    }

    /// The words with other lines in them.
    fn wrong_lines(wrong: Wrong, accepted: Accepted, mut words: Vec<u16>) -> Vec<u16> {
        for (i, at) in line_places(&words[..accepted.words_filled as usize]).into_iter().enumerate() {
            match wrong {
                Wrong::LinesFrom0 => words[at] -= 1,
                Wrong::LineOfTheRecordBefore if i > 0 => words[at] -= 1,
                _ => {}
            }
        }
        words
    }

    /// Where 14 is given, but two words for a head would not have passed 8,192: as if there were room.
    fn by_two_for_a_head(sheet: &[u8], answer: &Result<Accepted, Refusal>) -> Option<Accepted> {
        let words_filled = word_count(sheet, 2);
        let given = matches!(answer, Err(Refusal { number: WORDS_PASS_8192, .. }));
        (given && words_filled <= MOST_WORDS).then_some(Accepted { n: 0, words_filled: words_filled as u64, value_sheet_length: 0 })
    }

    /// Right but for the lines in the words, the words counted, the value lines, their length, or the room that they are said to need.
    fn wrong(wrong: Wrong, sheet: &[u8], room: usize) -> Left {
        let (answer, words, names, text) = right(sheet, 20_000);
        if let (Wrong::TwoWordsForAHead, Some(accepted)) = (wrong, by_two_for_a_head(sheet, &answer)) {
            return (Ok(accepted), words, names, vec![7; room]);
        }
        let Ok(accepted) = answer else { return right(sheet, room) };
        let words = wrong_lines(wrong, accepted, words);
        let (heads, _) = heads_and_others(sheet);
        let headed = |line: &&[u8]| heads.iter().any(|name| *name.of(sheet) == line[..line.len() - 3]);
        let all: Vec<&[u8]> = text[..accepted.value_sheet_length as usize].split_inclusive(|&byte| byte == b'\n').collect();
        let (of_heads, of_others): (Vec<&[u8]>, Vec<&[u8]>) = all.iter().partition(|line| headed(line));
        let lines = match wrong {
            Wrong::NoLineForANameOnlyInBodies => of_heads.concat(),
            Wrong::NoLineWhereTheValueIsU => all.into_iter().filter(|line| !line.ends_with(b"\tu\n")).collect::<Vec<_>>().concat(),
            Wrong::LinesOfTheHeadsFirst => [of_heads, of_others].concat().concat(),
            _ => all.concat(),
        };
        let needed = if wrong == Wrong::RoomForTheHeadsIsEnough { lines_length(&heads) } else { lines.len() };
        if needed > room {
            return (refuse(TEXT_ROOM_TOO_SMALL, needed), vec![0; 8192], vec![0; 512], vec![7; room]);
        }
        let mut text = vec![7; room];
        let written = lines.len().min(room);
        text[..written].copy_from_slice(&lines[..written]);
        let length = if wrong == Wrong::LengthOfTheHeadsLines { lines_length(&heads) } else { lines.len() };
        (Ok(Accepted { value_sheet_length: length as u64, ..accepted }), words, names, text)
    }

    #[test]
    fn each_is_noticed_and_its_sheet_shrinks() {
        for (engine, most) in WRONG {
            let parts = |sheet: &[u8], room: usize| wrong(engine, sheet, room) != right(sheet, room);
            let mut chance = Chance::new(1);
            let found = (0..400).find_map(|_| {
                let sheet = random::any_sheet(&mut chance);
                let room = random::text_room(&mut chance, &sheet).len();
                parts(&sheet, room).then_some((sheet, room))
            });
            let (sheet, room) = found.unwrap_or_else(|| panic!("{engine:?} was not noticed"));
            let lines: Vec<&[u8]> = sheet.split_inclusive(|&byte| byte == b'\n').collect();
            let mut short = without_parts(&lines, |lines| parts(&lines.concat(), room)).concat();
            if short.len() < 5_000 {
                short = without_parts(&short, |sheet| parts(sheet, room));
            }
            println!("{engine:?}, room {room}: \"{}\"", short.escape_ascii());
            assert!(short.len() <= most, "{engine:?}, room {room}: \"{}\"", short.escape_ascii());
        }
    }
}

mod index {
    use std::collections::BTreeSet;

    use against::index_tables::KINDS;
    use against::shrink::smaller_table;
    use second::model;
    use second::table::{Literal, Rule, atom_of, encode, numbered, rules_of};
    use second::truth::{F, I, T, U};

    /// What is wrong about Held and Clean by pending literals, taken from the lowest, with an index.
    #[derive(Clone, Copy, Debug, PartialEq, Eq)]
    enum Wrong {
        LastGroupOfALiteralNotSeen,
        FirstGroupOfALiteralNotSeen,
        HeadOneLiteralTooEarly,
        RepeatedLiteralCountedOnce,
        EqualGroupsTakenForOne,
        LastGroupOfARuleMissing,
        LastGroupOfTheTableMissing,
        LastFactForgotten,
        LowestLiteralLost,
        HighestLiteralLost,
        HeadBelowThePendingLiteralLost,
        MarkedLiteralsNotPending,
        FactOfAMarkedHeadClean,
        MarkedHeadCleanByAGroup,
        CountsOfCleanKept,
        CleanKept,
        The4000thGroupMissing,
        The8057thPlaceMissing,
    }

    /// Each beside the most words of its smallest table.
    const WRONG: [(Wrong, usize); 16] = [
        (Wrong::LastGroupOfALiteralNotSeen, 8),
        (Wrong::FirstGroupOfALiteralNotSeen, 8),
        (Wrong::HeadOneLiteralTooEarly, 9),
        (Wrong::RepeatedLiteralCountedOnce, 9),
        (Wrong::EqualGroupsTakenForOne, 18),
        (Wrong::LastGroupOfARuleMissing, 8),
        (Wrong::LastGroupOfTheTableMissing, 8),
        (Wrong::LastFactForgotten, 3),
        (Wrong::LowestLiteralLost, 8),
        (Wrong::HighestLiteralLost, 8),
        (Wrong::HeadBelowThePendingLiteralLost, 13),
        (Wrong::MarkedLiteralsNotPending, 16),
        (Wrong::FactOfAMarkedHeadClean, 11),
        (Wrong::MarkedHeadCleanByAGroup, 19),
        (Wrong::CountsOfCleanKept, 18),
        (Wrong::CleanKept, 11),
    ];

    /// Noticed by tables alone that have as many groups or places as there can be beside a fact.
    const WRONG_OF_FULL_TABLES: [Wrong; 2] = [Wrong::The4000thGroupMissing, Wrong::The8057thPlaceMissing];

    /// Groups, each a head and how many literals it wants, and for each literal the groups that it stands in, as often as it does.
    struct Index {
        facts: Vec<Literal>,
        groups: Vec<(Literal, usize)>,
        of_literal: Vec<Vec<usize>>,
    }

    impl Index {
        fn new(wrong: Option<Wrong>, n: usize, rules: &[Rule]) -> Index {
            let mut index = Index { facts: Vec::new(), groups: Vec::new(), of_literal: vec![Vec::new(); 2 * n] };
            let mut seen = BTreeSet::new();
            let mut places = 0;
            index.facts.extend(rules.iter().filter(|rule| rule.groups.is_empty()).map(|rule| rule.head));
            for rule in rules {
                for (i, group) in rule.groups.iter().enumerate() {
                    let number = index.groups.len();
                    index.groups.push((rule.head, group.len()));
                    let missing = match wrong {
                        Some(Wrong::EqualGroupsTakenForOne) => !seen.insert(group),
                        Some(Wrong::LastGroupOfARuleMissing) => i + 1 == rule.groups.len(),
                        Some(Wrong::The4000thGroupMissing) => number == 3999,
                        _ => false,
                    };
                    for &literal in group.iter().filter(|_| !missing) {
                        let of_literal = &mut index.of_literal[literal];
                        places += 1;
                        match wrong {
                            Some(Wrong::RepeatedLiteralCountedOnce) if of_literal.last() == Some(&number) => {}
                            Some(Wrong::The8057thPlaceMissing) if places == 8057 => {}
                            _ => of_literal.push(number),
                        }
                    }
                }
            }
            index.lose(wrong);
            index
        }

        fn lose(&mut self, wrong: Option<Wrong>) {
            let last = self.groups.len().saturating_sub(1);
            match wrong {
                Some(Wrong::LastFactForgotten) => self.facts.truncate(self.facts.len().saturating_sub(1)),
                Some(Wrong::LowestLiteralLost) => self.of_literal.iter_mut().take(1).for_each(Vec::clear),
                Some(Wrong::HighestLiteralLost) => self.of_literal.iter_mut().rev().take(1).for_each(Vec::clear),
                Some(Wrong::LastGroupOfTheTableMissing) => self.each_without(|_, group| group == last),
                Some(Wrong::FirstGroupOfALiteralNotSeen) => self.each_without(|groups, group| groups.first() == Some(&group)),
                Some(Wrong::LastGroupOfALiteralNotSeen) => self.each_without(|groups, group| groups.last() == Some(&group)),
                _ => {}
            }
        }

        /// For each literal, of its groups those that are not lost.
        fn each_without(&mut self, lost: impl Fn(&[usize], usize) -> bool) {
            for groups in &mut self.of_literal {
                *groups = groups.iter().copied().filter(|&group| !lost(groups, group)).collect();
            }
        }

        fn wanted(&self) -> Vec<usize> {
            self.groups.iter().map(|&(_, wanted)| wanted).collect()
        }

        /// Adds all that follows from the pending literals by heads that are let in.
        fn follow(
            &self,
            wrong: Option<Wrong>,
            set: &mut [bool],
            mut pending: BTreeSet<Literal>,
            wanted: &mut [usize],
            let_in: impl Fn(Literal) -> bool,
        ) {
            let enough = (wrong == Some(Wrong::HeadOneLiteralTooEarly)) as usize;
            while let Some(literal) = pending.pop_first() {
                for &group in &self.of_literal[literal] {
                    let head = self.groups[group].0;
                    wanted[group] = wanted[group].saturating_sub(1);
                    if wanted[group] <= enough && !set[head] && let_in(head) {
                        set[head] = true;
                        if wrong != Some(Wrong::HeadBelowThePendingLiteralLost) || head > literal {
                            pending.insert(head);
                        }
                    }
                }
            }
        }

        fn held(&self, wrong: Option<Wrong>, marked: &[bool]) -> Vec<bool> {
            let by_mark: Vec<Literal> = (0..2 * marked.len()).filter(|&literal| marked[atom_of(literal)]).collect();
            let mut set = vec![false; 2 * marked.len()];
            by_mark.iter().chain(&self.facts).for_each(|&literal| set[literal] = true);
            let mut pending: BTreeSet<Literal> = self.facts.iter().copied().collect();
            if wrong != Some(Wrong::MarkedLiteralsNotPending) {
                pending.extend(by_mark);
            }
            self.follow(wrong, &mut set, pending, &mut self.wanted(), |_| true);
            set
        }

        /// Clean; the counts and the set of the round before are lent.
        fn clean(&self, wrong: Option<Wrong>, marked: &[bool], wanted: &mut Vec<usize>, before: &mut Vec<bool>) -> Vec<bool> {
            let unmarked = |literal: Literal| !marked[atom_of(literal)];
            let taken = |literal: &Literal| wrong == Some(Wrong::FactOfAMarkedHeadClean) || unmarked(*literal);
            let pending: BTreeSet<Literal> = self.facts.iter().copied().filter(taken).collect();
            let mut set = vec![false; 2 * marked.len()];
            pending.iter().for_each(|&literal| set[literal] = true);
            if wrong != Some(Wrong::CountsOfCleanKept) {
                *wanted = self.wanted();
            }
            self.follow(wrong, &mut set, pending, wanted, |head| wrong == Some(Wrong::MarkedHeadCleanByAGroup) || unmarked(head));
            if wrong == Some(Wrong::CleanKept) {
                (0..set.len()).for_each(|literal| set[literal] |= before[literal]);
                before.clone_from(&set);
            }
            set
        }
    }

    /// Whether there is a conflict, the atoms that can be marked in each round, and the values.
    type Said = (bool, Vec<Vec<usize>>, Vec<u8>);

    fn said(n: usize, held: impl Fn(&[bool]) -> Vec<bool>, mut clean: impl FnMut(&[bool]) -> Vec<bool>) -> Said {
        let mut marked = vec![false; n];
        let mut rounds = Vec::new();
        let at_first = held(&marked);
        let conflict = (0..n).any(|atom| at_first[2 * atom] && at_first[2 * atom + 1]);
        loop {
            let (held, clean) = (held(&marked), clean(&marked));
            let doubtful = |literal: Literal| held[literal] && !clean[literal];
            let both = |atom: usize| held[2 * atom] && held[2 * atom + 1];
            let can = |atom: usize| !marked[atom] && (both(atom) || doubtful(2 * atom) || doubtful(2 * atom + 1));
            let next: Vec<usize> = (0..n).filter(|&atom| can(atom)).collect();
            if next.is_empty() {
                let value = |atom: usize| match (marked[atom], held[2 * atom], held[2 * atom + 1]) {
                    (true, _, _) => I,
                    (_, true, _) => T,
                    (_, _, true) => F,
                    _ => U,
                };
                return (conflict, rounds, (0..n).map(value).collect());
            }
            next.iter().for_each(|&atom| marked[atom] = true);
            rounds.push(next);
        }
    }

    fn right(n: usize, rules: &[Rule]) -> Said {
        said(n, |marked| model::held(rules, marked), |marked| model::clean(rules, marked))
    }

    fn by_index(wrong: Option<Wrong>, n: usize, rules: &[Rule]) -> Said {
        let index = Index::new(wrong, n, rules);
        let (mut wanted, mut before) = (index.wanted(), vec![false; 2 * n]);
        said(n, |marked| index.held(wrong, marked), |marked| index.clean(wrong, marked, &mut wanted, &mut before))
    }

    /// All tables of all kinds, with what is said of them, the smallest first.
    fn all_tables() -> Vec<(&'static str, usize, Vec<Rule>, Said)> {
        let mut tables = Vec::new();
        for kind in &KINDS {
            for (n, rules) in (kind.tables)() {
                let said = right(n, &rules);
                tables.push((kind.name, n, rules, said));
            }
        }
        tables.sort_by_key(|(_, _, rules, _)| second::tables::words(rules));
        tables
    }

    #[test]
    fn each_is_noticed_by_the_tables_and_its_table_shrinks() {
        let tables = all_tables();
        let smallest = |wrong: Wrong| tables.iter().find(|(_, n, rules, right)| by_index(Some(wrong), *n, rules) != *right);
        for (wrong, most) in WRONG {
            let (kind, n, rules, _) = smallest(wrong).unwrap_or_else(|| panic!("{wrong:?} was not noticed"));
            let parts = |words: &[u16]| rules_of(*n as u64, words).is_ok_and(|rules| by_index(Some(wrong), *n, &rules) != right(*n, &rules));
            let short = smaller_table(&encode(&numbered(rules)), parts);
            println!("{wrong:?}, found by '{kind}', N {n}: {short:?}");
            assert!(short.len() <= most, "{wrong:?}, N {n}: {short:?}");
        }
        for wrong in WRONG_OF_FULL_TABLES {
            let (kind, _, rules, _) = smallest(wrong).unwrap_or_else(|| panic!("{wrong:?} was not noticed"));
            println!("{wrong:?}, found by '{kind}', {} words", second::tables::words(rules));
        }
    }

    #[test]
    fn an_index_with_nothing_wrong_is_not_noticed() {
        for (kind, n, rules, right) in all_tables() {
            assert!(by_index(None, n, &rules) == right, "{kind}, N {n}: {rules:?}");
        }
    }
}

mod names {
    use against::lookup::{Lookup, read};
    use against::name_sheets::KINDS;
    use against::names::{BUCKETS, bucket};
    use against::shrink::without_parts;
    use second::refusal::{NAME_513, Refusal, refuse};
    use second::sheet::contents;
    use second::table::encode;

    /// What is wrong about an index of names: buckets, and in each a chain from its first name to its last.
    #[derive(Clone, Copy, Debug, PartialEq, Eq)]
    enum Wrong {
        FirstOfABucketAlone,
        LastOfABucketAlone,
        LastOfAChainNotSeen,
        SecondOfAChainNotSeen,
        ChainCutAfter(usize),
        BucketLost(usize),
        NameLost(usize),
        NamesOf24BytesLost,
        DashHashedToo,
        BucketForTheBytes,
        BucketAndLengthForTheBytes,
        ShorterNameTaken,
        LongerNameTaken,
        LengthComparedInBits(u32),
        FirstByteNotCompared,
        LastByteNotCompared,
        EightNotCompared(usize),
        WholeEightsAloneCompared,
        RestOfEightsAloneCompared,
        NewNameNotPutIn,
        NewNameIntoTheNextBucket,
        NewNameAfterTheFirst,
        NegatedNewNameNotPutIn,
        PlaceInTheChainForTheNumber,
        NumberIn8Bits,
        TwelveAtThe512th,
        TwelveWithoutALookUp,
        The513thTakenForTheLast,
    }

    /// Each beside the most bytes of its shortest sheet.
    const WRONG: [(Wrong, usize); 28] = [
        (Wrong::FirstOfABucketAlone, 14),
        (Wrong::LastOfABucketAlone, 14),
        (Wrong::LastOfAChainNotSeen, 14),
        (Wrong::SecondOfAChainNotSeen, 14),
        (Wrong::BucketLost(0), 14),
        (Wrong::BucketLost(511), 14),
        (Wrong::NameLost(0), 14),
        (Wrong::NameLost(1), 14),
        (Wrong::NamesOf24BytesLost, 56),
        (Wrong::DashHashedToo, 14),
        (Wrong::BucketForTheBytes, 14),
        (Wrong::BucketAndLengthForTheBytes, 14),
        (Wrong::ShorterNameTaken, 14),
        (Wrong::LongerNameTaken, 14),
        (Wrong::LengthComparedInBits(3), 16),
        (Wrong::LengthComparedInBits(4), 24),
        (Wrong::FirstByteNotCompared, 14),
        (Wrong::LastByteNotCompared, 14),
        (Wrong::EightNotCompared(0), 20),
        (Wrong::EightNotCompared(1), 36),
        (Wrong::EightNotCompared(2), 52),
        (Wrong::WholeEightsAloneCompared, 14),
        (Wrong::RestOfEightsAloneCompared, 20),
        (Wrong::NewNameNotPutIn, 14),
        (Wrong::NewNameIntoTheNextBucket, 14),
        (Wrong::NewNameAfterTheFirst, 30),
        (Wrong::NegatedNewNameNotPutIn, 14),
        (Wrong::PlaceInTheChainForTheNumber, 14),
    ];

    /// Noticed by sheets of many names alone; each beside the fewest that they can have.
    const WRONG_OF_MANY_NAMES: [(Wrong, usize); 8] = [
        (Wrong::ChainCutAfter(64), 65),
        (Wrong::ChainCutAfter(255), 256),
        (Wrong::ChainCutAfter(511), 512),
        (Wrong::NumberIn8Bits, 257),
        (Wrong::NameLost(511), 512),
        (Wrong::TwelveAtThe512th, 512),
        (Wrong::TwelveWithoutALookUp, 512),
        (Wrong::The513thTakenForTheLast, 512),
    ];

    struct Index<'a> {
        wrong: Option<Wrong>,
        chains: Vec<Vec<(&'a [u8], usize)>>,
        /// The bucket of the name looked up last, and whether it was negated.
        at: usize,
        negated: bool,
    }

    impl Index<'_> {
        /// Whether the name at a place of a chain of so many is looked at.
        fn sees(&self, place: usize, length: usize) -> bool {
            match self.wrong {
                Some(Wrong::FirstOfABucketAlone) => place == 0,
                Some(Wrong::LastOfABucketAlone) => place + 1 == length,
                Some(Wrong::LastOfAChainNotSeen) => length == 1 || place + 1 < length,
                Some(Wrong::SecondOfAChainNotSeen) => place != 1,
                Some(Wrong::ChainCutAfter(most)) => place < most,
                Some(Wrong::BucketLost(lost)) => self.at != lost,
                _ => true,
            }
        }

        /// Whether the byte at a place of two names of one length is compared.
        fn compares(&self, place: usize, length: usize) -> bool {
            let eights = length / 8;
            match self.wrong {
                Some(Wrong::FirstByteNotCompared) => place > 0,
                Some(Wrong::LastByteNotCompared) => place + 1 < length,
                Some(Wrong::EightNotCompared(eight)) => place / 8 != eight || eight >= eights,
                Some(Wrong::WholeEightsAloneCompared) => place < 8 * eights,
                Some(Wrong::RestOfEightsAloneCompared) => place >= 8 * eights,
                _ => true,
            }
        }

        fn same(&self, known: &[u8], name: &[u8]) -> bool {
            let same_length = known.len() == name.len();
            match self.wrong {
                Some(Wrong::BucketForTheBytes) => true,
                Some(Wrong::BucketAndLengthForTheBytes) => same_length,
                Some(Wrong::ShorterNameTaken) => known.starts_with(name),
                Some(Wrong::LongerNameTaken) => name.starts_with(known),
                Some(Wrong::LengthComparedInBits(bits)) => {
                    (known.len() ^ name.len()) % (1 << bits) == 0 && known.iter().zip(name).all(|(a, b)| a == b)
                }
                Some(Wrong::NamesOf24BytesLost) => known == name && name.len() < 24,
                _ => same_length && (0..name.len()).all(|at| known[at] == name[at] || !self.compares(at, name.len())),
            }
        }
    }

    impl<'a> Lookup<'a> for Index<'a> {
        fn number(&mut self, sheet: &'a [u8], entries: &[u32], name: &'a [u8]) -> Option<usize> {
            let start = name.as_ptr() as usize - sheet.as_ptr() as usize;
            self.negated = start > 0 && sheet[start - 1] == b'-';
            let with_dash = self.negated && self.wrong == Some(Wrong::DashHashedToo);
            self.at = bucket(if with_dash { &sheet[start - 1..start + name.len()] } else { name });
            let chain = &self.chains[self.at];
            let same = |&(place, (known, _)): &(usize, &(&[u8], usize))| self.sees(place, chain.len()) && self.same(known, name);
            let found = chain.iter().enumerate().find(same).map(|(place, &(_, number))| (place, number));
            let full = entries.len() == 512;
            match (self.wrong, found) {
                (Some(Wrong::NameLost(lost)), Some((_, number))) if number == lost => None,
                (Some(Wrong::PlaceInTheChainForTheNumber), Some((place, _))) => Some(place),
                (Some(Wrong::NumberIn8Bits), Some((_, number))) => Some(number % 256),
                (Some(Wrong::TwelveWithoutALookUp), _) if full => None,
                (Some(Wrong::The513thTakenForTheLast), None) if full => Some(511),
                (_, found) => found.map(|(_, number)| number),
            }
        }

        fn note(&mut self, name: &'a [u8], number: usize) {
            let next = (self.at + 1) % BUCKETS;
            let chain = &mut self.chains[if self.wrong == Some(Wrong::NewNameIntoTheNextBucket) { next } else { self.at }];
            match self.wrong {
                Some(Wrong::NewNameNotPutIn) => {}
                Some(Wrong::NegatedNewNameNotPutIn) if self.negated => {}
                Some(Wrong::NewNameAfterTheFirst) => {
                    chain.truncate(1);
                    chain.push((name, number));
                }
                _ => chain.push((name, number)),
            }
        }
    }

    /// The words and the name entries, of which the value sheet follows.
    type Read = Result<(Vec<u16>, Vec<u32>), Refusal>;

    fn right(sheet: &[u8]) -> Read {
        let contents = contents(sheet)?;
        Ok((encode(&contents.records), contents.names.iter().map(|name| name.entry()).collect()))
    }

    fn by_index(wrong: Option<Wrong>, sheet: &[u8]) -> Read {
        let index = Index { wrong, chains: vec![Vec::new(); BUCKETS], at: 0, negated: false };
        let (mut words, mut names) = (vec![0; 8192], vec![0; 512]);
        let read = read(index, sheet, &mut words, &mut names);
        if wrong == Some(Wrong::TwelveAtThe512th) && names[511] != 0 {
            return refuse(NAME_513, names[511] as usize / 32);
        }
        let (n, filled) = read?;
        words.truncate(filled);
        names.truncate(n);
        Ok((words, names))
    }

    /// All sheets of all kinds, with what is right of them, the shortest first.
    fn all_sheets() -> Vec<(&'static str, Vec<u8>, Read)> {
        let of_kind = |kind: &'static against::name_sheets::Kind| (kind.sheets)().into_iter().map(|sheet| (kind.name, sheet));
        let mut sheets: Vec<_> = KINDS.iter().flat_map(of_kind).map(|(kind, sheet)| (kind, right(&sheet), sheet)).collect();
        sheets.sort_by_key(|(_, _, sheet)| sheet.len());
        sheets.into_iter().map(|(kind, right, sheet)| (kind, sheet, right)).collect()
    }

    #[test]
    fn each_is_noticed_by_the_sheets_and_its_sheet_shrinks() {
        let sheets = all_sheets();
        let shortest = |wrong: Wrong| {
            let found = sheets.iter().find(|(_, sheet, right)| by_index(Some(wrong), sheet) != *right);
            found.unwrap_or_else(|| panic!("{wrong:?} was not noticed"))
        };
        for (wrong, most) in WRONG {
            let (kind, sheet, _) = shortest(wrong);
            let short = without_parts(sheet, |sheet| by_index(Some(wrong), sheet) != right(sheet));
            println!("{wrong:?}, found by '{kind}': \"{}\"", short.escape_ascii());
            assert!(short.len() <= most, "{wrong:?}: \"{}\"", short.escape_ascii());
        }
        for (wrong, fewest) in WRONG_OF_MANY_NAMES {
            let (kind, sheet, _) = shortest(wrong);
            let lines: Vec<&[u8]> = sheet.split_inclusive(|&byte| byte == b'\n').collect();
            let short = without_parts(&lines, |lines| by_index(Some(wrong), &lines.concat()) != right(&lines.concat())).concat();
            let names = by_index(None, &short).map_or(512, |(_, names)| names.len());
            println!("{wrong:?}, found by '{kind}', {} bytes, {names} names", short.len());
            assert!(names >= fewest, "{wrong:?}: {names} names");
        }
    }

    #[test]
    fn an_index_with_nothing_wrong_is_not_noticed() {
        for (kind, sheet, right) in all_sheets() {
            assert!(by_index(None, &sheet) == right, "{kind}: \"{}\"", sheet.escape_ascii());
        }
    }
}
