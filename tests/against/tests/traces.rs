//! Random traces of picks, settled questions, reports and counts under one record, with questions of conflict and of groups between them;
//! the record and its count are compared after every step.

use against::cases::{Tally, cases};
use against::entries::{ALREADY_MARKED, Answer, CANNOT_BE_MARKED_NOW, Engine, Entries, MARKED, NO, Second, YES};
use against::records::{expect_all_marked, expect_forged};
use against::tables::{self, expect_of_lines};
use against::trace::{Plan, assert_together, passes_until_settled, random_trace};
use second::marking::MarkRecord;
use second::model;
use second::random::{self, Chance, RECORD_FORGERIES};
use second::refusal::Refusal;
use second::tables::{EXAMPLES, MEASURED};

/// Replays so many traces.
fn replay(seed: u64, count: u64, plan: Plan) -> Tally {
    let mut tally = Tally::default();
    for case in 0..count {
        let seed = seed.wrapping_add(case);
        let trace = random_trace(&mut Chance::new(seed), plan);
        assert_together(&trace, &Engine, &mut tally, seed);
    }
    tally
}

const ACCEPTED: [&str; 11] = [
    "fresh ok",
    "pick marked",
    "pick already marked",
    "pick cannot be marked now",
    "settled yes",
    "settled no",
    "report ok",
    "count ok",
    "conflict yes",
    "conflict no",
    "which ok",
];

const PLAIN_REFUSALS: [&str; 6] = ["fresh 1", "pick 16", "report 3", "report 18", "conflict 1", "which 1"];

const AFTER_FRESH: [&str; 5] = ["pick 5", "settled 5", "report 5", "conflict 5", "which 5"];

const WORDS: [&str; 25] = [
    "pick 2", "pick 4", "pick 5", "pick 6", "pick 7", "settled 2", "settled 4", "settled 5", "settled 6", "settled 7",
    "report 2", "report 4", "report 5", "report 6", "report 7", "conflict 2", "conflict 4", "conflict 5", "conflict 6", "conflict 7",
    "which 2", "which 4", "which 5", "which 6", "which 7",
];

const RECORDS: [&str; 8] =
    ["pick 1", "pick 17", "settled 1", "settled 17", "report 1", "report 17", "count 1", "count 17"];

#[test]
fn one_small_table() {
    let plan = Plan { table: |chance| random::small_table(chance, 6), tables: 1, damaged: 0, forged: 0, steps: 60 };
    let tally = replay(1 << 40, cases(60_000), plan);
    // After a fresh record for another N, or by a question with another, literals may be too high.
    tally.expect(&[&ACCEPTED[..], &PLAIN_REFUSALS, &AFTER_FRESH].concat(), cases(1_000));
    tally.expect_also(&["a fact", "a group", "no group", "no record"].map(|what| (what, cases(1_000))));
}

#[test]
fn tables_change_under_one_record() {
    let plan = Plan { table: |chance| random::small_table(chance, 6), tables: 4, damaged: 15, forged: 0, steps: 40 };
    let tally = replay(2 << 40, cases(50_000), plan);
    tally.expect(&[&ACCEPTED[..], &PLAIN_REFUSALS, &WORDS].concat(), cases(200));
    expect_of_lines(&tally, cases(1_000));
}

#[test]
fn forged_records() {
    let plan = Plan { table: |chance| random::small_table(chance, 8), tables: 3, damaged: 15, forged: 30, steps: 40 };
    let tally = replay(3 << 40, cases(50_000), plan);
    tally.expect(&[&ACCEPTED[..], &PLAIN_REFUSALS, &WORDS, &RECORDS].concat(), cases(200));
    expect_forged(&tally, cases(100));
    expect_all_marked(&tally, cases(1_000));
}

#[test]
fn records_forged_at_every_second_step_with_faulty_tables() {
    let plan = Plan { table: |chance| random::small_table(chance, 3), tables: 4, damaged: 50, forged: 50, steps: 60 };
    let tally = replay(8 << 40, cases(40_000), plan);
    tally.expect(&[&ACCEPTED[..], &PLAIN_REFUSALS, &WORDS, &RECORDS].concat(), cases(200));
    expect_forged(&tally, cases(200));
    expect_all_marked(&tally, cases(1_000));
}

#[test]
fn middling_tables() {
    let plan = Plan { table: |chance| random::small_table(chance, 70), tables: 2, damaged: 5, forged: 10, steps: 60 };
    let tally = replay(4 << 40, cases(6_000), plan);
    tally.expect(&[&ACCEPTED[..], &PLAIN_REFUSALS, &WORDS, &RECORDS].concat(), cases(20));
    expect_all_marked(&tally, cases(20));
}

#[test]
fn large_tables() {
    let plan = Plan { table: random::large_table, tables: 2, damaged: 10, forged: 30, steps: 60 };
    let tally = replay(5 << 40, cases(1_000), plan);
    tally.expect(&[&ACCEPTED[..], &PLAIN_REFUSALS, &WORDS, &RECORDS].concat(), cases(5));
}

/// Passes in any order end with evaluation's values, and with as many marks as there are i.
fn settles(n: u64, words: &[u16], chance: &mut Chance) -> u64 {
    let (passes, record) = passes_until_settled(&Engine, n, words, chance);
    let mut values = vec![9; n as usize + 3];
    let mut expected = values.clone();
    assert_eq!(Engine.report(&record, words, &mut values), Ok(0));
    model::evaluate(n, words, &mut expected).expect("an accepted table");
    assert_eq!(values, expected, "N {n}, words {words:?}");
    let inconsistent = expected[..n as usize].iter().filter(|&&value| value == 2).count() as u64;
    assert_eq!(Engine.mark_count(&record), Ok(inconsistent), "N {n}, words {words:?}");
    assert_eq!(record.count, inconsistent, "N {n}, words {words:?}");
    passes
}

#[test]
fn any_order_of_picks_gives_the_values_of_evaluation() {
    let mut chance = Chance::new(0x0bde5);
    let mut several_passes = 0;
    for _ in 0..cases(40_000) {
        let (n, words) = random::small_table(&mut chance, 10);
        several_passes += (settles(n, &words, &mut chance) > 1) as u64;
    }
    for _ in 0..cases(8) {
        let (n, words) = random::large_table(&mut chance);
        several_passes += (settles(n, &words, &mut chance) > 1) as u64;
    }
    assert!(several_passes > cases(1_000), "{several_passes}");
}

#[test]
fn p1_to_p12_by_picks() {
    let mut chance = Chance::new(0x9112);
    for example in EXAMPLES {
        let table = example.table();
        let words = table.words();
        for _ in 0..20 {
            let (_, record) = passes_until_settled(&Engine, table.n(), &words, &mut chance);
            let mut values = vec![9; table.n() as usize];
            assert_eq!(Engine.report(&record, &words, &mut values), Ok(0), "{}", example.name);
            assert_eq!(values, example.values_in_order(), "{}", example.name);
            assert_eq!(Engine.mark_count(&record), Ok(example.marks), "{}", example.name);
        }
    }
}

#[test]
fn every_mark_alone_is_counted_and_found_below_n_only() {
    for n in [0, 1, 63, 64, 65, 127, 128, 448, 511, 512] {
        for atom in 0..512 {
            let mut marks = [0; 8];
            marks[atom / 64] = 1 << (atom % 64);
            let record = MarkRecord { n, marks, count: 1 };
            let expected = Second.mark_count(&record);
            assert_eq!(Engine.mark_count(&record), expected, "N {n}, mark {atom}");
            for count in [0, 2, 512, u64::MAX] {
                let wrong = MarkRecord { count, ..record };
                assert_eq!(Engine.mark_count(&wrong), Err(Refusal { number: 17, place: 0 }), "N {n}, mark {atom}, count {count}");
            }
            assert_eq!(Engine.settled(&record, &[]), Second.settled(&record, &[]), "N {n}, mark {atom}");
            let mut after = record;
            let answer = Engine.pick(&mut after, &[], atom as u64);
            let refused = Err(Refusal { number: 17, place: 0 });
            assert_eq!(answer, if (atom as u64) < n { Ok(ALREADY_MARKED) } else { refused }, "N {n}, mark {atom}");
            assert_eq!(after, record);
        }
    }
}

#[test]
fn every_atom_of_512_is_marked_alone() {
    for atom in 0..512u64 {
        // Both literals of the atom are facts.
        let words = [2 * atom as u16, 1, 0, 2 * atom as u16 + 1, 2, 0];
        let (mut record, _) = Engine.fresh(512);
        let other = (atom + 1) % 512;
        assert_eq!(Engine.pick(&mut record, &words, other), Ok(CANNOT_BE_MARKED_NOW));
        assert_eq!(Engine.settled(&record, &words), Ok(0));
        assert_eq!(Engine.pick(&mut record, &words, atom), Ok(0));
        let mut marks = [0; 8];
        marks[atom as usize / 64] = 1 << (atom % 64);
        assert_eq!(record, MarkRecord { n: 512, marks, count: 1 });
        assert_eq!(Engine.settled(&record, &words), Ok(1));
    }
}

/// What each entry that takes a record answers to it, with all that is left.
#[derive(Debug, PartialEq, Eq)]
struct Said {
    count: Answer,
    settled: Answer,
    report: (Answer, Vec<u8>),
    pick: (Answer, MarkRecord),
}

impl Said {
    fn of(side: &impl Entries, record: MarkRecord, words: &[u16], atom: u64, room: usize) -> Said {
        let (mut values, mut after) = (vec![9; room], record);
        let report = side.report(&record, words, &mut values);
        let pick = side.pick(&mut after, words, atom);
        Said { count: side.mark_count(&record), settled: side.settled(&record, words), report: (report, values), pick: (pick, after) }
    }

    /// All four refuse by this number and alter nothing.
    fn is_refusal(&self, number: u32, record: &MarkRecord) -> bool {
        let refused = Err(Refusal { number, place: 0 });
        [self.count, self.settled, self.report.0, self.pick.0] == [refused; 4]
            && self.pick.1 == *record
            && self.report.1.iter().all(|&byte| byte == 9)
    }
}

/// Both sides answer and leave the same; what they say.
fn both_say(record: MarkRecord, words: &[u16], atom: u64, room: usize) -> Said {
    let said = Said::of(&Second, record, words, atom, room);
    assert_eq!(Said::of(&Engine, record, words, atom, room), said, "{record:?}, words {words:?}, atom {atom}, room {room}");
    said
}

#[test]
fn every_set_of_marks_with_every_small_count() {
    // A few atoms below N and at it, and counts about them, about 512, and right after a wrap.
    let counts: Vec<u64> = (0..6).chain(510..515).chain([256, 1 << 16, (1 << 32) + 1, (1 << 63) + 2, u64::MAX]).collect();
    let tables: [&[u16]; 4] = [&[], &[0, 1, 0, 1, 2, 0], &[0, 1, 0, 65], &[9; 8193]];
    let (mut taken, mut by_count, mut past_n, mut above_512) = (0, 0, 0, 0);
    for n in [0, 1, 2, 3, 4, 513, 1 << 32, u64::MAX] {
        for marks in 0..16 {
            for &count in &counts {
                let record = MarkRecord { n, marks: [marks, 0, 0, 0, 0, 0, 0, 0], count };
                let number = u64::from(marks.count_ones());
                for words in tables {
                    let said = both_say(record, words, 1, 3);
                    let refused = |number: u32| said.is_refusal(number, &record);
                    if n > 512 {
                        assert!(refused(1), "{record:?}");
                        above_512 += (count != number) as u64;
                    } else if marks >> n > 0 {
                        assert!(refused(17), "{record:?}");
                        past_n += (count == number) as u64;
                    } else if count != number {
                        assert!(refused(17), "{record:?}");
                        by_count += 1;
                    } else {
                        assert_eq!(said.count, Ok(count), "{record:?}");
                        taken += 1;
                    }
                }
            }
        }
    }
    assert!(taken >= 4 * 31 && past_n >= 4 * 49 && by_count > 1_500 && above_512 > 2_500, "{taken} {past_n} {by_count} {above_512}");
}

#[test]
fn of_all_counts_up_to_520_the_number_of_marks_alone_is_taken() {
    for number in [0, 1, 2, 63, 64, 65, 255, 256, 257, 448, 511, 512] {
        let mut marks = [0; 8];
        (0..number as usize).for_each(|atom| marks[atom / 64] |= 1 << (atom % 64));
        for count in (0..=520).chain([number + (1 << 16), number + (1 << 32), u64::MAX]) {
            let record = MarkRecord { n: 512, marks, count };
            let said = both_say(record, &[], 511, 512);
            if count == number {
                assert_eq!((said.count, said.settled), (Ok(number), Ok(YES)), "{number} marks");
            } else {
                assert!(said.is_refusal(17, &record), "{number} marks, count {count}");
            }
        }
    }
}

#[test]
fn no_marks_and_count_5_is_17_from_every_entry_and_the_count_stays_5() {
    for n in [0, 1, 5, 64, 512] {
        let record = MarkRecord { n, marks: [0; 8], count: 5 };
        assert!(both_say(record, &[], 0, 512).is_refusal(17, &record), "N {n}");
        assert!(both_say(record, &[9; 8193], n, 0).is_refusal(17, &record), "N {n}");
    }
}

#[test]
fn each_forgery_through_every_entry() {
    let mut chance = Chance::new(0xf0e6);
    let mut met = [0; RECORD_FORGERIES.len()];
    for _ in 0..cases(20_000) {
        let (_, words) = tables::sound_or_faulty(&mut chance);
        let n = chance.of(&[0, 1, 2, 3, 4, 4, 4, 63, 64, 65, 300, 511, 512]);
        for (forgery, times) in RECORD_FORGERIES.into_iter().zip(&mut met).filter(|(forgery, _)| forgery.fits(n)) {
            let record = random::forge(&mut chance, n, forgery);
            let (atom, room) = (random::any_atom(&mut chance, n), random::value_room(&mut chance, n).len());
            assert!(both_say(record, &words, atom, room).is_refusal(forgery.number(), &record), "{forgery:?}: {record:?}");
            *times += 1;
        }
    }
    assert!(met.iter().all(|&times| times > cases(15_000)), "{met:?}");
}

/// A record with all N atoms marked is settled with a table, all its values are i, and no pick marks.
fn nothing_is_left(record: MarkRecord, words: &[u16]) {
    let n = record.n;
    let said = both_say(record, words, n.wrapping_sub(1), n as usize + 2);
    let picked = if n > 0 { Ok(ALREADY_MARKED) } else { Err(Refusal { number: 16, place: 0 }) };
    assert_eq!((said.count, said.settled, said.report.0), (Ok(n), Ok(YES), Ok(0)), "N {n}, words {words:?}");
    assert_eq!(said.pick, (picked, record), "N {n}, words {words:?}");
    assert!(said.report.1[..n as usize].iter().all(|&value| value == 2), "N {n}, words {words:?}");
}

#[test]
fn a_record_with_n_marks_is_settled_for_every_accepted_table() {
    let mut chance = Chance::new(0xa115e);
    let all = |n: u64| {
        let mut marks = [0; 8];
        (0..n as usize).for_each(|atom| marks[atom / 64] |= 1 << (atom % 64));
        MarkRecord { n, marks, count: n }
    };
    for _ in 0..cases(40_000) {
        let (n, words) = random::accepted_table(&mut chance);
        nothing_is_left(all(n), &words);
    }
    for measured in MEASURED {
        let (n, words) = (measured.table)();
        nothing_is_left(all(n), &words);
    }
}

#[test]
fn all_n_atoms_are_marked_by_picks_where_all_are_i() {
    let mut chance = Chance::new(0xa117);
    let mut met = [0; 6];
    for _ in 0..cases(40_000) {
        let (n, words) = random::small_table(&mut chance, 5);
        let mut values = vec![9; n as usize];
        model::evaluate(n, &words, &mut values).expect("an accepted table");
        if values.iter().all(|&value| value == 2) {
            let (_, record) = passes_until_settled(&Engine, n, &words, &mut chance);
            assert_eq!(record.count, n, "N {n}, words {words:?}");
            nothing_is_left(record, &words);
            // With any other table too.
            let others = random::small_table(&mut chance, n).1;
            nothing_is_left(record, &others);
            met[n as usize] += 1;
        }
    }
    assert!(met[1..].iter().all(|&times| times > cases(200)), "{met:?}");
}

#[test]
fn the_count_goes_from_0_to_512_one_by_one() {
    let mut in_full = 0;
    for measured in MEASURED {
        let (n, words) = (measured.table)();
        let mut values = vec![9; 512];
        model::evaluate(n, &words, &mut values).expect("an accepted table");
        if values != [2; 512] {
            continue;
        }
        in_full += 1;
        let (mut record, _) = Engine.fresh(n);
        let mut made = 0;
        while made < n {
            for atom in 0..n {
                let answer = Engine.pick(&mut record, &words, atom);
                made += u64::from(answer == Ok(MARKED));
                assert_eq!(record.count, made, "{}", measured.name);
                if made == n - 1 {
                    assert_eq!(Engine.settled(&record, &words), Ok(NO), "{}", measured.name);
                }
            }
            assert_eq!(Engine.mark_count(&record), Ok(made), "{}", measured.name);
        }
        assert_eq!(record, MarkRecord { n: 512, marks: [!0; 8], count: 512 }, "{}", measured.name);
        nothing_is_left(record, &words);
    }
    assert_eq!(in_full, 3);
}
