//! No answer depends on a line: tables that differ only in line words, through every entry that is lent a table.

use std::collections::BTreeMap;

use second::host::{refused_writing, simmerknot_check_reasons, simmerknot_conflict, simmerknot_evaluate};
use second::marking::{MarkRecord, Picked, fresh, pick, report, settled};
use second::model::{OfFirst, conflict, evaluate, which_group_of_first};
use second::random::{self, ALL_LINES, Chance, Lines, table_bytes};
use second::reasons::{check_reasons, check_writing};
use second::refusal::Refusal;
use second::sheet::{contents, line_of};
use second::table::{check, encode, rules_of};
use second::tables::{EXAMPLES, MEASURED};

/// An answer and the value room after it.
type Left<T> = (T, Vec<u8>);

/// What the entries say of a table, and all that they leave.
#[derive(Debug, PartialEq, Eq)]
struct Said {
    check: Result<(), Refusal>,
    picks: Vec<(Picked, MarkRecord)>,
    settled: Vec<Result<bool, Refusal>>,
    reports: Vec<Left<Result<(), Refusal>>>,
    evaluation: Left<Result<(), Refusal>>,
    host: Left<u64>,
    conflict: Result<bool, Refusal>,
    host_conflict: u64,
    groups: Vec<Result<OfFirst, Refusal>>,
    writing: (Result<(), Refusal>, Option<u64>),
    reasons: Vec<(Result<(), Refusal>, u64)>,
}

/// Picks from a fresh record or from one by hand, with questions and reports between them; then both evaluations, the question of
/// conflict in both ways, which group of some records is wholly in a set, and checks of reason sheets, some of them forged.
fn said(n: u64, words: &[u16], seed: u64) -> Said {
    let mut chance = Chance::new(seed);
    let mut record = if chance.one_in(2) { fresh(n).0 } else { random::record(&mut chance, n) };
    let (mut picks, mut asked, mut reports) = (Vec::new(), Vec::new(), Vec::new());
    for _ in 0..12 {
        let atom = random::any_atom(&mut chance, n);
        let picked = pick(&mut record, words, atom);
        picks.push((picked, record));
        asked.push(settled(&record, words));
        let mut room = random::value_room(&mut chance, n);
        reports.push((report(&record, words, &mut room), room));
    }
    let mut room = random::value_room(&mut chance, n);
    let mut host_room = room.clone();
    let answer = evaluate(n, words, &mut room);
    let host = simmerknot_evaluate(n, &table_bytes(words), &mut host_room);
    let heads = random::head_places(words);
    let group = |_| {
        let tail = &words[heads.get(chance.index(heads.len() + 1)).copied().unwrap_or(words.len())..];
        which_group_of_first(n, tail, &random::any_set(&mut chance, n, tail))
    };
    let groups = (0..3).map(group).collect();
    let reasons = (0..3).map(|_| reasons_said(&mut chance, n, words)).collect();
    Said {
        check: check(n, words),
        picks,
        settled: asked,
        reports,
        evaluation: (answer, room),
        host: (host, host_room),
        conflict: conflict(n, words),
        host_conflict: simmerknot_conflict(n, &table_bytes(words)),
        groups,
        writing: (check_writing(n, words), refused_writing(n, &table_bytes(words))),
        reasons,
    }
}

/// The check of a reason sheet of chance, on words and on bytes.
fn reasons_said(chance: &mut Chance, n: u64, words: &[u16]) -> (Result<(), Refusal>, u64) {
    let (values, text) = random::claimed(chance, n, words);
    (check_reasons(n, words, &values, &text), simmerknot_check_reasons(n, &table_bytes(words), &values, &text))
}

#[test]
fn tables_that_differ_only_in_lines_have_equal_answers() {
    let (mut pairs, mut lines, mut values) = (0, 0, [0; 4]);
    let (mut marked, mut reported, mut unsettled, mut small, mut conflicts, mut groups) = (0, 0, 0, 0, [0; 2], [0; 4]);
    let mut reasons = BTreeMap::new();
    for seed in 0..3000 {
        let mut chance = Chance::new(seed);
        let (n, words) = random::accepted_table(&mut chance);
        let other = random::other_lines(&mut chance, n, &words);
        assert_eq!(rules_of(n, &words), rules_of(n, &other), "seed {seed}");
        let places = random::line_places(&words);
        let differing: Vec<usize> = (0..words.len()).filter(|&at| words[at] != other[at]).collect();
        assert!(words.len() == other.len() && differing.iter().all(|at| places.contains(at)), "seed {seed}");
        let (one, two) = (said(n, &words, seed), said(n, &other, seed));
        assert_eq!(one, two, "seed {seed}: {words:?} and {other:?}");
        assert_eq!(one.check, Ok(()), "seed {seed}");
        if differing.is_empty() {
            continue;
        }
        pairs += 1;
        lines += differing.len();
        if one.evaluation.0.is_ok() {
            one.evaluation.1[..n as usize].iter().for_each(|&value| values[value as usize] += 1);
        }
        marked += one.picks.iter().filter(|(picked, _)| *picked == Picked::Marked).count();
        reported += one.reports.iter().filter(|(answer, _)| answer.is_ok()).count();
        unsettled += one.reports.iter().filter(|(answer, _)| *answer == Err(Refusal { number: 18, place: 0 })).count();
        small += (one.host.0 == 3 << 32) as u32;
        assert_eq!(one.conflict.map(u64::from), Ok(one.host_conflict), "seed {seed}");
        conflicts[one.host_conflict as usize] += 1;
        for group in one.groups.iter().flatten() {
            match group {
                OfFirst::Group(number) => groups[(*number).min(2)] += 1,
                OfFirst::NoGroup => groups[3] += 1,
                OfFirst::NoRecord => {}
            }
        }
        assert_eq!(one.writing, (Ok(()), None), "seed {seed}");
        for (answer, _) in one.reasons {
            *reasons.entry(answer.err().map_or(0, |refusal| refusal.number)).or_insert(0) += 1;
        }
    }
    assert!(pairs > 2000 && lines > 50_000 && values.iter().all(|&count| count > 5000), "{pairs} {lines} {values:?}");
    assert!(marked > 2000 && reported > 5000 && unsettled > 5000 && small > 200, "{marked} {reported} {unsettled} {small}");
    assert_eq!(reasons.keys().copied().collect::<Vec<u32>>(), [0, 3, 20, 21, 22, 34]);
    assert!(reasons.values().all(|&count| count > 300), "{reasons:?}");
    assert!(conflicts.iter().all(|&count| count > 700) && groups.iter().all(|&count| count > 250), "{conflicts:?} {groups:?}");
}

#[test]
fn the_examples_with_lines_of_each_kind() {
    for example in EXAMPLES {
        let table = example.table();
        for lines in ALL_LINES {
            for seed in 0..10 {
                let words = encode(&random::with_lines(&mut Chance::new(seed), &table.rules, lines));
                assert_eq!(said(table.n(), &words, seed), said(table.n(), &table.words(), seed), "{}, {lines:?}", example.name);
                let mut values = vec![9; table.names.len()];
                assert_eq!(evaluate(table.n(), &words, &mut values), Ok(()), "{}, {lines:?}", example.name);
                assert_eq!(values, example.values_in_order(), "{}, {lines:?}", example.name);
            }
        }
    }
}

#[test]
fn the_measured_tables_made_by_hand() {
    for measured in MEASURED {
        let (n, words) = (measured.table)();
        let by_hand = encode(&random::with_lines(&mut Chance::new(0), &rules_of(n, &words).unwrap(), Lines::ByHand));
        assert_ne!(words, by_hand, "{}", measured.name);
        let [mut one, mut two] = [(); 2].map(|()| vec![9; n as usize]);
        assert_eq!(evaluate(n, &words, &mut one), Ok(()), "{}", measured.name);
        assert_eq!(evaluate(n, &by_hand, &mut two), Ok(()), "{}", measured.name);
        assert_eq!(one, two, "{}", measured.name);
    }
}

#[test]
fn a_sheets_table_and_the_same_by_hand() {
    let mut lines_met = 0;
    for seed in 0..1000 {
        let mut chance = Chance::new(seed);
        let contents = contents(&random::accepted_sheet(&mut chance)).unwrap();
        let n = contents.names.len() as u64;
        let from_sheet = encode(&contents.records);
        assert_eq!(from_sheet, encode(&random::with_lines(&mut chance, &contents.rules(), Lines::FromSheet)), "seed {seed}");
        let by_hand = encode(&random::with_lines(&mut chance, &contents.rules(), Lines::ByHand));
        assert_eq!(said(n, &from_sheet, seed), said(n, &by_hand, seed), "seed {seed}");
        lines_met += contents.records.len();
    }
    assert!(lines_met > 10_000, "{lines_met}");
}

#[test]
fn the_place_of_a_complaint_tells_its_line() {
    // A byte of a sheet by counting byte 10 before it.
    let of_sheet = |sheet: &[u8]| contents(sheet).map_err(|refusal| (refusal.number, line_of(sheet, refusal.place as usize)));
    assert_eq!(of_sheet(b"a\tb c\n-a\tb\na\n"), Err((7, 3)));
    assert_eq!(of_sheet(b"a\tb c\n-a\tb#\na\n"), Err((10, 2)));
    assert_eq!(of_sheet(b"a\tb c\n-a\tb\nc"), Err((10, 3)));
    // A word of a table by the line after the head of its record.
    let of_table = |words: &[u16]| {
        let at = check(2, words).expect_err("a refusal").place as usize;
        let head = random::head_places(words).into_iter().rfind(|&head| head <= at);
        words[head.expect("a record") + 1]
    };
    assert_eq!(of_table(&[0, 7, 0, 1, 9, 1, 1, 4, 2, 11, 0]), 9);
    assert_eq!(of_table(&[0, 7, 0, 1, 9, 65]), 9);
    assert_eq!(of_table(&[0, 7, 0, 0, 9, 0]), 9);
}
