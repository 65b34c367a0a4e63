//! Tables that are awkward for an index of the places at which literals stand, through every entry that works out Held or Clean: whole
//! evaluation and the question of conflict, over words and through the host's entries; picks, settled questions and reports; and the writer
//! of a reason sheet, by both checks.

use against::cases::{Tally, cases};
use against::compare;
use against::entries::Engine;
use against::guard::BEFORE;
use against::index_tables::{KINDS, Kind, varied};
use against::trace::{Step, Trace, assert_together};
use second::marking::MarkRecord;
use second::model::{markable, settle};
use second::random::{self, Chance, table_bytes};
use second::table::{Rule, encode, numbered, rules_of};
use second::tables::{fact, words};

/// The record with these atoms marked.
fn record_of(n: u64, marked: &[bool]) -> MarkRecord {
    let mut marks = [0; 8];
    (0..marked.len()).filter(|&atom| marked[atom]).for_each(|atom| marks[atom / 64] |= 1 << (atom % 64));
    MarkRecord::counted(n, marks)
}

/// Some of the atoms, and the lowest and the highest.
fn some(chance: &mut Chance, atoms: &[usize]) -> Vec<usize> {
    let drawn = (0..2).filter(|_| !atoms.is_empty()).map(|_| chance.of(atoms)).collect::<Vec<_>>();
    [atoms.first().copied(), atoms.last().copied()].into_iter().flatten().chain(drawn).collect()
}

/// From a fresh record, from one that has some of the marks, and from the settled one: picks of atoms that can be marked and of any, the
/// settled question and a report before them and after.
fn calls(chance: &mut Chance, n: u64, words: &[u16]) -> Trace {
    let rules = rules_of(n, words).expect("an accepted table");
    let settled = settle(n, &rules);
    let part: Vec<bool> = settled.iter().map(|&mark| mark && chance.one_in(2)).collect();
    let mut steps = vec![Step::Fresh(n), Step::Conflict { n, table: 0 }];
    for marked in [vec![false; n as usize], part, settled] {
        if marked.contains(&true) {
            steps.push(Step::Forge(record_of(n, &marked)));
        }
        steps.push(Step::Settled { table: 0 });
        steps.push(Step::Report { table: 0, room: n as usize + 2, filling: chance.number() });
        let can = markable(&rules, &marked);
        let others = [chance.index(n.max(1) as usize), n.saturating_sub(1) as usize];
        for atom in some(chance, &can).into_iter().chain(others) {
            steps.push(Step::Pick { table: 0, atom: atom as u64 });
        }
        steps.push(Step::Settled { table: 0 });
        steps.push(Step::Report { table: 0, room: n as usize + 2, filling: chance.number() });
    }
    Trace { tables: vec![words.to_vec()], steps }
}

/// Both sides say the same of the table through every entry.
fn everywhere(chance: &mut Chance, n: u64, words: &[u16], tally: &mut Tally) {
    let (room, table, before) = (chance.bytes(n as usize + 3), table_bytes(words), chance.of(&BEFORE));
    compare::evaluation(n, words, &room, tally);
    compare::host_evaluation(n, &table, &room, before, tally);
    compare::conflict(n, words, tally).expect("an accepted table");
    compare::host_conflict(n, &table, before, tally);
    compare::reasons(chance, n, &table, tally).expect("an accepted table");
    let trace = calls(chance, n, words);
    assert_together(&trace, &Engine, tally, n);
}

/// Both sides refuse by 5 or take it, where N is one less, and by 1, where it is 513; with N 512 they say the same everywhere.
fn at_the_limits_of_n(chance: &mut Chance, n: u64, words: &[u16], tally: &mut Tally) {
    for other in [n.saturating_sub(1), 513] {
        compare::evaluation(other, words, &[9; 513], tally);
        let _ = compare::conflict(other, words, tally);
    }
    if n < 512 {
        everywhere(chance, 512, words, tally);
    }
}

/// Each table of a kind as it is, with N at its limits, and so many times with small changes and lines of any kind; how many tables.
fn tables_of(kind: &Kind, variations: u64, tally: &mut Tally) -> usize {
    let mut chance = Chance::new(0x1de0);
    let tables = (kind.tables)();
    for (n, rules) in &tables {
        let words = encode(&numbered(rules));
        let n = *n as u64;
        everywhere(&mut chance, n, &words, tally);
        at_the_limits_of_n(&mut chance, n, &words, tally);
        for _ in 0..cases(variations) {
            let words = varied_words(&mut chance, n, rules);
            everywhere(&mut chance, n, &words, tally);
        }
    }
    tables.len()
}

fn varied_words(chance: &mut Chance, n: u64, rules: &[Rule]) -> Vec<u16> {
    let rules = varied(chance, n as usize, rules);
    let lines = chance.of(&random::ALL_LINES);
    encode(&random::with_lines(chance, &rules, lines))
}

/// Met in tables of every kind.
const OUTCOMES: [&str; 14] = [
    "evaluate ok",
    "evaluate 1",
    "conflict yes",
    "conflict no",
    "conflict 1",
    "fresh ok",
    "pick marked",
    "pick already marked",
    "pick cannot be marked now",
    "settled yes",
    "settled no",
    "report ok",
    "report 18",
    "write ok",
];

const OF_N: [&str; 2] = ["evaluate 5", "conflict 5"];

const NOTHING: &str = "write nothing";

/// The kind of this name: so many tables, so many variations of each, these outcomes besides those of every kind, each so many times.
fn kind(name: &str, tables: usize, variations: u64, others: &[&str], least: u64) {
    let kind = KINDS.iter().find(|kind| kind.name == name).expect("a kind of this name");
    let mut tally = Tally::default();
    assert_eq!(tables_of(kind, variations, &mut tally), tables, "{name}");
    tally.expect(&[&OUTCOMES[..], others].concat(), least);
}

#[test]
fn repeated_literals() {
    kind("repeated literals", 260, 2, &[&OF_N[..], &[NOTHING]].concat(), 50);
}

#[test]
fn all_heads() {
    kind("all heads", 45, 2, &[&OF_N[..], &[NOTHING]].concat(), 10);
}

#[test]
fn shared_groups() {
    kind("shared groups", 40, 2, &[], 10);
}

#[test]
fn empty_or_one_record() {
    kind("empty, or one record", 150, 8, &[&OF_N[..], &[NOTHING, "pick 16"]].concat(), 1);
}

#[test]
fn most_groups_and_places() {
    kind("most groups and most places", 130, 1, &[&OF_N[..], &[NOTHING]].concat(), 20);
}

#[test]
fn chains() {
    kind("chains", 326, 1, &[&OF_N[..], &[NOTHING]].concat(), 20);
}

#[test]
fn only_in_the_first_place_or_in_the_last() {
    kind("only in the first place, or in the last", 64, 2, &[&OF_N[..], &[NOTHING]].concat(), 10);
}

#[test]
fn whole_by_a_mark() {
    kind("whole by a mark", 100, 4, &[&OF_N[..], &[NOTHING]].concat(), 1);
}

fn places_of_0(rules: &[Rule]) -> usize {
    rules.iter().flat_map(|rule| rule.groups.iter().flatten()).filter(|&&literal| literal == 0).count()
}

#[test]
fn the_tables_are_as_large_as_they_can_be() {
    let most = |of: fn(&[Rule]) -> usize| KINDS.iter().flat_map(|kind| (kind.tables)()).map(|(_, rules)| of(&rules)).max();
    assert_eq!(most(<[Rule]>::len), Some(1024), "heads");
    assert_eq!(most(words), Some(8192), "words");
    assert_eq!(most(|rules| rules.iter().map(|rule| rule.groups.len()).sum()), Some(4001), "groups");
    assert_eq!(most(|rules| rules.iter().flat_map(|rule| &rule.groups).map(Vec::len).sum()), Some(8060), "places");
    // Of one literal; with the fact that it is.
    assert_eq!(most(places_of_0), Some(8060), "places of one literal");
    assert_eq!(most(|rules| if rules.contains(&fact(0)) { places_of_0(rules) } else { 0 }), Some(8057), "places of a fact");
}
