//! Accepted tables that differ only in line words: the engine answers the same and leaves the same, and so does the second implementation.

use against::cases::cases;
use against::entries::{Answer, Engine, Entries, MARKED, NO_GROUP, Second, unpacked};
use against::guard::Guarded;
use against::host;
use second::host::{simmerknot_conflict, simmerknot_evaluate};
use second::marking::MarkRecord;
use second::random::{self, ALL_LINES, Chance, table_bytes};
use second::refusal::Refusal;
use second::table::{encode, rules_of};
use second::tables::{EXAMPLES, MEASURED};

/// The host's entries of one side that are lent a table.
struct Host {
    evaluate: fn(u64, &[u8], &mut [u8]) -> u64,
    conflict: fn(u64, &[u8]) -> u64,
}

const ENGINE_HOST: Host = Host { evaluate: engine_evaluate, conflict: engine_conflict };

const SECOND_HOST: Host = Host { evaluate: simmerknot_evaluate, conflict: simmerknot_conflict };

fn engine_evaluate(n: u64, table: &[u8], values: &mut [u8]) -> u64 {
    let lent = Guarded::new(table, 13);
    let mut room = Guarded::new(values, 13);
    let answer = host::evaluate(n, lent.row(), room.row_mut());
    room.check();
    assert!(lent == Guarded::new(table, 13), "the table was altered");
    values.copy_from_slice(room.row());
    answer
}

fn engine_conflict(n: u64, table: &[u8]) -> u64 {
    let lent = Guarded::new(table, 13);
    let answer = host::conflict(n, lent.row());
    assert!(lent == Guarded::new(table, 13), "the table was altered");
    answer
}

/// What one side says of a table, and all that it leaves.
#[derive(Debug, PartialEq, Eq)]
struct Said {
    check: Answer,
    picks: Vec<(Answer, MarkRecord)>,
    settled: Vec<Answer>,
    reports: Vec<(Answer, Vec<u8>)>,
    evaluation: (Answer, Vec<u8>),
    host: (u64, Vec<u8>),
    conflict: Answer,
    host_conflict: u64,
    groups: Vec<Answer>,
}

/// Picks from a fresh record or from one by hand, with questions and reports between them; then both evaluations, the question of
/// conflict in both ways, and which group of some records is wholly in a set.
fn said(side: &impl Entries, host: Host, n: u64, words: &[u16], seed: u64, picks_made: u64) -> Said {
    let mut chance = Chance::new(seed);
    let mut record = if chance.one_in(2) { side.fresh(n).0 } else { random::record(&mut chance, n) };
    let (mut picks, mut settled, mut reports) = (Vec::new(), Vec::new(), Vec::new());
    for _ in 0..picks_made {
        let atom = random::any_atom(&mut chance, n);
        let picked = side.pick(&mut record, words, atom);
        picks.push((picked, record));
        settled.push(side.settled(&record, words));
        let mut room = random::value_room(&mut chance, n);
        reports.push((side.report(&record, words, &mut room), room));
    }
    let mut room = random::value_room(&mut chance, n);
    let mut host_room = room.clone();
    let evaluated = side.evaluate(n, words, &mut room);
    let hosted = (host.evaluate)(n, &table_bytes(words), &mut host_room);
    let heads = random::head_places(words);
    let group = |_| {
        let tail = &words[heads.get(chance.index(heads.len() + 1)).copied().unwrap_or(words.len())..];
        side.which_group(n, tail, &random::any_set(&mut chance, n, tail))
    };
    Said {
        check: side.check(n, words),
        picks,
        settled,
        reports,
        evaluation: (evaluated, room),
        host: (hosted, host_room),
        conflict: side.conflict(n, words),
        host_conflict: (host.conflict)(n, &table_bytes(words)),
        groups: (0..3).map(group).collect(),
    }
}

/// Both tables through both sides; what they all say.
fn compare(n: u64, words: &[u16], other: &[u16], seed: u64, picks: u64) -> Said {
    let expected = said(&Second, SECOND_HOST, n, words, seed, picks);
    assert_eq!(said(&Second, SECOND_HOST, n, other, seed, picks), expected, "second: N {n}, {words:?}, {other:?}");
    for words in [words, other] {
        assert_eq!(said(&Engine, ENGINE_HOST, n, words, seed, picks), expected, "engine: N {n}, {words:?}");
    }
    assert_eq!(expected.conflict, unpacked(expected.host_conflict), "N {n}, {words:?}");
    expected
}

/// What pairs with lines that differ were met with.
#[derive(Debug, Default)]
struct Met {
    pairs: u64,
    lines: u64,
    values: [u64; 4],
    marks: u64,
    settled: [u64; 2],
    reports: u64,
    before_settled: u64,
    rooms_too_small: u64,
    conflicts: [u64; 2],
    /// 0, 1, a higher number, none, no record.
    groups: [u64; 5],
}

impl Met {
    fn note(&mut self, n: u64, differing: usize, said: &Said) {
        self.pairs += 1;
        self.lines += differing as u64;
        if said.host.0 == 0 {
            said.host.1[..n as usize].iter().for_each(|&value| self.values[value as usize] += 1);
        }
        self.marks += said.picks.iter().filter(|(answer, _)| *answer == Ok(MARKED)).count() as u64;
        said.settled.iter().flatten().for_each(|&yes| self.settled[yes as usize] += 1);
        self.reports += said.reports.iter().filter(|(answer, _)| answer.is_ok()).count() as u64;
        self.before_settled += said.reports.iter().filter(|(answer, _)| *answer == Err(Refusal { number: 18, place: 0 })).count() as u64;
        self.rooms_too_small += (said.host.0 == 3 << 32) as u64;
        self.conflicts[said.host_conflict as usize] += 1;
        for &group in said.groups.iter().flatten() {
            self.groups[if group < NO_GROUP { group.min(2) } else { 3 + group - NO_GROUP } as usize] += 1;
        }
    }
}

/// So many pairs with tables drawn like this.
fn pairs(seed: u64, count: u64, picks: u64, table: fn(&mut Chance) -> (u64, Vec<u16>)) -> Met {
    let mut met = Met::default();
    for case in 0..count {
        let mut chance = Chance::new(seed + case);
        let (n, words) = table(&mut chance);
        let other = random::other_lines(&mut chance, n, &words);
        let said = compare(n, &words, &other, seed + case, picks);
        assert_eq!(said.check, Ok(0));
        let differing = (0..words.len()).filter(|&at| words[at] != other[at]).count();
        if differing > 0 {
            met.note(n, differing, &said);
        }
    }
    println!("{met:?}");
    met
}

#[test]
fn small_tables() {
    let met = pairs(6 << 40, cases(30_000), 12, |chance| random::small_table(chance, 6));
    assert!(met.pairs > cases(20_000) && met.lines > cases(100_000), "{met:?}");
    assert!(met.values.iter().all(|&count| count > cases(5_000)) && met.marks > cases(10_000), "{met:?}");
    assert!(met.settled.iter().all(|&count| count > cases(30_000)) && met.reports > cases(100_000), "{met:?}");
    assert!(met.before_settled > cases(20_000) && met.rooms_too_small > cases(2_000), "{met:?}");
    assert!(met.conflicts.iter().all(|&count| count > cases(5_000)), "{met:?}");
    assert!(met.groups.iter().all(|&count| count > cases(2_000)), "{met:?}");
}

#[test]
fn large_tables() {
    let met = pairs(7 << 40, cases(150), 12, random::large_table);
    assert!(met.pairs > cases(100) && met.lines > cases(10_000), "{met:?}");
    assert!(met.values.iter().all(|&count| count > cases(1_000)) && met.marks > cases(50), "{met:?}");
    assert!(met.settled.iter().all(|&count| count > cases(50)) && met.reports > cases(50) && met.before_settled > cases(500), "{met:?}");
    assert!(met.conflicts.iter().all(|&count| count > cases(10)), "{met:?}");
    assert!(met.groups[..4].iter().all(|&count| count > cases(5)), "{met:?}");
}

#[test]
fn the_examples_and_the_measured_tables_with_lines_of_each_kind() {
    let tables = EXAMPLES.iter().map(|example| (example.table().n(), example.table().words()));
    let mut differing = 0;
    for (n, words) in tables.chain(MEASURED.iter().map(|measured| (measured.table)())) {
        let rules = rules_of(n, &words).expect("an accepted table");
        for lines in ALL_LINES {
            let other = encode(&random::with_lines(&mut Chance::new(n), &rules, lines));
            compare(n, &words, &other, n, 2);
            differing += (words != other) as u32;
        }
    }
    // All but P1, and 1, 2, 3 .., which they have.
    assert!(differing >= 22 * 3, "{differing}");
}
