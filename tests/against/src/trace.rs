//! Lists of calls under one record, replayed on two engines side by side.

use std::fmt;

use second::marking::MarkRecord;
use second::model;
use second::random::{self, Chance};
use second::table;

use crate::cases::Tally;
use crate::entries::{ALREADY_MARKED, Answer, Entries, MARKED, Second};
use crate::shrink::{fewer_bits, smaller, smaller_record, smaller_table, without_parts};
use crate::{records, tables};

/// One call; a table is named by its number in the trace.
#[derive(Clone, Debug, PartialEq, Eq)]
pub enum Step {
    /// A fresh record, which is then the record.
    Fresh(u64),
    /// No call: the record is set by hand.
    Forge(MarkRecord),
    Pick { table: usize, atom: u64 },
    Settled { table: usize },
    /// No record is lent: N is the step's own.
    Conflict { n: u64, table: usize },
    /// Likewise; the table's first record is asked.
    WhichGroup { n: u64, table: usize, set: Vec<u64> },
    /// The value room holds the bytes of `filling`, from a seed.
    Report { table: usize, room: usize, filling: u64 },
    Count,
}

/// Tables, and calls that lend them; the record starts with N 0, no marks and count 0.
#[derive(Clone, Debug, PartialEq, Eq)]
pub struct Trace {
    pub tables: Vec<Vec<u16>>,
    pub steps: Vec<Step>,
}

impl fmt::Display for Trace {
    fn fmt(&self, f: &mut fmt::Formatter) -> fmt::Result {
        for (i, words) in self.tables.iter().enumerate() {
            writeln!(f, "table {i}: {words:?}")?;
        }
        for (i, step) in self.steps.iter().enumerate() {
            writeln!(f, "step {i}: {step:?}")?;
        }
        Ok(())
    }
}

/// Where two engines parted.
#[derive(Clone, Debug, PartialEq, Eq)]
pub struct Parting {
    pub step: usize,
    pub what: String,
}

/// Replays a trace on an engine and on the second implementation; the first difference in an answer, the record (its count too) or
/// the value room, if there is one.
pub fn parting(trace: &Trace, engine: &impl Entries, tally: &mut Tally) -> Option<Parting> {
    let (mut ours, mut theirs) = (MarkRecord::EMPTY, MarkRecord::EMPTY);
    for (i, step) in trace.steps.iter().enumerate() {
        let differs = |what: String| Some(Parting { step: i, what });
        let lent = theirs;
        let (left, right) = match *step {
            Step::Fresh(n) => {
                let (left, right);
                (ours, left) = engine.fresh(n);
                (theirs, right) = Second.fresh(n);
                tally.answer("fresh", &right);
                (left, right)
            }
            Step::Forge(record) => {
                (ours, theirs) = (record, record);
                (Ok(0), Ok(0))
            }
            Step::Pick { table, atom } => {
                let words = &trace.tables[table];
                let left = engine.pick(&mut ours, words, atom);
                let right = Second.pick(&mut theirs, words, atom);
                match right {
                    Ok(MARKED) => tally.note("pick marked"),
                    Ok(ALREADY_MARKED) => tally.note("pick already marked"),
                    Ok(_) => tally.note("pick cannot be marked now"),
                    Err(_) => tables::note(tally, "pick", words, &right),
                }
                records::note(tally, "pick", &lent, &right, |mut record| Second.pick(&mut record, words, atom));
                (left, right)
            }
            Step::Settled { table } => {
                let words = &trace.tables[table];
                let right = Second.settled(&theirs, words);
                tables::note_question(tally, "settled", words, &right);
                records::note(tally, "settled", &lent, &right, |record| Second.settled(&record, words));
                (engine.settled(&ours, words), right)
            }
            Step::Conflict { n, table } => {
                let words = &trace.tables[table];
                let right = Second.conflict(n, words);
                tables::note_question(tally, "conflict", words, &right);
                (engine.conflict(n, words), right)
            }
            Step::WhichGroup { n, table, ref set } => {
                let words = &trace.tables[table];
                let right = Second.which_group(n, words, set);
                tables::note_group(tally, "which", words, &right);
                (engine.which_group(n, words, set), right)
            }
            Step::Report { table, room, filling } => {
                let words = &trace.tables[table];
                let mut values = Chance::new(filling).bytes(room);
                let mut expected = values.clone();
                let left = engine.report(&ours, words, &mut values);
                let right = Second.report(&theirs, words, &mut expected);
                tables::note(tally, "report", words, &right);
                records::note(tally, "report", &lent, &right, |record| Second.report(&record, words, &mut vec![0; room]));
                if values != expected {
                    return differs(format!("value room: {values:?}, not {expected:?}"));
                }
                (left, right)
            }
            Step::Count => {
                let right = Second.mark_count(&theirs);
                tally.answer("count", &right);
                records::note(tally, "count", &lent, &right, |record| Second.mark_count(&record));
                (engine.mark_count(&ours), right)
            }
        };
        if left != right {
            return differs(format!("answer: {left:?}, not {right:?}"));
        }
        if ours != theirs {
            return differs(format!("record: {ours:?}, not {theirs:?}"));
        }
    }
    None
}

/// Stops with the shortest trace found if the engine parts from the second implementation.
pub fn assert_together(trace: &Trace, engine: &impl Entries, tally: &mut Tally, seed: u64) {
    if let Some(parting) = parting(trace, engine, tally) {
        let (short, parting) = shortest(trace, parting, engine);
        panic!("seed {seed}, shortest trace:\n{short}at step {}, {}", parting.step, parting.what);
    }
}

/// A trace that still parts, of which no step, no word and no mark can be left out, nor a wrong count put right.
pub fn shortest(trace: &Trace, first: Parting, engine: &impl Entries) -> (Trace, Parting) {
    let parts = |trace: &Trace| parting(trace, engine, &mut Tally::default());
    let mut best = trace.clone();
    best.steps.truncate(first.step + 1);
    loop {
        let before = best.clone();
        let tables = best.tables.clone();
        best.steps = without_parts(&best.steps, |steps| {
            parts(&Trace { tables: tables.clone(), steps: steps.to_vec() }).is_some()
        });
        best.steps = from_a_record(&best, |trace| parts(trace).is_some());
        for table in 0..best.tables.len() {
            let mut tried = best.clone();
            best.tables[table] = smaller_table(&best.tables[table], |words| {
                tried.tables[table] = words.to_vec();
                parts(&tried).is_some()
            });
        }
        for step in 0..best.steps.len() {
            simplify(&mut best, step, |trace| parts(trace).is_some());
        }
        if best == before {
            let parting = parts(&best).expect("only parting traces are kept");
            return (best, parting);
        }
    }
}

/// The steps with those in front, as many as can, replaced by the record that the second implementation reaches with them.
fn from_a_record(trace: &Trace, mut fails: impl FnMut(&Trace) -> bool) -> Vec<Step> {
    let with_record = |at: usize| [&[Step::Forge(reached(trace, at))], &trace.steps[at..]].concat();
    let shorter = (2..trace.steps.len()).rev().map(with_record);
    let mut failing = shorter.filter(|steps| fails(&Trace { tables: trace.tables.clone(), steps: steps.clone() }));
    failing.next().unwrap_or_else(|| trace.steps.clone())
}

/// The record after so many steps, by the second implementation.
fn reached(trace: &Trace, steps: usize) -> MarkRecord {
    let mut record = MarkRecord::EMPTY;
    for step in &trace.steps[..steps] {
        match *step {
            Step::Fresh(n) => record = Second.fresh(n).0,
            Step::Forge(forged) => record = forged,
            Step::Pick { table, atom } => drop(Second.pick(&mut record, &trace.tables[table], atom)),
            _ => {}
        }
    }
    record
}

/// Makes the numbers of a step smaller, as far as it goes.
fn simplify(trace: &mut Trace, step: usize, mut fails: impl FnMut(&Trace) -> bool) {
    let mut with = |changed: Step| {
        let mut tried = trace.clone();
        tried.steps[step] = changed;
        fails(&tried)
    };
    let simpler = match trace.steps[step] {
        Step::Fresh(n) => Step::Fresh(smaller(n, |n| with(Step::Fresh(n)))),
        Step::Forge(record) => Step::Forge(smaller_record(record, |record| with(Step::Forge(record)))),
        Step::Pick { table, atom } => {
            Step::Pick { table, atom: smaller(atom, |atom| with(Step::Pick { table, atom })) }
        }
        Step::Report { table, room, filling } => {
            let report = |room: u64| Step::Report { table, room: room as usize, filling };
            report(smaller(room as u64, |room| with(report(room))))
        }
        Step::Conflict { n, table } => Step::Conflict { n: smaller(n, |n| with(Step::Conflict { n, table })), table },
        Step::WhichGroup { n, table, ref set } => {
            let asked = |n: u64, set: &[u64]| Step::WhichGroup { n, table, set: set.to_vec() };
            let set = without_parts(set, |set| with(asked(n, set)));
            let set = fewer_bits(&set, |set| with(asked(n, set)));
            asked(smaller(n, |n| with(asked(n, &set))), &set)
        }
        Step::Settled { table } => Step::Settled { table },
        Step::Count => Step::Count,
    };
    trace.steps[step] = simpler;
}

/// How a trace is drawn.
#[derive(Clone, Copy, Debug)]
pub struct Plan {
    /// How a table is drawn.
    pub table: fn(&mut Chance) -> (u64, Vec<u16>),
    /// Most tables lent to one record.
    pub tables: u64,
    /// Percent of tables that are damaged.
    pub damaged: u64,
    /// Percent of steps that set the record by hand.
    pub forged: u64,
    /// Calls after the first.
    pub steps: u64,
}

/// A fresh record, then calls at random.
pub fn random_trace(chance: &mut Chance, plan: Plan) -> Trace {
    let (n, first) = (plan.table)(chance);
    let mut tables = vec![first];
    for _ in 1..chance.between(1, plan.tables) {
        tables.push((plan.table)(chance).1);
    }
    for words in tables.iter_mut() {
        if chance.percent(plan.damaged) {
            if chance.one_in(6) {
                random::damage_record(chance, n, words);
            } else {
                let damage = chance.of(&random::TABLE_DAMAGES[1..]);
                random::damage_table(chance, &mut n.clone(), words, damage);
            }
        }
    }
    let mut steps = vec![Step::Fresh(n)];
    for _ in 0..chance.between(1, plan.steps) {
        let table = chance.index(tables.len());
        steps.push(match chance.below(100) {
            _ if chance.percent(plan.forged) => Step::Forge(forged(chance, n, &tables[table])),
            0..50 => Step::Pick { table, atom: random::any_atom(chance, n) },
            50..63 => Step::Settled { table },
            63..68 => Step::Conflict { n: any_n(chance, n), table },
            68..74 => {
                let n = any_n(chance, n);
                Step::WhichGroup { n, table, set: random::any_set(chance, n, &tables[table]) }
            }
            74..90 => Step::Report { table, room: random::value_room(chance, n).len(), filling: chance.number() },
            90..98 => Step::Count,
            98 => Step::Fresh(n),
            _ => Step::Fresh(random::awkward_number(chance, n)),
        });
    }
    Trace { tables, steps }
}

/// N, once in six times another near it.
fn any_n(chance: &mut Chance, n: u64) -> u64 {
    if chance.one_in(6) { random::awkward_number(chance, n) } else { n }
}

/// A record by hand: any, refused ones among them; the settled one of the table, or a part of it, now and then with another count.
fn forged(chance: &mut Chance, n: u64, words: &[u16]) -> MarkRecord {
    match table::rules_of(n, words) {
        Ok(rules) if n <= 512 && chance.one_in(2) => {
            let marked = model::settle(n, &rules);
            let mut marks = [0; 8];
            let kept = chance.of(&[100, 100, 95, 50]);
            for atom in (0..n as usize).filter(|&atom| marked[atom]) {
                if chance.percent(kept) {
                    marks[atom / 64] |= 1 << (atom % 64);
                }
            }
            let record = MarkRecord::counted(n, marks);
            if chance.one_in(6) { MarkRecord { count: random::awkward_number(chance, record.count), ..record } } else { record }
        }
        _ => random::any_record(chance, n),
    }
}

/// Picks all atoms in passes, each in an order of its own, until the engine says settled; the passes and the record. After each pick the
/// count is the number of marks, and one more exactly if the pick marked.
pub fn passes_until_settled(engine: &impl Entries, n: u64, words: &[u16], chance: &mut Chance) -> (u64, MarkRecord) {
    let (mut record, answer) = engine.fresh(n);
    assert_eq!(answer, Ok(0));
    let mut atoms: Vec<u64> = (0..n).collect();
    let mut passes = 0;
    while engine.settled(&record, words) == Answer::Ok(0) {
        chance.shuffle(&mut atoms);
        let mut marked = false;
        for &atom in &atoms {
            let before = record.count;
            let made = engine.pick(&mut record, words, atom) == Ok(MARKED);
            assert_eq!(record.count, before + u64::from(made), "N {n}, words {words:?}");
            assert_eq!(record.count, record.number_of_marks(), "N {n}, words {words:?}");
            marked |= made;
        }
        assert!(marked, "a pass before settled marks at least one");
        passes += 1;
        assert!(passes <= n, "N passes settle");
    }
    (passes, record)
}
