//! The program's whole time beside clingo's on the same rules: `tests/bench-clingo`.
//!
//! First equal values: P1 to P12, 200 small random tables, then each table to measure on; clingo's for every atom, the program's for
//! every name of the sheet, so for each atom that occurs. Then whole times, from the start of the process to its end with its output
//! read: the program on the table as a sheet, clingo on encoding.lp and the table as facts. They take turns; the ratio is that of the
//! medians. A table on which clingo takes longer than the limit has no ratio.

use std::collections::HashSet;
use std::fmt::Write;
use std::fs::{self, File};
use std::iter;
use std::path::{Path, PathBuf};
use std::process::{Command, exit};
use std::time::{Duration, Instant};

use second::random::{Chance, small_table};
use second::tables::{EXAMPLES, MEASURED};
use second::table::{Rule, rules_of};
use second::truth::{F, I, T, U, letter};

/// Seconds that clingo may take for one table.
const LIMIT: u64 = 60;

/// The rules as facts for encoding.lp.
fn facts(rules: &[Rule]) -> String {
    let mut text = String::new();
    let mut group_number = 0;
    for rule in rules {
        if rule.groups.is_empty() {
            writeln!(text, "fact({}).", rule.head).unwrap();
        }
        for group in &rule.groups {
            write!(text, "group({},{group_number}).", rule.head).unwrap();
            for literal in group {
                write!(text, " in({group_number},{literal}).").unwrap();
            }
            writeln!(text).unwrap();
            group_number += 1;
        }
    }
    text
}

/// The rules as a sheet, atom a by the name "n" and its number.
fn sheet(rules: &[Rule]) -> String {
    let show = |literal: &usize| format!("{}n{}", if literal % 2 == 1 { "-" } else { "" }, literal / 2);
    let mut text = String::new();
    for rule in rules {
        text += &show(&rule.head);
        for group in &rule.groups {
            text += "\t";
            text += &group.iter().map(show).collect::<Vec<_>>().join(" ");
        }
        text += "\n";
    }
    text
}

/// The value sheet of that sheet: the atoms that occur, by first appearance.
fn value_sheet(rules: &[Rule], values: &[u8]) -> String {
    let mut text = String::new();
    let mut met = HashSet::new();
    for literal in rules.iter().flat_map(|rule| iter::once(&rule.head).chain(rule.groups.iter().flatten())) {
        let atom = literal / 2;
        if met.insert(atom) {
            writeln!(text, "n{atom}\t{}", letter(values[atom]) as char).unwrap();
        }
    }
    text
}

struct Side {
    folder: PathBuf,
    program: PathBuf,
}

impl Side {
    /// What the program printed, and its whole time.
    fn simmer(&self) -> (String, Duration) {
        let input = File::open(self.folder.join("sheet")).expect("the sheet");
        let started = Instant::now();
        let run = Command::new(&self.program).stdin(input).output();
        let run = run.unwrap_or_else(|error| stop(&format!("{}: {error}", self.program.display())));
        let took = started.elapsed();
        (String::from_utf8(run.stdout).expect("a value sheet"), took)
    }

    /// The last answer that clingo printed, and its whole time; nothing if it took too long.
    fn clingo(&self) -> (Option<String>, Duration) {
        let encoding = Path::new(env!("CARGO_MANIFEST_DIR")).join("encoding.lp");
        let started = Instant::now();
        let run = Command::new("clingo")
            .args(["--enum-mode=cautious", "--quiet=1", "--verbose=1", "0", &format!("--time-limit={LIMIT}")])
            .arg(encoding)
            .arg(self.folder.join("facts.lp"))
            .output();
        let run = run.unwrap_or_else(|error| stop(&format!("clingo (Debian's package gringo): {error}")));
        let took = started.elapsed();
        match run.status.code() {
            // Satisfiable, and all was searched.
            Some(30) => {
                let printed = String::from_utf8(run.stdout).expect("an answer");
                let lines: Vec<&str> = printed.lines().collect();
                let last = lines.iter().rposition(|line| line.starts_with("Answer:")).expect("an answer");
                (Some(lines[last + 1].to_string()), took)
            }
            Some(1 | 11) => (None, took),
            other => stop(&format!("clingo ended with {other:?}: {}", String::from_utf8_lossy(&run.stderr))),
        }
    }

    fn lay(&self, rules: &[Rule]) {
        fs::write(self.folder.join("sheet"), sheet(rules)).expect("a temporary file");
        fs::write(self.folder.join("facts.lp"), facts(rules)).expect("a temporary file");
    }

    /// Whether clingo finished; both sides' values must be these.
    fn agree(&self, name: &str, rules: &[Rule], values: &[u8]) -> bool {
        self.lay(rules);
        if self.simmer().0 != value_sheet(rules, values) {
            stop(&format!("{name}: the program's values differ"));
        }
        let Some(answer) = self.clingo().0 else { return false };
        let holds: HashSet<&str> = answer.split(' ').collect();
        for (atom, &value) in values.iter().enumerate() {
            let marked = holds.contains(format!("marked({atom})").as_str());
            let held = [0, 1].map(|sign| holds.contains(format!("held({})", 2 * atom + sign).as_str()));
            let found = match (marked, held) {
                (true, _) => I,
                (false, [true, _]) => T,
                (false, [false, true]) => F,
                (false, [false, false]) => U,
            };
            if found != value {
                stop(&format!("{name}: atom {atom} is {} by clingo, not {}", letter(found) as char, letter(value) as char));
            }
        }
        true
    }
}

fn stop(why: &str) -> ! {
    eprintln!("{why}");
    exit(1)
}

fn evaluated(n: u64, words: &[u16]) -> (Vec<Rule>, Vec<u8>) {
    let mut values = vec![0; n as usize];
    second::model::evaluate(n, words, &mut values).expect("an accepted table");
    (rules_of(n, words).expect("an accepted table"), values)
}

fn median(mut times: Vec<Duration>) -> f64 {
    times.sort_unstable();
    times[times.len() / 2].as_secs_f64()
}

fn main() {
    let folder = std::env::temp_dir().join(format!("simmerknot-clingo-{}", std::process::id()));
    fs::create_dir(&folder).expect("a temporary folder");
    let program = Path::new(env!("CARGO_MANIFEST_DIR")).join("../../crates/simmer/out/simmer");
    let side = Side { folder: folder.clone(), program };

    for example in EXAMPLES {
        let table = example.table();
        let (rules, values) = evaluated(table.n(), &table.words());
        assert_eq!(values, example.values_in_order());
        if !side.agree(example.name, &rules, &values) {
            stop(&format!("{}: clingo took too long", example.name));
        }
    }
    let mut chance = Chance::new(0xc1);
    let mut met = [0; 4];
    for i in 0..200 {
        let (n, words) = small_table(&mut chance, 12);
        let (rules, values) = evaluated(n, &words);
        values.iter().for_each(|&value| met[value as usize] += 1);
        if !side.agree(&format!("random table {i}"), &rules, &values) {
            stop(&format!("random table {i}: clingo took too long"));
        }
    }
    assert!(met.iter().all(|&times| times > 50), "values met: {met:?}");
    eprintln!("equal values on P1 to P12 and 200 random tables (f, u, i, t: {met:?})");

    println!("| table | equal values | clingo / program |");
    println!("|---|---|---:|");
    for measured in MEASURED {
        let (n, words) = (measured.table)();
        let (rules, values) = evaluated(n, &words);
        if !side.agree(measured.name, &rules, &values) {
            println!("| {} | not finished in {LIMIT} s | |", measured.name);
            continue;
        }
        let (mut ours, mut theirs) = (Vec::new(), Vec::new());
        let started = Instant::now();
        while ours.len() < 3 || (ours.len() < 21 && started.elapsed() < Duration::from_secs(10)) {
            ours.push(side.simmer().1);
            let (answer, took) = side.clingo();
            if answer.is_some() {
                theirs.push(took);
            }
        }
        println!("| {} | yes | {:.2} |", measured.name, median(theirs) / median(ours));
    }
    fs::remove_dir_all(folder).expect("the temporary folder");
}
