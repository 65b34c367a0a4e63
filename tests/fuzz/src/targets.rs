//! The six things that are tried: evaluation, the question of conflict, the writer and the check of reason sheets, the sheet entry, the
//! program.

use std::fs::{self, File};
use std::path::PathBuf;
use std::process::{Command, Stdio};
use std::sync::atomic::{AtomicU64, Ordering};

use against::pages::Pages;
use second::host::whole_words;
use second::random::{self, Chance};

use crate::{Case, Outcome, Target, alter};

fn packed_kind(outcome: &Outcome) -> String {
    match outcome.answer >> 32 {
        0 => "ok".to_string(),
        number => number.to_string(),
    }
}

/// The kind of a table's outcome, with more said of 6 at a line.
fn table_kind(table: &[u8], outcome: &Outcome) -> String {
    let kind = packed_kind(outcome);
    let place = (outcome.answer & 0xffff_ffff) as usize;
    if kind == "6" && random::line_places(&whole_words(table).0).contains(&place) { "6, at a line".to_string() } else { kind }
}

/// The kind of a sheet's outcome, with more said where some names stand only in bodies: of an accepted sheet, and of 15 in a text room
/// of so many bytes that the lines of the heads alone would fit.
fn sheet_kind(kind: String, sheet: &[u8], room: usize) -> String {
    let (heads, others) = random::heads_and_others(sheet);
    match kind.as_str() {
        "ok" if !others.is_empty() => "ok, names only in bodies".to_string(),
        "15" if room >= random::lines_length(&heads) => "15, room for the heads".to_string(),
        _ => kind,
    }
}

/// Which page a case's buffers lie against; both for small and for large ones.
fn behind(case: &Case) -> bool {
    case.bytes.iter().fold(case.n, |sum, &byte| sum.wrapping_mul(31).wrapping_add(byte.into())) % 4 != 0
}

/// N and the bytes of a table, altered.
fn draw_table(chance: &mut Chance) -> (u64, Vec<u8>) {
    let (n, words) = random::any_table(chance);
    let (_, other) = random::small_table(chance, 6);
    let bytes = random::table_bytes(&words);
    let mut bytes = alter::table(chance, bytes, &random::table_bytes(&other));
    bytes.truncate(200_000);
    (if chance.one_in(20) { random::awkward_number(chance, n) } else { n }, bytes)
}

pub fn evaluation() -> Target {
    let (mut table, mut values) = (Pages::default(), Pages::default());
    Target {
        name: "evaluate",
        draw: |chance| {
            let (n, bytes) = draw_table(chance);
            let room = random::value_room(chance, n);
            Case { n, bytes, lent: vec![room] }
        },
        engine: Box::new(move |case| {
            let behind = behind(case);
            let answer = against::host::evaluate(
                case.n,
                table.read_only(&case.bytes, behind),
                values.to_write(&case.lent[0], behind),
            );
            Outcome { answer, left: vec![values.lent().to_vec()] }
        }),
        second: |case| {
            let mut values = case.lent[0].clone();
            let answer = second::host::simmerknot_evaluate(case.n, &case.bytes, &mut values);
            Outcome { answer, left: vec![values] }
        },
        kind: |case, outcome| table_kind(&case.bytes, outcome),
        kinds: &["ok", "1", "2", "3", "4", "5", "6", "6, at a line", "7"],
    }
}

pub fn conflict() -> Target {
    let mut table = Pages::default();
    Target {
        name: "conflict",
        draw: |chance| {
            let (n, bytes) = draw_table(chance);
            Case { n, bytes, lent: Vec::new() }
        },
        engine: Box::new(move |case| {
            let answer = against::host::conflict(case.n, table.read_only(&case.bytes, behind(case)));
            Outcome { answer, left: Vec::new() }
        }),
        second: |case| Outcome { answer: second::host::simmerknot_conflict(case.n, &case.bytes), left: Vec::new() },
        kind: |case, outcome| match outcome.answer {
            0 => "no".to_string(),
            1 => "yes".to_string(),
            _ => table_kind(&case.bytes, outcome),
        },
        kinds: &["yes", "no", "1", "2", "4", "5", "6", "6, at a line", "7"],
    }
}

/// The engine's sheet is its own choice, so it is judged here, and the outcome is what every good writer has: the refusal before 15, or 0
/// if the sheet is good, is in the room as far as it fits, and all else stays. Anything else is told by `u64::MAX`.
fn judged(case: &Case, answer: u64, left: &[u8], whole: &[u8]) -> Outcome {
    let room = &case.lent[0];
    if second::host::refused_writing(case.n, &case.bytes).is_some() {
        return Outcome { answer, left: vec![left.to_vec()] };
    }
    let good = second::reasons::check_written(case.n, &whole_words(&case.bytes).0, whole).is_ok();
    let length = whole.len();
    let expected = if length <= room.len() {
        (length as u64, [whole, &room[length..]].concat())
    } else {
        ((15 << 32) + length as u64, room.clone())
    };
    if good && (answer, left) == (expected.0, &expected.1[..]) {
        Outcome { answer: 0, left: Vec::new() }
    } else {
        Outcome { answer: u64::MAX, left: vec![left.to_vec()] }
    }
}

/// The writer of reason sheets. The second implementation writes none, so it answers 0 for every good one.
pub fn reasons() -> Target {
    let (mut table, mut text) = (Pages::default(), Pages::default());
    Target {
        name: "reasons",
        draw: |chance| {
            let (n, bytes) = draw_table(chance);
            let length = chance.of(&[0, 1, 8, 40, 200, 18_432]) + chance.index(9);
            Case { n, bytes, lent: vec![chance.bytes(length)] }
        },
        engine: Box::new(move |case| {
            let behind = behind(case);
            let lent = table.read_only(&case.bytes, behind);
            let answer = against::host::reasons(case.n, lent, text.to_write(&case.lent[0], behind));
            let left = text.lent().to_vec();
            // The whole sheet, in as much room as no room is told.
            let told = against::host::reasons(case.n, lent, text.to_write(&[], behind));
            let length = if told >> 32 == 15 { told as u32 as usize } else { 0 };
            let served = against::host::reasons(case.n, lent, text.to_write(&vec![0x5a; length], behind));
            let whole = if served == length as u64 { text.lent().to_vec() } else { b"not served".to_vec() };
            judged(case, answer, &left, &whole)
        }),
        second: |case| match second::host::refused_writing(case.n, &case.bytes) {
            Some(answer) => Outcome { answer, left: case.lent.clone() },
            None => Outcome { answer: 0, left: Vec::new() },
        },
        kind: |case, outcome| table_kind(&case.bytes, outcome),
        kinds: &["ok", "1", "2", "4", "5", "6", "6, at a line", "7"],
    }
}

/// N, the bytes of a table, values and a text, each now and then altered.
fn draw_reasons(chance: &mut Chance) -> Case {
    let random::Claimed { n, words, values, text } = random::any_reasons(chance);
    let other = random::any_reasons(chance);
    let mut bytes = random::table_bytes(&words);
    if chance.one_in(4) {
        bytes = alter::table(chance, bytes, &random::table_bytes(&other.words));
        bytes.truncate(200_000);
    }
    let text = if chance.one_in(4) { alter::reasons(chance, text, &other.text) } else { text };
    let n = if chance.one_in(40) { random::awkward_number(chance, n) } else { n };
    Case { n, bytes, lent: vec![values, text] }
}

pub fn check_reasons() -> Target {
    let mut pages: [Pages; 3] = Default::default();
    Target {
        name: "check",
        draw: draw_reasons,
        engine: Box::new(move |case| {
            let behind = behind(case);
            let [table, values, text] = &mut pages;
            let answer = against::host::check_reasons(
                case.n,
                table.read_only(&case.bytes, behind),
                values.read_only(&case.lent[0], behind),
                text.read_only(&case.lent[1], behind),
            );
            Outcome { answer, left: Vec::new() }
        }),
        second: |case| {
            let answer = second::host::simmerknot_check_reasons(case.n, &case.bytes, &case.lent[0], &case.lent[1]);
            Outcome { answer, left: Vec::new() }
        },
        kind: |case, outcome| table_kind(&case.bytes, outcome),
        kinds: &["ok", "1", "2", "3", "4", "5", "6", "6, at a line", "7", "20", "21", "22", "34"],
    }
}

fn draw_sheet(chance: &mut Chance) -> Vec<u8> {
    let drawn = if chance.one_in(2) { random::any_sheet(chance) } else { random::accepted_sheet(chance) };
    let other = random::accepted_sheet(chance);
    let mut bytes = alter::sheet(chance, drawn, &other);
    bytes.truncate(200_000);
    bytes
}

fn second_sheet(case: &Case) -> Outcome {
    let mut left = case.lent.clone();
    let [words, names, text] = &mut left[..] else { panic!("three buffers") };
    let answer = second::host::simmerknot_sheet(&case.bytes, words, names, text);
    Outcome { answer, left }
}

pub fn sheet() -> Target {
    let mut pages: [Pages; 4] = Default::default();
    Target {
        name: "sheet",
        draw: |chance| {
            let bytes = draw_sheet(chance);
            let lent = vec![random::word_bytes(chance), random::name_bytes(chance), random::text_room(chance, &bytes)];
            Case { n: 0, bytes, lent }
        },
        engine: Box::new(move |case| {
            let behind = behind(case);
            let [sheet, words, names, text] = &mut pages;
            let answer = against::host::sheet(
                sheet.read_only(&case.bytes, behind),
                words.to_write(&case.lent[0], behind),
                names.to_write(&case.lent[1], behind),
                text.to_write(&case.lent[2], behind),
            );
            Outcome { answer, left: pages[1..].iter().map(|pages| pages.lent().to_vec()).collect() }
        }),
        second: second_sheet,
        kind: |case, outcome| sheet_kind(packed_kind(outcome), &case.bytes, case.lent[2].len()),
        kinds: &[
            "ok", "ok, names only in bodies", "7", "8", "9", "10", "11", "12", "13", "14", "15", "15, room for the heads",
        ],
    }
}

/// The program at that path, its standard input a file of the case's bytes.
pub fn program(path: PathBuf) -> Target {
    static MADE: AtomicU64 = AtomicU64::new(0);
    let made = MADE.fetch_add(1, Ordering::Relaxed);
    let input = std::env::temp_dir().join(format!("simmerknot-fuzz-{}-{made}", std::process::id()));
    Target {
        name: "program",
        draw: |chance| Case { n: 0, bytes: draw_sheet(chance), lent: Vec::new() },
        engine: Box::new(move |case| {
            fs::write(&input, &case.bytes).expect("a temporary file");
            let stdin = File::open(&input).expect("the temporary file");
            let run = Command::new(&path).stdin(stdin).stderr(Stdio::null()).output();
            let run = run.unwrap_or_else(|error| panic!("{}: {error}", path.display()));
            fs::remove_file(&input).expect("the temporary file");
            // A program that a signal ended has no code.
            Outcome { answer: run.status.code().map_or(u64::MAX, |code| code as u64), left: vec![run.stdout] }
        }),
        second: |case| Outcome { answer: 0, left: vec![second::program::output(&case.bytes)] },
        // A value sheet may begin with a name "refused", but has no number after it.
        kind: |case, outcome| {
            let printed = String::from_utf8_lossy(&outcome.left[0]);
            let number = printed.strip_prefix("refused\t").and_then(|rest| rest.split('\t').next()).unwrap_or("");
            let kind = if number.parse::<u32>().is_ok() { number } else { "ok" };
            sheet_kind(kind.to_string(), &case.bytes, usize::MAX)
        },
        kinds: &["ok", "ok, names only in bodies", "7", "8", "10", "11", "12", "13", "14"],
    }
}
