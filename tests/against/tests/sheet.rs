//! The sheet entry over words and name entries: the answer, every entry and every byte afterwards.

use against::cases::{Tally, cases};
use against::compare::sheet as compare;
use against::sheets::{self, MANY_LINES, NOT_BY_TWO, ONLY_IN_BODIES, ROOM_FOR_HEADS};
use second::random::{self, Chance, SHEET_DAMAGES};
use second::sheet::read_sheet;
use second::table::parse;

#[test]
fn sheets_grown_from_the_grammar_and_damaged() {
    let mut chance = Chance::new(0x5ea1);
    let mut tally = Tally::default();
    for _ in 0..cases(20_000) {
        let sheet = random::any_sheet(&mut chance);
        let (words, names) = (random::word_buffer(&mut chance), random::name_buffer(&mut chance));
        let room = random::text_room(&mut chance, &sheet);
        compare(&sheet, &words, &names, &room, &mut tally);
    }
    let outcomes = [
        "sheet ok", "sheet 7", "sheet 8", "sheet 9", "sheet 10", "sheet 11", "sheet 12", "sheet 13", "sheet 14", "sheet 15",
    ];
    tally.expect(&outcomes, cases(200));
    tally.expect_also(&[(ONLY_IN_BODIES, cases(3_500)), (ROOM_FOR_HEADS, cases(1_000))]);
    tally.expect_also(&[(MANY_LINES, cases(150)), (NOT_BY_TWO, cases(200))]);
}

#[test]
fn sheets_damaged_in_each_way() {
    let mut chance = Chance::new(0x5ea2);
    let mut tally = Tally::default();
    let (words, names, text) = (vec![7; 8192], vec![7; 512], vec![7; 20_000]);
    for _ in 0..cases(500) {
        for damage in SHEET_DAMAGES {
            compare(&random::damaged_sheet(&mut chance, damage), &words, &names, &text, &mut tally);
        }
    }
    let numbers = ["sheet 7", "sheet 8", "sheet 10", "sheet 11", "sheet 12", "sheet 13", "sheet 14"];
    tally.expect(&numbers, cases(400));
    tally.expect_also(&[(NOT_BY_TWO, cases(400))]);
}

#[test]
fn text_rooms_around_the_length_needed() {
    let mut chance = Chance::new(0x5ea3);
    let mut tally = Tally::default();
    let (words, names) = (vec![7; 8192], vec![7; 512]);
    for _ in 0..cases(3_000) {
        let sheet = random::accepted_sheet(&mut chance);
        let needed = read_sheet(&sheet, &mut words.clone(), &mut names.clone(), &mut [0; 20_000]);
        let needed = needed.expect("an accepted sheet").value_sheet_length as usize;
        let heads = random::lines_length(&random::heads_and_others(&sheet).0);
        let between = heads + chance.index(needed - heads);
        for room in [0, heads, between, needed.saturating_sub(1), needed, needed + 1] {
            compare(&sheet, &words, &names, &vec![7; room], &mut tally);
        }
    }
    tally.expect(&["sheet ok", "sheet 15"], cases(1_000));
    tally.expect_also(&[(ONLY_IN_BODIES, cases(4_000)), (ROOM_FOR_HEADS, cases(6_000))]);
}

#[test]
fn the_longest_value_sheets() {
    let mut tally = Tally::default();
    let (words, names) = (vec![7; 8192], vec![7; 512]);
    // 512 names of 24 bytes, so many of them facts, the others in the groups of one rule.
    let name = |i: usize| format!("n{i:0>23}");
    for facts in [512, 511, 256, 1] {
        let others: Vec<String> = (facts..512).map(name).collect();
        let groups: String = others.chunks(64).map(|group| format!("\t{}", group.join(" "))).collect();
        let sheet: String = (0..facts).map(|i| name(i) + "\n").chain([format!("-{}{groups}\n", name(0))]).collect();
        for room in [0, 27 * facts - 1, 27 * facts, 13_823, 13_824, 13_825] {
            compare(sheet.as_bytes(), &words, &names, &vec![7; room], &mut tally);
        }
    }
    tally.expect(&["sheet ok", "sheet 15"], 9);
    tally.expect_also(&[(ONLY_IN_BODIES, 6), (ROOM_FOR_HEADS, 6)]);
}

/// The engine's words of an accepted sheet: record i has line i + 1, and that line of the sheet begins with its head. How many records.
fn lines_of(sheet: &[u8]) -> usize {
    let (mut words, mut names, mut text) = (vec![7; 8192], vec![7; 512], vec![7; 20_000]);
    let accepted = sheets::read_sheet(sheet, &mut words, &mut names, &mut text).expect("an accepted sheet");
    let records = parse(accepted.n, &words[..accepted.words_filled as usize]).expect("an accepted table");
    let lines: Vec<&[u8]> = sheet.split_inclusive(|&byte| byte == b'\n').collect();
    assert_eq!(records.len(), lines.len());
    for (i, record) in records.iter().enumerate() {
        assert_eq!(record.line, i + 1, "sheet \"{}\"", sheet.escape_ascii());
        let (atom, negated) = (record.rule.head / 2, record.rule.head % 2 == 1);
        let (start, length) = (names[atom] as usize / 32, names[atom] as usize % 32);
        let head = [if negated { &b"-"[..] } else { b"" }, &sheet[start..start + length]].concat();
        let rest = lines[i].strip_prefix(&head[..]).expect("the line of the head");
        assert!(matches!(rest[0], b'\t' | b'\n'), "sheet \"{}\"", sheet.escape_ascii());
    }
    records.len()
}

#[test]
fn each_record_has_the_line_of_its_head() {
    let mut chance = Chance::new(0x5ea4);
    let (mut met, mut highest) = (0, 0);
    for _ in 0..cases(3_000) {
        let lines = lines_of(&random::accepted_sheet(&mut chance));
        met += lines as u64;
        highest = highest.max(lines);
    }
    assert!(met > cases(30_000) && highest > 200, "{met} {highest}");
    for _ in 0..20 {
        assert!(lines_of(&random::full_draft(&mut chance, 8192).sheet()) > 200);
    }
    // As many lines as there can be, and bodies of 64 groups and of 64 literals.
    assert_eq!(lines_of((0..512).map(|i| format!("-n{i}\nn{i}\n")).collect::<String>().as_bytes()), 1024);
    let long = [b"a".to_vec(), b"\tb c".repeat(64), b"\nb\tc".to_vec(), b" d".repeat(63), b"\nc\n".to_vec()].concat();
    assert_eq!(lines_of(&long), 3);
}
