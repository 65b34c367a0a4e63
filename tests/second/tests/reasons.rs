//! The check of a reason sheet: the readings' examples, the order of refusals, the limits, and Definition 9 by brute force.

use std::collections::BTreeMap;

use second::judge::{self, Interpretation, Order};
use second::random::{self, Chance, Claimed, FORGERIES, evaluated, good_lines};
use second::reasons::{Claim, Line, check_reasons, check_writing, check_written, lines_of, text_of};
use second::refusal::Refusal;
use second::table::{Literal, Rule, check, encode, negation, numbered, rules_of};
use second::tables::{EXAMPLES, MEASURED, Written, all_i, written};
use second::truth::{I, T, U};

type Answer = Result<(), Refusal>;

fn refused<T>(number: u32, place: u64) -> Result<T, Refusal> {
    Err(Refusal { number, place })
}

/// Values from letters in atom order.
fn values(letters: &str) -> Vec<u8> {
    letters.bytes().map(|letter| b"fuit".iter().position(|&known| known == letter).expect("a value") as u8).collect()
}

/// A text from lines parted by commas, numbers parted by spaces.
fn sheet(lines: &str) -> Vec<u8> {
    let line = |numbers: &str| format!("{}\n", numbers.trim().replace(' ', "\t"));
    lines.split(',').filter(|line| !line.is_empty()).map(line).collect::<String>().into_bytes()
}

/// What the check says of rules in document 01's notation, letters and lines.
fn said(rules: &[&str], letters: &str, lines: &str) -> Answer {
    let table = written(rules);
    assert_eq!(table.names.len(), letters.len(), "a letter for each atom");
    check_reasons(table.n(), &table.words(), &values(letters), &sheet(lines))
}

#[test]
fn text_is_broken_at_the_first_byte_that_cannot_stand() {
    let said = |text: &str| check_reasons(0, &[], &[], text.as_bytes());
    assert_eq!(said("00\t0\t0\t0\n"), refused(21, 1));
    assert_eq!(said("0\t10000\t0\t0\n"), refused(21, 6));
    assert_eq!(said("\n"), refused(21, 0));
    assert_eq!(said(""), Ok(()));
    assert_eq!(said("0\t0\t0\t0\n0"), refused(21, 9));
    assert_eq!(said("0\t0\t0\t0\n"), refused(22, 1));
    for (text, place) in [
        ("\t0\t0\t0\n", 0),
        ("-1\t0\t0\t0\n", 0),
        ("+1\t0\t0\t0\n", 0),
        (" 0\t0\t0\t0\n", 0),
        ("x", 0),
        ("0", 1),
        ("0 0 0 0\n", 1),
        ("0\n", 1),
        ("0\t", 2),
        ("0\t\t0\t0\n", 2),
        ("0\t0\t00\t0\n", 5),
        ("01\t0\t0\t0\n", 1),
        ("0\t0\t0\n", 5),
        ("0\t0\t0\t\n", 6),
        ("0\t0\t0\t0", 7),
        ("0\t0\t0\t0\t", 7),
        ("0\t0\t0\t0\t0\n", 7),
        ("0\t0\t0\t0\r\n", 7),
        ("0\t0\t0\t0 \n", 7),
        ("0\t0\t0\t0\n\n", 8),
        ("0\t0\t0\t0\n0\t0\t0\t0", 15),
        ("9999\t9999\t9999\t9999", 19),
        ("9999\t9999\t9999\t99999\n", 19),
        ("12345", 4),
        ("1.5\t0\t0\t0\n", 1),
        ("0\t\u{661}\t0\t0\n", 2),
        ("0\0\t0\t0\t0\n", 1),
    ] {
        assert_eq!(said(text), refused(21, place), "{text:?}");
    }
}

/// A good text is what lines of numbers below 10,000 are written as.
fn is_good(text: &[u8]) -> bool {
    let shown = |field: &str| field.parse::<u16>().is_ok_and(|number| number < 10_000 && number.to_string() == field);
    let Ok(text) = std::str::from_utf8(text) else { return false };
    let lines = text.strip_suffix('\n').map(|text| text.split('\n'));
    text.is_empty() || lines.is_some_and(|mut lines| lines.all(|line| line.split('\t').count() == 4 && line.split('\t').all(shown)))
}

/// Some good text begins so. A field that has begun may end, and one that has not may be 0; so these ends are enough.
fn can_begin(text: &[u8]) -> bool {
    let ends = ["", "\n", "0\n", "\t0\n", "0\t0\n", "\t0\t0\n", "0\t0\t0\n", "\t0\t0\t0\n", "0\t0\t0\t0\n"];
    ends.iter().any(|end| is_good(&[text, end.as_bytes()].concat()))
}

#[test]
fn every_short_text_is_good_or_broken_as_the_beginnings_say() {
    let mut met = [0; 3];
    let mut all = vec![b"".to_vec(), b"123".to_vec(), b"0\t0\t0\t987".to_vec(), b"7\t0\t0\t0\n40\t1".to_vec()];
    let longest = |text: &[u8]| if text.starts_with(b"0\t0\t0\t987") || text.starts_with(b"7") { 15 } else { 11 };
    while let Some(text) = all.pop() {
        assert!(can_begin(&text));
        match lines_of(&text) {
            Ok(lines) => {
                assert!(is_good(&text) && text_of(&lines) == text, "{text:?}");
                met[0] += 1;
            }
            answer => {
                assert!(!is_good(&text) && answer == refused(21, text.len() as u64), "{text:?}: {answer:?}");
                met[1] += 1;
            }
        }
        for byte in *b"019\t\n x" {
            let more = [&text[..], &[byte]].concat();
            if !can_begin(&more) {
                // Whatever comes behind it.
                for behind in ["", "\n", "0", "\t0\n0\t0\t0\t0\n"] {
                    let whole = [&more, behind.as_bytes()].concat();
                    assert_eq!(lines_of(&whole), refused(21, text.len() as u64), "{whole:?}");
                }
                met[2] += 1;
            } else if more.len() < longest(&more) {
                all.push(more);
            }
        }
    }
    assert!(met[0] > 500 && met[1] > 10_000 && met[2] > 30_000, "{met:?}");
}

#[test]
fn a_number_that_is_well_written_and_wrong_is_22() {
    // A code not below 2N, by itself and behind the right lines.
    assert_eq!(said(&["a"], "t", "2 0 0 0"), refused(22, 1));
    assert_eq!(said(&["a"], "t", "0 0 0 0,2 0 0 0"), refused(22, 2));
    assert_eq!(said(&["a"], "t", "0 0 0 0,9999 9999 9999 9999"), refused(22, 2));
    assert_eq!(said(&["a"], "t", "0 0 2 0"), refused(22, 1));
    assert_eq!(said(&["a"], "t", "0 0 9999 0"), refused(22, 1));
    for group in [1, 64, 65, 9999] {
        assert_eq!(said(&["a"], "t", &format!("0 0 0 {group}")), refused(22, 1));
        assert_eq!(said(&["a", "b: a"], "tt", &format!("0 0 0 0,2 1 2 {group}")), if group == 1 { Ok(()) } else { refused(22, 2) });
    }
    for rank in [1024, 1025, 2047, 2048, 4096, 9999] {
        assert_eq!(said(&["a"], "t", &format!("0 {rank} 0 0")), refused(22, 1));
    }
    for rank in [0, 1, 9, 10, 99, 100, 999, 1000, 1023] {
        assert_eq!(said(&["a"], "t", &format!("0 {rank} 0 0")), Ok(()));
    }
}

#[test]
fn values_that_are_no_model_are_34_at_the_head_of_the_first_rule_not_satisfied() {
    assert_eq!(said(&["a", "b"], "tu", ""), refused(34, 3));
    assert_eq!(said(&["a", "b"], "ut", ""), refused(34, 0));
    assert_eq!(said(&["a", "b"], "uu", ""), refused(34, 0));
    assert_eq!(said(&["a", "-b"], "tt", ""), refused(34, 3));
    assert_eq!(said(&["a", "-b"], "tf", "0 0 0 0,3 0 3 0"), Ok(()));
    assert_eq!(said(&["a", "-b"], "ii", "0 0 0 0,1 0 1 0"), refused(22, 3));
    // Records of 3, 3, 9 and 5 words before it.
    let rules = ["a", "b", "c: a b / -a c", "d: c", "e: d"];
    assert_eq!(said(&rules, "ttttu", ""), refused(34, 20));
    assert_eq!(said(&rules, "tttuu", ""), refused(34, 15));
    assert_eq!(said(&rules, "ttuuu", ""), refused(34, 6));
    // Body i: the head must be i. Body f or u: any head will do.
    for (letters, answer) in [("it", refused(34, 6)), ("if", refused(34, 6)), ("iu", refused(34, 6)), ("ii", refused(22, 1))] {
        assert_eq!(said(&["a", "-a", "b: a"], letters, ""), answer, "{letters}");
    }
    for letters in ["uf", "uu", "ui", "ut", "ff", "fu", "fi", "ft"] {
        assert_ne!(said(&["b: a"], &letters.chars().rev().collect::<String>(), ""), refused(34, 0), "{letters}");
    }
    // The line of a record has no part in it.
    assert_eq!(check_reasons(2, &[0, 9, 0, 2, 32_768, 0], &[T, U], b""), refused(34, 3));
}

#[test]
fn lines_are_first_looked_at_for_their_codes_alone() {
    assert_eq!(said(&["a", "b"], "tt", "2 0 2 0,0 0 0 0"), refused(22, 1));
    assert_eq!(said(&["a", "b"], "tt", "0 0 0 5"), refused(22, 2));
    assert_eq!(said(&["a", "b"], "tt", "0 0 0 0"), refused(22, 2));
    assert_eq!(said(&["a", "b"], "tt", ""), refused(22, 1));
    assert_eq!(said(&["a", "b"], "tt", "2 0 2 0"), refused(22, 1));
    assert_eq!(said(&["a", "b"], "tt", "0 0 0 0,2 0 2 0,2 0 2 0"), refused(22, 3));
    assert_eq!(said(&["a", "b"], "tt", "0 0 0 0,0 0 0 0,2 0 2 0"), refused(22, 2));
    assert_eq!(said(&["a", "b"], "tt", "0 0 0 0,1 0 0 0,2 0 2 0"), refused(22, 2));
    assert_eq!(said(&["a", "b"], "tt", "0 0 0 5,2 0 2 0,3 0 2 0"), refused(22, 3));
    assert_eq!(said(&["a", "b"], "tt", "0 9999 0 0,3 0 2 0"), refused(22, 2));
    assert_eq!(said(&["a", "b"], "tt", "0 0 0 0,2 0 2 0"), Ok(()));
    // Then for what they say.
    assert_eq!(said(&["a", "b"], "tt", "0 0 0 5,2 0 2 5"), refused(22, 1));
    assert_eq!(said(&["a", "b"], "tt", "0 0 0 0,2 0 2 5"), refused(22, 2));
    assert_eq!(said(&["a", "b"], "tt", "0 1024 0 0,2 0 2 5"), refused(22, 1));
    assert_eq!(said(&["a", "b"], "tt", "0 0 0 5,2 1024 2 0"), refused(22, 1));
}

#[test]
fn a_rank_above_1023_still_counts_as_a_number() {
    assert_eq!(said(&["-b: b"], "i", "0 1023 1 1,1 1024 1 1"), refused(22, 2));
    assert_eq!(said(&["-b: b"], "i", "0 1024 1 1,1 1025 1 1"), refused(22, 1));
    assert_eq!(said(&["-b: b"], "i", "0 1022 1 1,1 1023 1 1"), Ok(()));
    // Taken modulo a power of 2, or as none at all, it would not be smaller or larger.
    assert_eq!(said(&["-b: b"], "i", "0 1 1 1,1 1024 1 1"), refused(22, 2));
    assert_eq!(said(&["b: -b"], "i", "0 9999 0 1,1 9998 0 1"), refused(22, 1));
    assert_eq!(said(&["a: b", "b"], "tt", "0 1024 0 1,2 1023 2 0"), refused(22, 1));
}

#[test]
fn p2_with_b_inconsistent() {
    assert_eq!(said(&["-b: b"], "i", "0 0 1 1,1 1 1 1"), Ok(()));
    assert_eq!(said(&["-b: b"], "i", "0 0 1 1,1 0 1 1"), refused(22, 1));
    assert_eq!(said(&["-b: b"], "i", "0 1 1 1,1 0 1 1"), refused(22, 1));
    assert_eq!(said(&["-b: b"], "i", "0 0 0 1,1 1 1 1"), refused(22, 1));
    assert_eq!(said(&["-b: b"], "i", "0 0 1 1,1 1 0 1"), refused(22, 2));
    assert_eq!(said(&["-b: b"], "i", "0 0 1 0,1 1 1 1"), refused(22, 1));
    assert_eq!(said(&["-b: b"], "i", "0 0 1 2,1 1 1 1"), refused(22, 1));
    assert_eq!(said(&["-b: b"], "u", ""), Ok(()));
    assert_eq!(said(&["-b: b"], "f", "1 1 1 1"), refused(22, 1));
    assert_eq!(said(&["-b: b"], "t", "0 0 1 1"), refused(34, 0));
}

#[test]
fn a_fact_is_a_reason_for_its_own_literal_by_group_0_alone() {
    assert_eq!(said(&["a", "-a"], "i", "0 0 0 0,1 0 1 0"), Ok(()));
    assert_eq!(said(&["a", "-a"], "i", "0 0 1 0,1 0 1 0"), refused(22, 1));
    assert_eq!(said(&["a", "-a"], "i", "0 0 0 0,1 1 0 0"), refused(22, 2));
    assert_eq!(said(&["a", "-a"], "i", "0 0 0 1,1 0 1 0"), refused(22, 1));
    assert_eq!(said(&["a"], "i", "0 0 0 0,1 1 0 0"), refused(22, 2));
    // A fact of another literal, also of one with the same value.
    assert_eq!(said(&["a", "b"], "tt", "0 0 2 0,2 0 2 0"), refused(22, 1));
    assert_eq!(said(&["a", "b"], "tt", "0 0 0 0,2 0 0 0"), refused(22, 2));
}

#[test]
fn group_0_of_a_rule_with_groups_and_a_number_above_m_are_no_reason() {
    for (group, answer) in [(0, refused(22, 2)), (1, Ok(())), (2, Ok(())), (3, refused(22, 2)), (64, refused(22, 2))] {
        assert_eq!(said(&["a", "b: a / a a"], "tt", &format!("0 0 0 0,2 1 2 {group}")), answer, "group {group}");
        assert_eq!(said(&["a", "-a: a / a a"], "i", &format!("0 0 0 0,1 1 1 {group}")), answer, "group {group}");
    }
}

#[test]
fn a_t_literal_rests_on_a_t_group_of_its_own_rule_with_smaller_ranks() {
    let rules = ["p: q / a a / b c", "a", "b", "c", "q: p", "d", "-d"];
    let lines = |rank: usize, group: usize| format!("0 {rank} 0 {group},2 4 2 1,4 0 4 0,6 3 6 0,8 1 8 0,10 0 10 0,11 0 11 0");
    for (rank, group, answer) in [
        (1, 2, Ok(())),
        (0, 2, refused(22, 1)),
        (4, 3, refused(22, 2)),
        (3, 3, refused(22, 1)),
        (1, 3, refused(22, 1)),
        // Its group 1 comes after it.
        (3, 1, refused(22, 1)),
        (5, 1, refused(22, 2)),
    ] {
        assert_eq!(said(&rules, "ttttti", &lines(rank, group)), answer, "{rank} {group}");
    }
    assert_eq!(said(&["p: q / a a / b c", "a", "b", "c", "q: p"], "ttttt", "0 4 0 3,2 5 2 1,4 0 4 0,6 3 6 0,8 1 8 0"), Ok(()));
    // One literal of the group, the first or the last, has an equal or a larger rank.
    for (a, b, answer) in [(0, 0, Ok(())), (1, 0, refused(22, 3)), (0, 1, refused(22, 3)), (2, 0, refused(22, 3)), (0, 2, refused(22, 3))] {
        assert_eq!(said(&["a", "b", "p: a b"], "ttt", &format!("0 {a} 0 0,2 {b} 2 0,4 1 4 1")), answer, "{a} {b}");
    }
    // A group that is i, u or f is no reason for t.
    let rules = ["a", "-a", "b", "p: a / b / c / -b"];
    for (group, answer) in [(1, refused(22, 4)), (2, Ok(())), (3, refused(22, 4)), (4, refused(22, 4))] {
        assert_eq!(said(&rules, "ittu", &format!("0 0 0 0,1 0 1 0,2 0 2 0,4 1 4 {group}")), answer, "group {group}");
    }
    // The rule of the negation is no reason for t, whatever its body is.
    assert_eq!(said(&["p", "-p: a"], "tu", "0 1 1 1"), refused(22, 1));
    assert_eq!(said(&["p", "-p: p"], "i", "0 0 0 0,1 1 1 1"), Ok(()));
}

#[test]
fn an_i_literal_rests_on_a_t_group_of_its_own_rule() {
    // By (7), with a body that is t and another group that is i.
    let rules = ["p: a / b", "-p: b", "a", "-a", "b"];
    let lines = |own: usize, other: usize| format!("0 1 0 {own},1 1 1 {other},2 0 2 0,3 0 3 0,4 0 4 0");
    assert_eq!(said(&rules, "iit", &lines(2, 1)), Ok(()));
    // By (8) the whole body must be i.
    assert_eq!(said(&rules, "iit", &lines(1, 1)), refused(22, 1));
    // (7) is not for the negation's rule.
    assert_eq!(said(&rules, "iit", &lines(2, 1).replace("1 1 1 1", "1 1 0 2")), refused(22, 2));
    assert_eq!(said(&rules, "iit", &lines(2, 1).replace("0 1 0 2", "0 1 1 1")), refused(22, 1));
    // Ranks count for it as well.
    assert_eq!(said(&rules, "iit", &lines(2, 1).replace("4 0 4 0", "4 1 4 0")), refused(22, 1));
}

#[test]
fn an_i_literal_rests_on_an_i_group_measured_at_the_head_of_the_rule() {
    let rules = ["-p: q / a / a b", "a", "-a", "b"];
    let lines = |p: usize, not_p: usize, group: usize| format!("0 {p} 1 {group},1 {not_p} 1 {group},4 1 4 0,5 1 5 0,6 3 6 0");
    assert_eq!(said(&rules, "iuit", &lines(0, 2, 2)), Ok(()));
    assert_eq!(said(&rules, "iuit", &lines(9, 2, 2)), Ok(()));
    assert_eq!(said(&rules, "iuit", &lines(9, 1, 2)), refused(22, 1));
    assert_eq!(said(&rules, "iuit", &lines(9, 0, 2)), refused(22, 1));
    // Every literal of the group, also one that is t.
    assert_eq!(said(&rules, "iuit", &lines(9, 3, 3)), refused(22, 1));
    assert_eq!(said(&rules, "iuit", &lines(0, 4, 3)), Ok(()));
    // A group that is u.
    assert_eq!(said(&rules, "iuit", &lines(9, 9, 1)), refused(22, 1));
    // Both rules: each literal may rest on either.
    let rules = ["p: a", "-p: a", "a", "-a"];
    for (of_p, answer) in [
        ("0 1 0 1,1 1 1 1", Ok(())),
        ("0 1 1 1,1 1 0 1", Ok(())),
        ("0 0 1 1,1 1 1 1", Ok(())),
        ("0 0 0 1,1 1 1 1", refused(22, 1)),
    ] {
        assert_eq!(said(&rules, "ii", &format!("{of_p},2 0 2 0,3 0 3 0")), answer, "{of_p}");
    }
    // The rule of an i literal with a body that is f or u is no reason.
    assert_eq!(said(&["p: b", "-p", "b: -p"], "iu", "0 0 0 1,1 0 1 0"), refused(34, 8));
    assert_eq!(said(&["p: b", "-p"], "iu", "0 0 0 1,1 0 1 0"), refused(22, 1));
    assert_eq!(said(&["p: b", "-p", "-b"], "if", "0 0 0 1,1 0 1 0,3 0 3 0"), refused(22, 1));
    // A rule of another atom with a body that is i.
    assert_eq!(said(&["p", "-p", "q: p"], "ii", "0 0 2 1,1 0 1 0,2 1 2 1,3 1 2 1"), refused(22, 1));
    assert_eq!(said(&["p", "-p", "q: p"], "ii", "0 0 0 0,1 0 1 0,2 1 2 1,3 0 2 1"), Ok(()));
}

#[test]
fn equal_ranks_are_allowed_and_further_values_are_not_read() {
    assert_eq!(said(&["a", "b", "-b", "c"], "tit", "0 7 0 0,2 7 2 0,3 7 3 0,4 7 4 0"), Ok(()));
    for more in [&[4][..], &[255, 9], &[T], &[U; 600]] {
        assert_eq!(check_reasons(1, &[0, 1, 0], &[&[T], more].concat(), b"0\t0\t0\t0\n"), Ok(()));
        assert_eq!(check_reasons(0, &[], more, b""), Ok(()));
    }
    assert_eq!(check_reasons(1, &[0, 1, 0], &[], b""), refused(3, 0));
    assert_eq!(check_reasons(2, &[0, 1, 0], &[T], b"0\t0\t0\t0\n"), refused(3, 0));
    assert_eq!(check_reasons(2, &[0, 1, 0], &[T, U], b"0\t0\t0\t0\n"), Ok(()));
}

#[test]
fn a_value_code_above_3_is_20_at_its_atom() {
    for code in 4..=255 {
        assert_eq!(check_reasons(3, &[], &[U, code, U], b""), refused(20, 1));
        assert_eq!(check_reasons(3, &[], &[U, U, code], b""), refused(20, 2));
        assert_eq!(check_reasons(3, &[], &[code, U, code], b""), refused(20, 0));
        assert_eq!(check_reasons(2, &[], &[U, U, code], b""), Ok(()));
    }
    let mut values = [U; 513];
    values[511] = 4;
    assert_eq!(check_reasons(512, &[], &values, b""), refused(20, 511));
    values.swap(511, 512);
    assert_eq!(check_reasons(512, &[], &values, b""), Ok(()));
}

#[test]
fn refusals_come_in_order_whichever_faults_there_are() {
    let table = written(&["a", "b", "c: a b / -c"]);
    let orders: Vec<Answer> = vec![
        refused(1, 0),
        refused(2, 0),
        refused(3, 0),
        refused(5, 14),
        refused(20, 1),
        refused(21, 17),
        refused(34, 6),
        refused(22, 3),
        refused(22, 1),
    ];
    for faults in 0..1u32 << orders.len() {
        let has = |fault: usize| faults >> fault & 1 == 1;
        let n = if has(0) { 513 } else { 3 };
        let mut words = table.words();
        let mut values = vec![T; if has(0) { 513 } else { 3 }];
        let mut lines = lines_of(&sheet("0 0 0 0,2 0 2 0,4 1 4 1")).unwrap();
        if has(3) {
            words.push(6);
        }
        if has(1) {
            words.resize(8193, 0);
        }
        if has(4) {
            values[1] = 4;
        }
        if has(6) {
            values[2] = U;
        }
        if has(2) {
            values.truncate(2);
        }
        if has(7) {
            lines.truncate(2);
        }
        if has(8) {
            lines[0].group = 5;
        }
        let mut text = text_of(&lines);
        if has(5) {
            text.truncate(16);
            text.extend(b"2x");
        }
        let expected = (0..orders.len()).find(|&fault| has(fault)).map_or(Ok(()), |fault| orders[fault]);
        assert_eq!(check_reasons(n, &words, &values, &text), expected, "faults {faults:b}");
    }
    // The words in their own order, before 20.
    for (words, answer) in [
        (&[0, 0][..], refused(4, 2)),
        (&[0, 0, 0, 0, 40_000, 0], refused(7, 3)),
        (&[0, 40_000, 65], refused(6, 1)),
        (&[0, 0, 65], refused(6, 2)),
        (&[9, 40_000, 65], refused(5, 0)),
    ] {
        assert_eq!(check_reasons(1, words, &[4], b"x"), answer);
        assert_eq!(check_reasons(1, words, &[], b"x"), refused(3, 0));
    }
    for n in [513, 1 << 16, 1 << 32, (1 << 32) + 1, 1 << 63, u64::MAX] {
        assert_eq!(check_reasons(n, &[9; 8193], &[], b"x"), refused(1, 0), "{n}");
    }
}

/// Both literals of every atom: literal 0 is a fact, and each further one rests on the one before it.
fn longest_chain() -> (u64, Vec<u16>) {
    let rule = |head: Literal| Rule { head, groups: if head == 0 { Vec::new() } else { vec![vec![head - 1]] } };
    (512, encode(&numbered(&(0..1024).map(rule).collect::<Vec<_>>())))
}

#[test]
fn a_sheet_of_1024_lines() {
    let (n, words) = all_i();
    let line = |literal: Literal| Line { literal, rank: 1023, head: literal, group: 0 };
    let lines: Vec<Line> = (0..1024).map(line).collect();
    let text = text_of(&lines);
    assert_eq!(text.len(), 1024 * 9 + 2 * (10 + 2 * 90 + 3 * 900 + 4 * 24));
    assert!(text.len() <= 18_432);
    assert_eq!(check_reasons(n, &words, &[I; 512], &text), Ok(()));
    assert_eq!(check_reasons(n, &words, &[I; 511], &text), refused(3, 0));
    assert_eq!(check_reasons(n, &words, &[I; 512], &text_of(&lines[..1023])), refused(22, 1024));
    assert_eq!(check_reasons(n, &words, &[I; 512], &[&text[..], b"1024\t0\t0\t0\n"].concat()), refused(22, 1025));
    assert_eq!(check_reasons(n, &words, &[I; 512], &text.repeat(8)), refused(22, 1025));
    assert_eq!(check_reasons(n, &words, &[I; 512], &text[..text.len() - 1]), refused(21, text.len() as u64 - 1));
}

#[test]
fn a_chain_that_takes_every_rank_from_0_to_1023() {
    let (n, words) = longest_chain();
    assert_eq!(evaluated(n, &words), [I; 512]);
    let line = |literal: Literal| Line { literal, rank: literal, head: literal, group: (literal > 0) as usize };
    let lines: Vec<Line> = (0..1024).map(line).collect();
    let said = |lines: &[Line]| check_reasons(n, &words, &[I; 512], &text_of(lines));
    assert_eq!(said(&lines), Ok(()));
    let raised: Vec<Line> = lines.iter().map(|line| Line { rank: line.rank + 1, ..*line }).collect();
    assert_eq!(said(&raised), refused(22, 1024));
    for at in 1..1024 {
        let mut altered = lines.clone();
        altered[at].rank -= 1;
        assert_eq!(said(&altered), refused(22, at as u64 + 1), "line {}", at + 1);
    }
}

#[test]
fn groups_up_to_64_are_told_by_their_number() {
    for m in [1, 2, 63, 64] {
        // Only the last group is t.
        let groups: Vec<Vec<Literal>> = (0..m).map(|group| if group + 1 == m { vec![2] } else { vec![4] }).collect();
        let rules = [Rule { head: 0, groups }, Rule { head: 2, groups: Vec::new() }];
        let words = encode(&numbered(&rules));
        for group in 0..=66 {
            let lines = [Line { literal: 0, rank: 1, head: 0, group }, Line { literal: 2, rank: 0, head: 2, group: 0 }];
            let expected = if group == m { Ok(()) } else { refused(22, 1) };
            assert_eq!(check_reasons(3, &words, &[T, T, U], &text_of(&lines)), expected, "group {group} of {m}");
        }
    }
}

/// All weak orders of so many things, as ranks from 0 on without gaps.
fn weak_orders(size: usize) -> Vec<Vec<usize>> {
    let mut orders: Vec<Vec<usize>> = vec![Vec::new()];
    for _ in 0..size {
        orders = orders.iter().flat_map(|order| (0..size).map(move |rank| [&order[..], &[rank]].concat())).collect();
    }
    let dense = |order: &Vec<usize>| (0..order.iter().max().map_or(0, |most| most + 1)).all(|rank| order.contains(&rank));
    orders.into_iter().filter(dense).collect()
}

/// All orders of so many things, one after another.
fn total_orders(size: usize) -> Vec<Vec<usize>> {
    weak_orders(size).into_iter().filter(|order| (0..size).all(|rank| order.contains(&rank))).collect()
}

/// What a line of the literal may name: a fact, a group of its own rule or of its negation's.
fn reasons_of(rules: &[Rule], literal: Literal) -> Vec<(Literal, usize)> {
    let of = |head: Literal| rules.iter().filter(move |rule| rule.head == head);
    let named = |rule: &Rule| {
        let numbers = if rule.groups.is_empty() { 0..=0 } else { 1..=rule.groups.len() };
        let head = rule.head;
        numbers.map(move |number| (head, number)).collect::<Vec<_>>()
    };
    of(literal).chain(of(negation(literal))).flat_map(named).collect()
}

/// A sheet with these ranks that says something good in each line, if there is one: each line by itself, as no line's reason has to do
/// with another's.
fn lines_by_ranks(claim: Claim, ranks: &[usize]) -> Option<Vec<Line>> {
    let mut lines: Vec<Line> =
        claim.literals().into_iter().zip(ranks).map(|(literal, &rank)| Line { literal, rank, head: 9999, group: 0 }).collect();
    for at in 0..lines.len() {
        let mut good = reasons_of(claim.rules, lines[at].literal).into_iter().filter(|&(head, group)| {
            (lines[at].head, lines[at].group) = (head, group);
            claim.first_unjustified(&lines).is_none_or(|number| number > at + 1)
        });
        let (head, group) = good.next()?;
        drop(good);
        (lines[at].head, lines[at].group) = (head, group);
    }
    Some(lines)
}

/// The order that ranks are: a literal comes before those of larger rank.
fn order_of(lines: &[Line]) -> Order {
    let mut order = [0; 32];
    for line in lines {
        order[line.literal] = lines.iter().filter(|other| other.rank < line.rank).fold(0, |set, other| set | 1 << other.literal);
    }
    order
}

/// For each interpretation of N atoms: with each of the ranks, a sheet is accepted exactly if the conditions of Definition 9 hold with
/// them as the order; some sheet is accepted exactly if the interpretation is well-supported. Counts well-supported ones, other models,
/// and the rest.
fn definition_9_is_what_is_accepted(n: u64, rules: &[Rule], orders: &[Vec<Vec<usize>>], met: &mut [u32; 3]) {
    let words = encode(&numbered(rules));
    for set in 0..1u32 << (2 * n) {
        let values = judge::values(n as usize, set);
        let claim = Claim { rules, values: &values };
        assert_eq!(claim.literals(), judge::literals(set));
        let says = |lines: &[Line]| check_reasons(n, &words, &values, &text_of(lines));
        if !judge::is_model(set, rules) {
            let unsatisfied = rules.iter().position(|rule| !judge::is_model(set, std::slice::from_ref(rule))).unwrap();
            let place = encode(&numbered(&rules[..unsatisfied])).len() as u64;
            assert_eq!(says(&[]), refused(34, place), "{rules:?}, {values:?}");
            met[2] += 1;
            continue;
        }
        let mut some = false;
        for ranks in &orders[set.count_ones() as usize] {
            let found = lines_by_ranks(claim, ranks);
            let literals = judge::literals(set);
            let bare: Vec<Line> = literals.iter().zip(ranks).map(|(&literal, &rank)| Line { literal, rank, head: 0, group: 0 }).collect();
            let order = order_of(&bare);
            assert_eq!(found.is_some(), judge::conditions_hold(set, rules, &order), "{rules:?}, {values:?}, {ranks:?}");
            if let Some(lines) = found {
                assert_eq!(says(&lines), Ok(()), "{rules:?}, {values:?}, {lines:?}");
                some = true;
            }
        }
        assert_eq!(some, judge::is_well_supported(n as usize, set, rules), "{rules:?}, {values:?}");
        let drawn = good_lines(&mut Chance::new(set.into()), rules, &values);
        assert_eq!(drawn.is_some(), some, "{rules:?}, {values:?}");
        assert_eq!(drawn.map(|lines| says(&lines)).unwrap_or(Ok(())), Ok(()), "{rules:?}, {values:?}");
        met[if some { 0 } else { 1 }] += 1;
    }
}

/// All rules of so many literals as heads, each with one of these bodies or without a rule.
fn every_table(heads: usize, bodies: &[Vec<Vec<Literal>>]) -> Vec<Vec<Rule>> {
    let choices = bodies.len() + 1;
    let table = |number: usize| {
        let rule = |head: Literal| {
            let groups = bodies.get(number / choices.pow(head as u32) % choices)?.clone();
            Some(Rule { head, groups })
        };
        (0..heads).filter_map(rule).collect()
    };
    (0..choices.pow(heads as u32)).map(table).collect()
}

#[test]
fn every_small_table_of_one_atom_with_every_interpretation_and_order() {
    let groups: Vec<Vec<Literal>> = vec![vec![0], vec![1], vec![0, 1], vec![0, 0]];
    let mut bodies: Vec<Vec<Vec<Literal>>> = vec![Vec::new()];
    bodies.extend(groups.iter().map(|group| vec![group.clone()]));
    bodies.extend(groups.iter().flat_map(|one| groups.iter().map(move |two| vec![one.clone(), two.clone()])));
    let orders: Vec<_> = (0..=2).map(weak_orders).collect();
    assert_eq!([0, 1, 2, 3, 4].map(|size| weak_orders(size).len()), [1, 1, 3, 13, 75]);
    let mut met = [0; 3];
    for rules in every_table(2, &bodies) {
        let back: Vec<Rule> = rules.iter().rev().cloned().collect();
        for rules in [rules, back] {
            definition_9_is_what_is_accepted(1, &rules, &orders, &mut met);
        }
    }
    assert_eq!(met.iter().sum::<u32>(), 4 * 2 * 22 * 22);
    assert!(met.iter().all(|&count| count > 500), "{met:?}");
}

#[test]
fn every_small_table_of_two_atoms_with_every_interpretation_and_order() {
    let mut bodies: Vec<Vec<Vec<Literal>>> = vec![Vec::new()];
    bodies.extend((0..4).map(|literal| vec![vec![literal]]));
    bodies.extend([vec![vec![0, 2]], vec![vec![1, 0]], vec![vec![0], vec![2]], vec![vec![3], vec![1]]]);
    let orders: Vec<_> = (0..=4).map(weak_orders).collect();
    let mut met = [0; 3];
    for rules in every_table(4, &bodies) {
        definition_9_is_what_is_accepted(2, &rules, &orders, &mut met);
    }
    assert_eq!(met.iter().sum::<u32>(), 16 * 10u32.pow(4));
    assert!(met.iter().all(|&count| count > 10_000), "{met:?}");
}

#[test]
fn random_tables_of_two_atoms_with_every_interpretation_and_order() {
    let orders: Vec<_> = (0..=4).map(weak_orders).collect();
    let mut met = [0; 3];
    for seed in 0..2500 {
        let mut chance = Chance::new(0x5ea0 + seed);
        let rules = random::rules(&mut chance, 2, random::Shape { headed: 85, facts: 20, groups: 3, literals: 3, negative: 45 });
        definition_9_is_what_is_accepted(2, &rules, &orders, &mut met);
    }
    assert!(met.iter().all(|&count| count > 1000), "{met:?}");
}

#[test]
fn random_tables_of_three_atoms_with_every_interpretation_and_total_order() {
    // Every strict partial order lies in a total one, and the conditions only ask that some come before others.
    let orders: Vec<_> = (0..=6).map(total_orders).collect();
    let mut met = [0; 3];
    for seed in 0..400 {
        let mut chance = Chance::new(0x5eb0 + seed);
        let shape = random::small_shape(&mut chance);
        let rules = random::rules(&mut chance, 3, shape);
        definition_9_is_what_is_accepted(3, &rules, &orders, &mut met);
    }
    assert!(met.iter().all(|&count| count > 400), "{met:?}");
}

fn set_of(table: &Written, literals: &[&str]) -> Interpretation {
    literals.iter().fold(0, |set, text| set | 1 << table.literal(text))
}

#[test]
fn the_examples_have_sheets_for_their_values_and_for_their_other_models() {
    for example in EXAMPLES {
        let table = example.table();
        let others = example.also_well_supported.iter().map(|set| judge::values(table.names.len(), set_of(&table, set)));
        for values in others.chain([example.values_in_order()]) {
            for seed in 0..50 {
                let lines = good_lines(&mut Chance::new(seed), &table.rules, &values).expect("a sheet");
                assert_eq!(check_reasons(table.n(), &table.words(), &values, &text_of(&lines)), Ok(()), "{}", example.name);
            }
        }
        let lines = good_lines(&mut Chance::new(1), &table.rules, &example.values_in_order()).unwrap();
        assert_eq!(check_written(table.n(), &table.words(), &text_of(&lines)), Ok(()), "{}", example.name);
    }
    // P6, with all four literals: l 0, c 2.
    assert_eq!(said(&["l", "c: l", "-l: -c"], "tt", "0 0 0 0,2 1 2 1"), Ok(()));
    assert_eq!(said(&["l", "c: l", "-l: -c"], "ii", "0 0 0 0,1 1 1 1,2 1 2 1,3 0 2 1"), Ok(()));
    assert_eq!(said(&["l", "c: l", "-l: -c"], "ii", "0 0 0 0,1 1 1 1,2 0 2 1,3 0 2 1"), refused(22, 3));
    assert_eq!(check_written(1, &[1, 0, 1, 1, 0], b"0\t0\t1\t1\n1\t1\t1\t1\n"), refused(22, 1));
}

#[test]
fn a_model_that_is_not_well_supported_has_no_sheet() {
    // P10 with p inconsistent: the body of p is t by b, so nothing is a reason for -p.
    let table = written(&["a", "-a", "b", "p: a / b"]);
    let values = values("iti");
    let claim = Claim { rules: &table.rules, values: &values };
    assert_eq!(claim.literals(), [0, 1, 2, 4, 5]);
    for ranks in weak_orders(5) {
        assert_eq!(lines_by_ranks(claim, &ranks), None);
    }
    assert_eq!(good_lines(&mut Chance::new(0), &table.rules, &values), None);
    for (head, group) in (0..8).flat_map(|head| (0..4).map(move |group| (head, group))) {
        let line = Line { literal: 5, rank: 3, head, group };
        let lines = [&lines_of(&sheet("0 0 0 0,1 0 1 0,2 0 2 0,4 1 4 2")).unwrap()[..], &[line]].concat();
        assert_eq!(check_reasons(3, &table.words(), &values, &text_of(&lines)), refused(22, 5), "{head} {group}");
    }
}

#[test]
fn what_the_writer_refuses_before_15_is_what_the_table_check_refuses() {
    for seed in 0..3000 {
        let (n, words) = random::any_table(&mut Chance::new(seed));
        assert_eq!(check_writing(n, &words), check(n, &words), "seed {seed}");
        if let Err(refusal) = check(n, &words) {
            assert_eq!(check_written(n, &words, b"x"), Err(refusal), "seed {seed}");
        }
    }
}

#[test]
fn every_large_table_has_a_sheet() {
    let mut longest = 0;
    let measured = MEASURED.iter().map(|measured| (measured.table)()).chain([longest_chain()]);
    let drawn = (0..60).map(|seed| random::large_table(&mut Chance::new(0x5ec0 + seed)));
    for (seed, (n, words)) in measured.chain(drawn).enumerate() {
        let (rules, values) = (rules_of(n, &words).unwrap(), evaluated(n, &words));
        let lines = good_lines(&mut Chance::new(seed as u64), &rules, &values).expect("a sheet");
        let text = text_of(&lines);
        assert!(lines.len() <= 1024 && text.len() <= 18_432);
        assert_eq!(check_reasons(n, &words, &values, &text), Ok(()), "table {seed}");
        longest = longest.max(lines.len());
    }
    assert_eq!(longest, 1024);
}

/// What the check should say, for N up to 4: by the judge's interpretations and orders, by beginnings of texts, and each line's numbers
/// as the text has them.
fn expected(Claimed { n, words, values, text }: &Claimed) -> Answer {
    if *n > 512 {
        return refused(1, 0);
    }
    if words.len() > 8192 {
        return refused(2, 0);
    }
    if (values.len() as u64) < *n {
        return refused(3, 0);
    }
    check(*n, words)?;
    if let Some(atom) = (0..*n).find(|&atom| values[atom as usize] > 3) {
        return refused(20, atom);
    }
    if let Some(place) = (0..text.len()).find(|&at| !can_begin(&text[..=at])) {
        return refused(21, place as u64);
    }
    if !is_good(text) {
        return refused(21, text.len() as u64);
    }
    let set = (0..*n as usize).fold(0, |set, atom| set | [0b10, 0b00, 0b11, 0b01][values[atom] as usize] << (2 * atom));
    let heads = random::head_places(words);
    let rules = rules_of(*n, words)?;
    if let Some(at) = (0..rules.len()).find(|&at| !judge::is_model(set, &rules[at..=at])) {
        return refused(34, heads[at] as u64);
    }
    let shown = std::str::from_utf8(text).expect("a good text");
    let lines: Vec<Vec<usize>> = shown.lines().map(|line| line.split('\t').map(|number| number.parse().unwrap()).collect()).collect();
    let wanted = judge::literals(set);
    let codes: Vec<usize> = lines.iter().map(|line| line[0]).collect();
    let same = wanted.iter().zip(&codes).take_while(|(wanted, code)| wanted == code).count();
    if same < wanted.len().max(codes.len()) {
        return refused(22, same as u64 + 1);
    }
    let mut order = [0; 32];
    for line in &lines {
        order[line[0]] = lines.iter().filter(|other| other[1] < line[1]).fold(0, |before, other| before | 1 << other[0]);
    }
    let good = |line: &Vec<usize>| {
        let (literal, head) = (line[0], line[2]);
        let Some(rule) = rules.iter().find(|rule| rule.head == head) else { return false };
        // The rule with nothing but the group named.
        let groups: Vec<_> = rule.groups.iter().skip(line[3].max(1) - 1).take(line[3].min(1)).cloned().collect();
        let named = if rule.groups.is_empty() { line[3] == 0 } else { !groups.is_empty() };
        let part = Rule { head, groups };
        let before_head = || part.groups.iter().flatten().all(|&before| judge::has(order[head], before));
        let of_i = judge::body_value(set, rule) == I && judge::body_value(set, &part) == I && judge::value(set, literal) == I;
        line[1] <= 1023
            && named
            && (head == literal && judge::supports(set, &part, &order) || head / 2 == literal / 2 && of_i && before_head())
    };
    match lines.iter().position(|line| !good(line)) {
        Some(before) => refused(22, before as u64 + 1),
        None => Ok(()),
    }
}

#[test]
fn anything_is_refused_or_accepted_as_the_definitions_say() {
    let mut met: BTreeMap<u32, u32> = BTreeMap::new();
    let mut large = BTreeMap::new();
    for seed in 0..20_000 {
        let claimed = random::any_reasons(&mut Chance::new(0x5ed0_0000 + seed));
        let Claimed { n, words, values, text } = &claimed;
        let answer = check_reasons(*n, words, values, text);
        let number = answer.err().map_or(0, |refusal| refusal.number);
        *if *n > 4 { &mut large } else { &mut met }.entry(number).or_insert(0) += 1;
        if *n <= 4 {
            assert_eq!(answer, expected(&claimed), "seed {seed}: {claimed:?}");
        }
    }
    assert_eq!(met.keys().copied().collect::<Vec<_>>(), [0, 2, 3, 4, 5, 6, 7, 20, 21, 22, 34]);
    assert_eq!(large.keys().copied().collect::<Vec<_>>(), [0, 1, 2, 3, 4, 5, 6, 7, 20, 21, 22, 34]);
    assert!(met.values().all(|&count| count > 20) && large.values().all(|&count| count > 20), "{met:?} {large:?}");
    assert!([0, 3, 20, 21, 22, 34].iter().all(|number| met[number] > 500), "{met:?}");
}

#[test]
fn every_forgery_is_refused_as_it_should_be() {
    let mut met = [[0; 3]; FORGERIES.len()];
    for seed in 0..15_000 {
        let mut chance = Chance::new(0x5ee0_0000 + seed);
        let (n, words) = if chance.one_in(2) { random::mixed_table(&mut chance) } else { random::small_table(&mut chance, 4) };
        let (rules, values) = (rules_of(n, &words).unwrap(), evaluated(n, &words));
        let lines = good_lines(&mut chance, &rules, &values).expect("a sheet");
        assert_eq!(check_reasons(n, &words, &values, &text_of(&lines)), Ok(()), "seed {seed}");
        if lines.len() < 2 {
            continue;
        }
        let at = chance.index(FORGERIES.len());
        let text = random::forged(&mut chance, n, &lines, FORGERIES[at]);
        let claimed = Claimed { n, words, values, text };
        let answer = check_reasons(n, &claimed.words, &claimed.values, &claimed.text);
        assert_eq!(answer, expected(&claimed), "seed {seed}: {claimed:?}");
        let number = answer.err().map_or(0, |refusal| refusal.number);
        assert!(FORGERIES[at].numbers().is_empty() || FORGERIES[at].numbers().contains(&number), "seed {seed}, {:?}", FORGERIES[at]);
        met[at][number.saturating_sub(20) as usize] += 1;
    }
    for (forgery, met) in FORGERIES.iter().zip(met) {
        // What leaves some sheets good leaves enough of them so, and not all.
        let enough = |number: u32| forgery.numbers().is_empty() || !forgery.numbers().contains(&number) || met[number as usize - 20] > 10;
        assert!(enough(21) && enough(22), "{forgery:?}: {met:?}");
        assert!(!forgery.numbers().is_empty() || met[0] > 3 && met[1] + met[2] > 50, "{forgery:?}: {met:?}");
    }
}
