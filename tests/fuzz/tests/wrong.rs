//! Wrong engines are noticed within so many cases, and so is a byte outside a buffer.

use std::process::Command;

use fuzz::{Case, Outcome, Target, run, targets};
use second::host::whole_words;
use second::random::{heads_and_others, line_places, lines_length, table_bytes};
use second::truth::I;

/// The target with a fault laid over its engine's outcomes parts from the second implementation within so many cases.
fn noticed(mut target: Target, within: u64, fault: fn(&Case, &mut Outcome)) {
    let mut engine = target.engine;
    target.engine = Box::new(move |case| {
        let mut outcome = engine(case);
        fault(case, &mut outcome);
        outcome
    });
    assert!(run(&mut target, 1, |number| number < within).is_err(), "not noticed in {within} cases");
}

fn number(outcome: &Outcome) -> u64 {
    outcome.answer >> 32
}

#[test]
fn evaluation_with_i_for_t_in_a_table_of_many_atoms() {
    noticed(targets::evaluation(), 5_000, |case, outcome| {
        if case.n > 100 && number(outcome) == 0 {
            if let Some(value) = outcome.left[0].iter_mut().find(|value| **value == 3) {
                *value = 2;
            }
        }
    });
}

#[test]
fn evaluation_with_a_place_too_low() {
    noticed(targets::evaluation(), 5_000, |_, outcome| {
        if number(outcome) == 7 {
            outcome.answer -= 1;
        }
    });
}

#[test]
fn evaluation_that_writes_on_a_refusal() {
    noticed(targets::evaluation(), 5_000, |_, outcome| {
        if number(outcome) == 6 && !outcome.left[0].is_empty() {
            outcome.left[0][0] ^= 1;
        }
    });
}

/// Whether the place of a refusal is a line of the table.
fn at_a_line(case: &Case, outcome: &Outcome) -> bool {
    line_places(&whole_words(&case.bytes).0).contains(&((outcome.answer & 0xffff_ffff) as usize))
}

#[test]
fn evaluation_that_takes_a_line_above_32768() {
    noticed(targets::evaluation(), 500, |case, outcome| {
        if number(outcome) == 6 && at_a_line(case, outcome) {
            outcome.answer = 0;
        }
    });
}

#[test]
fn evaluation_that_looks_at_m_before_the_line() {
    noticed(targets::evaluation(), 5_000, |case, outcome| {
        let m = whole_words(&case.bytes).0.get((outcome.answer & 0xffff_ffff) as usize + 1).copied();
        if number(outcome) == 6 && at_a_line(case, outcome) && m.is_some_and(|m| m > 64) {
            outcome.answer += 1;
        }
    });
}

#[test]
fn evaluation_that_depends_on_a_line() {
    noticed(targets::evaluation(), 500, |case, outcome| {
        let (words, _) = whole_words(&case.bytes);
        if number(outcome) == 0 && line_places(&words).into_iter().any(|at| words[at] == 32_768) {
            outcome.left[0][0] = 1;
        }
    });
}

/// The values of an accepted table.
fn values(case: &Case) -> Vec<u8> {
    let mut values = vec![9; case.n as usize];
    assert_eq!(second::host::simmerknot_evaluate(case.n, &case.bytes, &mut values), 0);
    values
}

#[test]
fn conflict_that_is_always_no() {
    noticed(targets::conflict(), 500, |_, outcome| {
        if number(outcome) == 0 {
            outcome.answer = 0;
        }
    });
}

#[test]
fn conflict_that_is_always_yes() {
    noticed(targets::conflict(), 500, |_, outcome| {
        if number(outcome) == 0 {
            outcome.answer = 1;
        }
    });
}

#[test]
fn conflict_that_looks_at_atom_0_alone() {
    noticed(targets::conflict(), 500, |case, outcome| {
        if number(outcome) == 0 {
            outcome.answer = (values(case).first() == Some(&I)) as u64;
        }
    });
}

#[test]
fn conflict_that_overlooks_the_last_atom() {
    noticed(targets::conflict(), 5_000, |case, outcome| {
        if number(outcome) == 0 {
            outcome.answer = values(case).iter().rev().skip(1).any(|&value| value == I) as u64;
        }
    });
}

#[test]
fn conflict_with_a_lone_byte_before_the_words() {
    noticed(targets::conflict(), 500, |case, outcome| {
        if number(outcome) > 4 && case.bytes.len() % 2 == 1 {
            outcome.answer = (4 << 32) + case.bytes.len() as u64 / 2;
        }
    });
}

#[test]
fn conflict_with_2_before_1() {
    noticed(targets::conflict(), 5_000, |case, outcome| {
        if number(outcome) == 1 && case.bytes.len() / 2 > 8192 {
            outcome.answer = 2 << 32;
        }
    });
}

#[test]
fn conflict_with_a_lone_byte_counted_for_2() {
    noticed(targets::conflict(), 20_000, |case, outcome| {
        if case.n <= 512 && case.bytes.len() == 2 * 8192 + 1 {
            outcome.answer = 2 << 32;
        }
    });
}

#[test]
fn conflict_that_depends_on_a_line() {
    noticed(targets::conflict(), 500, |case, outcome| {
        let (words, _) = whole_words(&case.bytes);
        if number(outcome) == 0 && line_places(&words).into_iter().any(|at| words[at] == 32_768) {
            outcome.answer = 1;
        }
    });
}

/// How many lines the text of a case has.
fn lines(case: &Case) -> u64 {
    case.lent[1].iter().filter(|&&byte| byte == b'\n').count() as u64
}

#[test]
fn check_with_lines_counted_from_0() {
    noticed(targets::check_reasons(), 100, |_, outcome| {
        if number(outcome) == 22 {
            outcome.answer -= 1;
        }
    });
}

#[test]
fn check_that_takes_lines_missing_at_the_end() {
    noticed(targets::check_reasons(), 500, |case, outcome| {
        if outcome.answer == (22 << 32) + lines(case) + 1 {
            outcome.answer = 0;
        }
    });
}

#[test]
fn check_that_takes_what_is_said_in_the_last_line() {
    noticed(targets::check_reasons(), 500, |case, outcome| {
        if outcome.answer == (22 << 32) + lines(case) {
            outcome.answer = 0;
        }
    });
}

#[test]
fn check_that_takes_a_text_without_its_last_byte_10() {
    noticed(targets::check_reasons(), 5_000, |case, outcome| {
        let whole = [&case.lent[1][..], b"\n"].concat();
        if outcome.answer == (21 << 32) + case.lent[1].len() as u64 {
            outcome.answer = second::host::simmerknot_check_reasons(case.n, &case.bytes, &case.lent[0], &whole);
        }
    });
}

#[test]
fn check_with_34_after_22() {
    noticed(targets::check_reasons(), 500, |case, outcome| {
        if number(outcome) == 34 && lines(case) == 0 {
            outcome.answer = (22 << 32) + 1;
        }
    });
}

#[test]
fn check_that_looks_at_values_past_n() {
    noticed(targets::check_reasons(), 500, |case, outcome| {
        if outcome.answer == 0 && let Some(atom) = case.lent[0].iter().position(|&value| value > 3) {
            outcome.answer = (20 << 32) + atom as u64;
        }
    });
}

#[test]
fn check_that_meets_a_lone_byte_last() {
    noticed(targets::check_reasons(), 500, |case, outcome| {
        if number(outcome) == 4 && case.bytes.len() % 2 == 1 {
            let whole = &case.bytes[..case.bytes.len() - 1];
            let answer = second::host::simmerknot_check_reasons(case.n, whole, &case.lent[0], &case.lent[1]);
            outcome.answer = if answer == 0 { outcome.answer } else { answer };
        }
    });
}

#[test]
fn check_that_depends_on_a_line() {
    noticed(targets::check_reasons(), 500, |case, outcome| {
        let (words, _) = whole_words(&case.bytes);
        if outcome.answer == 0 && line_places(&words).into_iter().any(|at| words[at] == 32_768) {
            outcome.answer = (22 << 32) + 1;
        }
    });
}

#[test]
fn reasons_written_on_a_refusal() {
    noticed(targets::reasons(), 500, |_, outcome| {
        if number(outcome) == 6 && !outcome.left[0].is_empty() {
            outcome.left[0][0] ^= 1;
        }
    });
}

#[test]
fn reasons_with_a_lone_byte_before_the_words() {
    noticed(targets::reasons(), 500, |case, outcome| {
        if number(outcome) > 4 && case.bytes.len() % 2 == 1 {
            outcome.answer = (4 << 32) + case.bytes.len() as u64 / 2;
        }
    });
}

#[test]
fn sheet_with_lines_counted_from_0() {
    noticed(targets::sheet(), 50, |_, outcome| {
        if number(outcome) == 0 {
            let (mut words, _) = whole_words(&outcome.left[0]);
            let filled = words.iter().rposition(|&word| word != 0).map_or(0, |last| last + 1);
            for at in line_places(&words[..filled]) {
                words[at] -= 1;
            }
            let bytes = table_bytes(&words);
            outcome.left[0][..bytes.len()].copy_from_slice(&bytes);
        }
    });
}

#[test]
fn sheet_with_a_surplus_byte_cleared() {
    noticed(targets::sheet(), 5_000, |_, outcome| {
        let words = &mut outcome.left[0];
        if words.len() % 2 == 1 {
            *words.last_mut().unwrap() = 0;
        }
    });
}

#[test]
fn sheet_that_refuses_a_text_room_of_exactly_the_length() {
    noticed(targets::sheet(), 5_000, |_, outcome| {
        if outcome.answer == outcome.left[2].len() as u64 {
            outcome.answer += 15 << 32;
        }
    });
}

#[test]
fn sheet_with_12_in_the_place_of_7() {
    noticed(targets::sheet(), 5_000, |_, outcome| {
        if number(outcome) == 12 {
            outcome.answer -= 5 << 32;
        }
    });
}

/// The lines of a value sheet that are kept.
fn kept(lines: &[u8], keep: impl Fn(&[u8]) -> bool) -> Vec<u8> {
    lines.split_inclusive(|&byte| byte == b'\n').filter(|line| keep(line)).flatten().copied().collect()
}

/// An accepted sheet's value sheet with only some of its lines, in the room as it was lent.
fn keep(case: &Case, outcome: &mut Outcome, keep: impl Fn(&[u8]) -> bool) {
    let lines = kept(&outcome.left[2][..outcome.answer as usize], keep);
    outcome.left[2] = case.lent[2].clone();
    outcome.left[2][..lines.len()].copy_from_slice(&lines);
    outcome.answer = lines.len() as u64;
}

#[test]
fn sheet_without_the_lines_of_names_only_in_bodies() {
    noticed(targets::sheet(), 500, |case, outcome| {
        if number(outcome) == 0 {
            let (heads, _) = heads_and_others(&case.bytes);
            keep(case, outcome, |line| heads.iter().any(|name| *name.of(&case.bytes) == line[..line.len() - 3]));
        }
    });
}

#[test]
fn sheet_without_lines_where_the_value_is_u() {
    noticed(targets::sheet(), 500, |case, outcome| {
        if number(outcome) == 0 {
            keep(case, outcome, |line| !line.ends_with(b"\tu\n"));
        }
    });
}

#[test]
fn sheet_with_15_that_counts_the_lines_of_the_heads_alone() {
    noticed(targets::sheet(), 500, |case, outcome| {
        if number(outcome) == 15 {
            outcome.answer = (15 << 32) + lines_length(&heads_and_others(&case.bytes).0) as u64;
        }
    });
}

fn simmer() -> Target {
    targets::program(concat!(env!("CARGO_MANIFEST_DIR"), "/../../crates/simmer/out/simmer").into())
}

#[test]
fn program_without_its_last_line() {
    noticed(simmer(), 500, |_, outcome| {
        let printed = &mut outcome.left[0];
        if printed.iter().filter(|&&byte| byte == b'\n').count() > 10 {
            printed.truncate(printed.len() - 1);
        }
    });
}

#[test]
fn program_without_lines_where_the_value_is_u() {
    noticed(simmer(), 50, |_, outcome| outcome.left[0] = kept(&outcome.left[0], |line| !line.ends_with(b"\tu\n")));
}

#[test]
fn program_with_another_status() {
    noticed(simmer(), 500, |_, outcome| {
        if outcome.left[0].starts_with(b"refused\t11\t") {
            outcome.answer = 1;
        }
    });
}

#[test]
fn the_right_engines_pass() {
    let calls = [targets::evaluation(), targets::conflict(), targets::reasons(), targets::check_reasons(), targets::sheet()];
    for (mut target, most) in calls.into_iter().map(|target| (target, 500)).chain([(simmer(), 50)]) {
        if let Err(parting) = run(&mut target, 2, |number| number < most) {
            panic!("{}: {}", target.name, parting.said());
        }
    }
}

#[test]
fn a_byte_outside_a_buffer() {
    for which in ["behind", "in_front"] {
        let run = Command::new(env!("CARGO_BIN_EXE_fuzz")).args(["touch", which]).output().unwrap();
        assert_eq!(run.status.code(), Some(1), "{which}");
        assert!(run.stderr.starts_with(b"fuzz: the engine touched a byte outside its buffers: case 0, seed 0\n"), "{which}");
        assert!(run.stdout.is_empty(), "{which}");
    }
}
