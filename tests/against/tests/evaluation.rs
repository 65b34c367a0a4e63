//! Whole evaluation over words: random tables, the measured ones, P1 to P12, and picks until settled.

use against::cases::{Tally, cases};
use against::compare::evaluation as compare;
use against::entries::{Engine, Entries};
use against::tables::expect_of_lines;
use against::trace::passes_until_settled;
use second::random::{self, Chance};
use second::tables::{EXAMPLES, MEASURED};

const REFUSALS: [&str; 8] = [
    "evaluate ok", "evaluate 1", "evaluate 2", "evaluate 3", "evaluate 4", "evaluate 5", "evaluate 6", "evaluate 7",
];

#[test]
fn random_and_damaged_tables() {
    let mut chance = Chance::new(0xe7a1);
    let mut tally = Tally::default();
    for _ in 0..cases(60_000) {
        let (n, words) = random::any_table(&mut chance);
        let room = random::value_room(&mut chance, n);
        compare(n, &words, &room, &mut tally);
    }
    tally.expect(&REFUSALS, cases(500));
    expect_of_lines(&tally, cases(200));
}

#[test]
fn small_tables() {
    let mut chance = Chance::new(0xe7a2);
    let mut tally = Tally::default();
    for _ in 0..cases(1_000_000) {
        let (n, words) = random::small_table(&mut chance, 6);
        let room = random::value_room(&mut chance, n);
        compare(n, &words, &room, &mut tally);
    }
    tally.expect(&["evaluate ok", "evaluate 3"], cases(100_000));
}

#[test]
fn the_measured_tables() {
    let mut tally = Tally::default();
    for measured in MEASURED {
        let (n, words) = (measured.table)();
        compare(n, &words, &vec![9; n as usize + 5], &mut tally);
    }
    tally.expect(&["evaluate ok"], MEASURED.len() as u64);
}

#[test]
fn p1_to_p12() {
    for example in EXAMPLES {
        let table = example.table();
        let mut values = vec![9; table.n() as usize + 1];
        assert_eq!(Engine.evaluate(table.n(), &table.words(), &mut values), Ok(0), "{}", example.name);
        assert_eq!(values.pop(), Some(9), "{}", example.name);
        assert_eq!(values, example.values_in_order(), "{}", example.name);
    }
}

#[test]
fn evaluation_equals_the_report_after_picks_in_any_order() {
    let mut chance = Chance::new(0xe7a3);
    for _ in 0..cases(20_000) {
        let (n, words) = random::small_table(&mut chance, 12);
        let (_, record) = passes_until_settled(&Engine, n, &words, &mut chance);
        let (mut reported, mut evaluated) = (vec![9; n as usize], vec![9; n as usize]);
        assert_eq!(Engine.report(&record, &words, &mut reported), Ok(0));
        assert_eq!(Engine.evaluate(n, &words, &mut evaluated), Ok(0));
        assert_eq!(reported, evaluated, "N {n}, words {words:?}");
    }
}
