//! The judge against Definition 9 read word for word.

use second::judge::*;
use second::random::{self, Chance};
use second::table::rules_of;
use second::tables::written;
use second::truth::{F, I, T, U};

#[test]
fn there_are_as_many_strict_partial_orders_as_known() {
    assert_eq!([0, 1, 2, 3, 4].map(|size| strict_partial_orders(size).len()), [1, 1, 3, 19, 219]);
}

#[test]
fn a_literal_has_the_value_of_definition_5() {
    let (a, not_a) = (0, 1);
    assert_eq!([0b00, 0b01, 0b10, 0b11].map(|set| value(set, a)), [U, T, F, I]);
    assert_eq!([0b00, 0b01, 0b10, 0b11].map(|set| value(set, not_a)), [U, F, T, I]);
}

#[test]
fn example_7_and_11_of_the_paper() {
    let table = written(&["wait: overloaded / rest_time", "rest_time: wait", "-overloaded: rest_time", "overloaded"]);
    let set = |literals: &[&str]| literals.iter().fold(0u32, |set, text| set | 1 << table.literal(text));
    let minimal = set(&["overloaded", "-overloaded", "wait", "rest_time"]);
    let right = set(&["overloaded", "-overloaded", "wait", "-wait", "rest_time", "-rest_time"]);
    assert!(is_model(minimal, &table.rules));
    assert!(!is_well_supported(3, minimal, &table.rules));
    assert!(is_well_supported(3, right, &table.rules));
    assert_eq!(smallest(&well_supported_models(3, &table.rules)), Some(right));
}

#[test]
fn remark_10_of_the_paper() {
    let all = 0b1111;
    let first = written(&["-rest: overloaded", "rest", "overloaded", "-overloaded"]);
    assert!(is_well_supported(2, all, &first.rules));
    let second = written(&["-rest", "rest", "overloaded", "-overloaded"]);
    assert!(is_well_supported(2, all, &second.rules));
}

#[test]
fn condition_8_asks_for_a_body_exactly_i() {
    // In {p, -p, a, -a, b} the body of -p is t by b, so its i group a does not serve p, which has no rule.
    let table = written(&["-p: a / b", "a", "-a", "b"]);
    let set = |literals: &[&str]| literals.iter().fold(0u32, |set, text| set | 1 << table.literal(text));
    let both = set(&["p", "-p", "a", "-a", "b"]);
    assert!(is_model(both, &table.rules));
    assert!(!is_well_supported(3, both, &table.rules));
    // Without b the body is exactly i, and p rests on the rule of -p.
    let table = written(&["-p: a / b", "a", "-a"]);
    let both = 0b001111;
    assert!(is_well_supported(3, both, &table.rules));
}

#[test]
fn only_one_literal_of_an_atom_goes_free() {
    // a and -b free, then b after a, and -a after -b.
    let four = written(&["a: b", "-a: -b", "b: a", "-b: -a"]);
    assert!(is_well_supported(2, 0b1111, &four.rules));
    // a after b and b after a: no order, whatever goes free.
    let two = written(&["a: b", "b: a"]);
    assert!(!is_well_supported(2, 0b1111, &two.rules));
    // Both literals of b come before its only rule's head.
    let own = written(&["-b: b -b"]);
    assert!(!is_well_supported(1, 0b11, &own.rules));
}

#[test]
fn the_smallest_is_contained_in_all_others() {
    assert_eq!(smallest(&[0b01, 0b10]), None);
    assert_eq!(smallest(&[0b011, 0b010, 0b110]), Some(0b010));
    assert_eq!(smallest(&[0b011, 0b010, 0b101]), None);
    assert_eq!(smallest(&[]), None);
}

#[test]
fn the_decision_equals_the_search_through_all_orders() {
    let orders: Vec<_> = (0..=4).map(strict_partial_orders).collect();
    let (mut yes, mut no, mut beyond) = (0, 0, 0);
    for seed in 0..1500 {
        let mut chance = Chance::new(seed);
        let (n, words) = random::small_table(&mut chance, 2);
        let rules = rules_of(n, &words).unwrap();
        for set in 0..1u32 << (2 * n) {
            let found = is_well_supported_by_orders(set, &rules, &orders[set.count_ones() as usize]);
            assert_eq!(is_well_supported(n as usize, set, &rules), found, "seed {seed}, set {set:b}, {rules:?}");
            match found {
                true => yes += 1,
                false if is_model(set, &rules) => no += 1,
                false => {}
            }
        }
        beyond += (well_supported_models(n as usize, &rules).len() > 1) as u32;
    }
    assert!(yes > 1500 && no > 400 && beyond > 50, "{yes} {no} {beyond}");
}

#[test]
fn the_decision_equals_the_search_through_all_lines() {
    let (mut yes, mut no) = (0, 0);
    for seed in 0..400 {
        let mut chance = Chance::new(10_000 + seed);
        let (n, words) = random::small_table(&mut chance, 3);
        let rules = rules_of(n, &words).unwrap();
        for set in 0..1u32 << (2 * n) {
            let found = is_well_supported_by_lines(set, &rules);
            assert_eq!(is_well_supported(n as usize, set, &rules), found, "seed {seed}, set {set:b}, {rules:?}");
            match found {
                true => yes += 1,
                false if is_model(set, &rules) => no += 1,
                false => {}
            }
        }
    }
    assert!(yes > 400 && no > 200, "{yes} {no}");
}

#[test]
fn the_whole_herbrand_base_is_a_model() {
    for seed in 0..200 {
        let mut chance = Chance::new(seed);
        let (n, words) = random::small_table(&mut chance, 4);
        let rules = rules_of(n, &words).unwrap();
        assert!(is_model((1u32 << (2 * n)) - 1, &rules));
    }
    assert!(!is_model(0, &written(&["a"]).rules));
}
