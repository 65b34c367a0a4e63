//! The four connectives, on every code and on numbers that are none.

use against::cases::Tally;
use against::entries::{Engine, Entries, Second};

/// 0 to 8, and numbers that are 0 to 3 or near them after a wrap.
fn numbers() -> Vec<u64> {
    let mut numbers: Vec<u64> = (0..=8).collect();
    for shift in [8, 16, 31, 32, 33, 63] {
        numbers.extend((0..=4).map(|low| (1 << shift) + low));
    }
    numbers.extend((0..=4).map(|back| u64::MAX - back));
    numbers
}

#[test]
fn one_number() {
    let mut tally = Tally::default();
    for v in numbers() {
        let second = Second.not(v);
        assert_eq!(Engine.not(v), second, "not {v}");
        tally.answer("not", &second);
    }
    assert_eq!(tally.times("not ok"), 4);
    tally.expect(&["not ok", "not 20"], 4);
}

#[test]
fn two_numbers() {
    let mut tally = Tally::default();
    for v in numbers() {
        for w in numbers() {
            let [and, or, implication] = [Second.and(v, w), Second.or(v, w), Second.implication(v, w)];
            assert_eq!(Engine.and(v, w), and, "{v} and {w}");
            assert_eq!(Engine.or(v, w), or, "{v} or {w}");
            assert_eq!(Engine.implication(v, w), implication, "{v} implies {w}");
            for answer in [and, or, implication] {
                tally.answer("of two", &answer);
            }
        }
    }
    assert_eq!(tally.times("of two ok"), 48);
    tally.expect(&["of two ok", "of two 20"], 48);
}
