//! The question of conflict over words: against the second implementation, and against the engine's own evaluation and settled question.

use against::cases::{Tally, cases};
use against::compare::conflict as answer;
use against::entries::{Engine, Entries, NO, YES};
use against::guard::Guarded;
use against::tables::{expect_of_lines, of_length, sound_or_faulty};
use second::random::{self, Chance};
use second::refusal::Refusal;
use second::table::{Literal, Rule, encode, negation, numbered};
use second::tables::{EXAMPLES, MEASURED, fact};
use second::truth::I;

const ANSWERS: [&str; 2] = ["conflict yes", "conflict no"];

const OF_WORDS: [&str; 4] = ["conflict 4", "conflict 5", "conflict 6", "conflict 7"];

const OF_LIMITS: [&str; 2] = ["conflict 1", "conflict 2"];

/// Both sides say the same, whatever it is.
fn compare(n: u64, words: &[u16], tally: &mut Tally) {
    let _ = answer(n, words, tally);
}

/// The same for rules, with lines 1, 2, 3 ..; whether they are in conflict.
fn in_conflict(n: u64, rules: &[Rule], tally: &mut Tally) -> bool {
    answer(n, &encode(&numbered(rules)), tally).expect("an accepted table") == YES
}

fn rests_on(head: Literal, literal: Literal) -> Rule {
    Rule { head, groups: vec![vec![literal]] }
}

#[test]
fn small_tables() {
    let mut chance = Chance::new(0xc0f1);
    let mut tally = Tally::default();
    for _ in 0..cases(1_200_000) {
        let (n, words) = random::small_table(&mut chance, 6);
        compare(n, &words, &mut tally);
    }
    tally.expect(&ANSWERS, cases(300_000));
}

#[test]
fn small_tables_with_a_word_altered_or_cut() {
    let mut chance = Chance::new(0xc0f2);
    let mut tally = Tally::default();
    for _ in 0..cases(1_000_000) {
        let (mut n, mut words) = random::small_table(&mut chance, 5);
        match chance.below(8) {
            0 => n = random::awkward_number(&mut chance, n),
            1 => words.truncate(chance.index(words.len() + 1)),
            2 => random::damage_record(&mut chance, n, &mut words),
            3..6 if !words.is_empty() => {
                let at = chance.index(words.len());
                words[at] = chance.of(&[0, 1, 2, 3, 2 * n as u16 - 1, 2 * n as u16, 64, 65, 32_768, 32_769, u16::MAX]);
            }
            _ => {}
        }
        compare(n, &words, &mut tally);
    }
    tally.expect(&[&ANSWERS[..], &OF_LIMITS[..1], &OF_WORDS].concat(), cases(20_000));
    expect_of_lines(&tally, cases(10_000));
}

#[test]
fn random_and_damaged_tables() {
    let mut chance = Chance::new(0xc0f3);
    let mut tally = Tally::default();
    for _ in 0..cases(50_000) {
        let (n, words) = random::any_table(&mut chance);
        let lent = Guarded::new(&words, 3);
        compare(n, lent.row(), &mut tally);
        assert!(lent == Guarded::new(&words, 3), "the table was altered");
    }
    tally.expect(&[&ANSWERS[..], &OF_LIMITS, &OF_WORDS].concat(), cases(1_000));
    expect_of_lines(&tally, cases(200));
}

#[test]
fn large_tables() {
    let mut chance = Chance::new(0xc0f4);
    let mut tally = Tally::default();
    for _ in 0..cases(2_000) {
        let (n, words) = random::large_table(&mut chance);
        compare(n, &words, &mut tally);
    }
    tally.expect(&ANSWERS, cases(200));
}

#[test]
fn every_table_of_two_atoms_with_one_group_or_two_single_literals() {
    let mut bodies: Vec<Option<Vec<Vec<Literal>>>> = vec![None, Some(Vec::new())];
    bodies.extend((1..16).map(|set| Some(vec![(0..4).filter(|literal| set >> literal & 1 == 1).collect()])));
    bodies.extend((0..4).flat_map(|a| (0..a).map(move |b| Some(vec![vec![a], vec![b]]))));
    let mut tally = Tally::default();
    for number in 0..bodies.len().pow(4) {
        let body = |head: usize| bodies[number / bodies.len().pow(head as u32) % bodies.len()].clone();
        let rules: Vec<Rule> = (0..4).filter_map(|head| Some(Rule { head, groups: body(head)? })).collect();
        in_conflict(2, &rules, &mut tally);
    }
    assert_eq!(tally.total(), 23u64.pow(4));
    tally.expect(&ANSWERS, 15_000);
}

/// N atoms with one literal each as a fact, of either sign.
fn one_literal_each(n: usize) -> Vec<Rule> {
    (0..n).map(|atom| fact(2 * atom + atom % 3 % 2)).collect()
}

#[test]
fn one_atom_is_in_conflict_whichever_it_is() {
    let mut tally = Tally::default();
    for n in [1, 2, 31, 32, 33, 63, 64, 65, 127, 128, 129, 511, 512] {
        let rules = one_literal_each(n);
        assert!(!in_conflict(n as u64, &rules, &mut tally), "N {n}");
        for atom in 0..n {
            let missing = negation(rules[atom].head);
            // The missing literal first, last, by a rule that rests on a neighbour, and by one on its own negation.
            let near = rules[(atom + 1) % n].head;
            let by_rules = [(atom, rests_on(missing, near)), (0, rests_on(missing, negation(missing)))];
            for (at, more) in [(0, fact(missing)), (n, fact(missing))].into_iter().chain(by_rules) {
                let mut rules = rules.clone();
                rules.insert(at, more);
                assert!(in_conflict(n as u64, &rules, &mut tally), "N {n}, atom {atom}");
            }
            // By a rule that does not fire, as its group has a literal that is not held.
            let rules = [rules.clone(), vec![Rule { head: missing, groups: vec![vec![near, missing]] }]].concat();
            assert!(!in_conflict(n as u64, &rules, &mut tally), "N {n}, atom {atom}");
        }
    }
    tally.expect(&ANSWERS, 1_500);
}

#[test]
fn both_literals_of_one_atom_alone() {
    let mut tally = Tally::default();
    for n in [1, 2, 64, 256, 511, 512] {
        for atom in 0..n as usize {
            for (first, second) in [(2 * atom, 2 * atom + 1), (2 * atom + 1, 2 * atom)] {
                assert!(in_conflict(n, &[fact(first), fact(second)], &mut tally));
                assert!(in_conflict(n, &[rests_on(first, second), fact(second)], &mut tally));
                assert!(!in_conflict(n, &[fact(first)], &mut tally));
                // P2, and each resting on the other.
                assert!(!in_conflict(n, &[rests_on(first, second)], &mut tally));
                assert!(!in_conflict(n, &[rests_on(first, second), rests_on(second, first)], &mut tally));
                // Literals of two atoms that are neighbours in code.
                if atom > 0 {
                    assert!(!in_conflict(n, &[fact(2 * atom - 1), fact(2 * atom)], &mut tally));
                }
            }
        }
    }
    tally.expect(&ANSWERS, 5_000);
}

/// The literals of a chain over so many atoms, of either sign, each to rest on the one before.
fn chain(length: usize) -> Vec<Literal> {
    (0..length).map(|atom| 2 * atom + atom / 2 % 2).collect()
}

#[test]
fn a_conflict_at_the_end_of_a_chain_written_back_to_front() {
    let mut tally = Tally::default();
    for length in (1..40).chain([63, 64, 65, 127, 128, 129, 255, 256, 384, 510, 511, 512]) {
        let literals = chain(length);
        let links: Vec<Rule> = (1..length).rev().map(|i| rests_on(literals[i], literals[i - 1])).collect();
        let last = literals[length - 1];
        for clash in [rests_on(negation(last), last), fact(negation(last))] {
            for n in [length, 512] {
                // The clash first, then the links from the end, then the fact that they rest on.
                let rules = [vec![clash.clone()], links.clone(), vec![fact(literals[0])]].concat();
                assert!(in_conflict(n as u64, &rules, &mut tally), "length {length}");
                // Without the fact, and without a link.
                assert!(!in_conflict(n as u64, &rules[..length], &mut tally), "length {length}");
                if length > 1 {
                    let broken = [&rules[..length / 2], &rules[length / 2 + 1..]].concat();
                    assert!(!in_conflict(n as u64, &broken, &mut tally), "length {length}");
                }
            }
        }
    }
    tally.expect(&ANSWERS, 200);
}

/// Blocks in which one mark lets the next be made: x0; b_i: x_i; x_{i+1}; -x_{i+1}: -b_i. Atom x_i is 2i, b_i the next.
fn blocks(count: usize) -> Vec<Rule> {
    let (x, b) = (|i: usize| 4 * i, |i: usize| 4 * i + 2);
    let mut rules = vec![fact(x(0))];
    for i in 0..count {
        rules.push(rests_on(b(i), x(i)));
        if i + 1 < count {
            rules.extend([fact(x(i + 1)), rests_on(negation(x(i + 1)), negation(b(i)))]);
        }
    }
    rules
}

#[test]
fn atoms_that_are_inconsistent_only_after_marks() {
    let mut tally = Tally::default();
    for count in [1, 2, 3, 8, 31, 32, 33, 64] {
        let rules = blocks(count);
        let n = 2 * count as u64;
        // Where nothing is marked first, nothing is inconsistent.
        assert!(!in_conflict(n, &rules, &mut tally), "{count} blocks");
        for at in [0, rules.len() / 2, rules.len()] {
            let mut rules = rules.clone();
            rules.insert(at, fact(1));
            assert!(in_conflict(n, &rules, &mut tally), "{count} blocks");
            let mut values = vec![9; n as usize];
            assert_eq!(Engine.evaluate(n, &encode(&numbered(&rules)), &mut values), Ok(0));
            assert!(values.iter().all(|&value| value == I), "{count} blocks: {values:?}");
        }
    }
    tally.expect(&ANSWERS, 8);
}

#[test]
fn p1_to_p12() {
    let mut tally = Tally::default();
    for example in EXAMPLES {
        let expected = matches!(example.name, "P5" | "P7" | "P9" | "P10" | "P11" | "P12");
        assert_eq!(in_conflict(example.table().n(), &example.table().rules, &mut tally), expected, "{}", example.name);
    }
    tally.expect(&ANSWERS, 6);
}

#[test]
fn the_measured_tables() {
    let mut tally = Tally::default();
    for measured in MEASURED {
        let (n, words) = (measured.table)();
        let expected = if matches!(measured.name, "chain512" | "max_t") { NO } else { YES };
        assert_eq!(answer(n, &words, &mut tally), Ok(expected), "{}", measured.name);
    }
    tally.expect(&ANSWERS, 2);
}

#[test]
fn awkward_numbers_of_atoms() {
    let mut tally = Tally::default();
    let ns = [0, 1, 2, 511, 512, 513, 514, 1 << 16, 1 << 31, 1 << 32, (1 << 32) + 1, (1 << 32) + 512, 1 << 63, (1 << 63) + 1, u64::MAX];
    for n in ns {
        for atom in [0, 1, 2, 255, 256, 510, 511, 512, 513, 16_384, 32_767] {
            let (p, q) = (2 * atom, 2 * atom + 1);
            for words in [&[][..], &[p, 0, 0], &[p, 0, 0, q, 0, 0], &[q, 7, 0, p, 7, 1, 1, q], &[p, 0, 0, p, 0, 0], &[p], &[p, 40_000, 0]] {
                compare(n, words, &mut tally);
            }
        }
        // 1 before 2, and 2 before the words.
        compare(n, &vec![0; 8193], &mut tally);
        compare(n, &vec![u16::MAX; 8193], &mut tally);
        assert_eq!(Engine.conflict(n, &[9; 8193]), Err(Refusal { number: if n > 512 { 1 } else { 2 }, place: 0 }), "N {n}");
    }
    tally.expect(&[&ANSWERS[..], &OF_LIMITS, &OF_WORDS].concat(), 10);
}

#[test]
fn at_8191_8192_and_8193_words() {
    let mut tally = Tally::default();
    for length in [8186, 8189, 8190, 8191, 8192, 8193, 8194, 16_384, 65_536, 65_538] {
        let words = of_length(length);
        assert_eq!(answer(512, &words, &mut tally).is_ok(), length <= 8192, "{length} words");
        // Both literals of an atom that heads no other rule, at the end or at the start; a fault in the last record or the first; cut.
        let pair = [1022, 0, 0, 1023, 0, 0];
        for words in [[&of_length(length - 6)[..], &pair].concat(), [&pair, &of_length(length - 6)[..]].concat()] {
            assert_eq!(words.len(), length);
            let expected = if length <= 8192 { Ok(YES) } else { Err(Refusal { number: 2, place: 0 }) };
            assert_eq!(answer(512, &words, &mut tally), expected, "{length} words");
            let last = length - 3;
            for (at, word) in [(last + 2, 65), (last + 1, 32_769), (last, 1024), (last, 1022), (2, 65), (1, u16::MAX), (0, 1024)] {
                let mut words = words.clone();
                words[at] = word;
                compare(512, &words, &mut tally);
            }
            for cut in [1, 2, 3, 4] {
                compare(512, &words[..length - cut], &mut tally);
            }
        }
    }
    tally.expect(&[&ANSWERS[..], &OF_LIMITS[1..], &OF_WORDS].concat(), 4);
}

#[test]
fn a_conflict_before_a_faulty_word_is_no_answer() {
    let mut chance = Chance::new(0xc0f5);
    let mut tally = Tally::default();
    for _ in 0..cases(100_000) {
        // Every table begins with a conflict; what is behind it is accepted, damaged or cut.
        let (n, words) = sound_or_faulty(&mut chance);
        let pair = 2 * n as u16;
        let words = [&[pair, 1, 0, pair + 1, 2, 0][..], &words].concat();
        assert_eq!(answer(n + 1, &words, &mut tally), Engine.check(n + 1, &words).map(|_| YES));
    }
    tally.expect(&[&ANSWERS[..1], &OF_WORDS].concat(), cases(3_000));
}
