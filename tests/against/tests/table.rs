//! The table check, on random and damaged tables and at every limit.

use against::cases::{Tally, cases};
use against::entries::{Engine, Entries, Second};
use against::guard::Guarded;
use against::shrink::{smaller, smaller_table};
use against::tables::{self, AT_A_LINE, CUT_AFTER_HEAD, CUT_AFTER_LINE, expect_of_lines, of_length};
use second::random::{self, Chance, TABLE_DAMAGES, TableDamage};
use second::refusal::Refusal;
use second::tables::MEASURED;

const REFUSALS: [&str; 7] = ["check ok", "check 1", "check 2", "check 4", "check 5", "check 6", "check 7"];

/// Both sides answer the same; if not, the smallest table found is shown.
fn compare(n: u64, words: &[u16], tally: &mut Tally) {
    let second = Second.check(n, words);
    tables::note(tally, "check", words, &second);
    if Engine.check(n, words) != second {
        let differ = |n: u64, words: &[u16]| Engine.check(n, words) != Second.check(n, words);
        let words = smaller_table(words, |words| differ(n, words));
        let n = smaller(n, |n| differ(n, &words));
        let (engine, second) = (Engine.check(n, &words), Second.check(n, &words));
        panic!("N {n}, words {words:?}: engine {engine:?}, second implementation {second:?}");
    }
}

/// Values that a word is set to: edges of every limit.
fn edges(n: u64) -> [u16; 14] {
    let codes = 2 * n as u16;
    [0, 1, 2, 63, 64, 65, codes.wrapping_sub(1), codes, codes.wrapping_add(1), 256, 32_767, 32_768, 32_769, u16::MAX]
}

#[test]
fn random_and_damaged_tables() {
    let mut chance = Chance::new(0x7ab1e);
    let mut tally = Tally::default();
    for _ in 0..cases(100_000) {
        let (n, words) = random::any_table(&mut chance);
        let lent = Guarded::new(&words, 3);
        compare(n, lent.row(), &mut tally);
        lent.check();
    }
    tally.expect(&REFUSALS, cases(2_000));
    expect_of_lines(&tally, cases(500));
}

#[test]
fn small_tables_damaged_in_each_way() {
    let mut chance = Chance::new(0x5a11);
    let mut tally = Tally::default();
    for _ in 0..cases(150_000) {
        let (n, words) = random::small_table(&mut chance, 6);
        compare(n, &words, &mut tally);
        for damage in TABLE_DAMAGES {
            // Tables above 8,192 words take long; once in fifty is enough.
            if damage == TableDamage::WordsAbove8192 && !chance.one_in(50) {
                continue;
            }
            let (mut n, mut words) = (n, words.clone());
            random::damage_table(&mut chance, &mut n, &mut words, damage);
            compare(n, &words, &mut tally);
        }
    }
    tally.expect(&REFUSALS, cases(2_000));
}

/// Every word of a table set to every edge, and the table cut at every word.
fn every_word(n: u64, words: &[u16], tally: &mut Tally) {
    let mut changed = words.to_vec();
    for at in 0..words.len() {
        compare(n, &words[..at], tally);
        for edge in edges(n) {
            changed[at] = edge;
            compare(n, &changed, tally);
        }
        changed[at] = words[at];
    }
    compare(n, words, tally);
}

#[test]
fn every_word_of_small_tables_at_every_edge_and_cut_there() {
    let mut chance = Chance::new(0xed6e5);
    let mut tally = Tally::default();
    for _ in 0..cases(3_000) {
        let (n, words) = random::small_table(&mut chance, 5);
        every_word(n, &words, &mut tally);
        if n > 1 {
            every_word(n - 1, &words, &mut tally);
        }
    }
    tally.expect(&["check ok", "check 4", "check 5", "check 6", "check 7"], cases(10_000));
    tally.expect_also(&[(AT_A_LINE, cases(10_000)), (CUT_AFTER_HEAD, cases(10_000)), (CUT_AFTER_LINE, cases(10_000))]);
}

#[test]
fn full_tables_cut_at_every_word() {
    let mut tally = Tally::default();
    for measured in MEASURED {
        let (n, words) = (measured.table)();
        for at in 0..=words.len() {
            compare(n, &words[..at], &mut tally);
        }
    }
    tally.expect(&["check ok", "check 4"], 5_000);
    tally.expect_also(&[(CUT_AFTER_HEAD, 5_000), (CUT_AFTER_LINE, 5_000)]);
}

#[test]
fn awkward_numbers_of_atoms() {
    let mut tally = Tally::default();
    let ns = [0, 1, 2, 511, 512, 513, 514, 1 << 16, 1 << 31, 1 << 32, (1 << 32) + 1, (1 << 32) + 512, 1 << 63, u64::MAX];
    for n in ns {
        compare(n, &[], &mut tally);
        for literal in [0, 1, 2, 3, 1021, 1022, 1023, 1024, 1025, 1026, u16::MAX] {
            compare(n, &[literal], &mut tally);
            compare(n, &[literal, 0], &mut tally);
            compare(n, &[literal, 9, 0], &mut tally);
            compare(n, &[0, 9, 1, 1, literal], &mut tally);
            compare(n, &[literal, 9, 0, literal], &mut tally);
        }
        let long = vec![0; 8193];
        compare(n, &long, &mut tally);
    }
    tally.expect(&["check ok", "check 1", "check 2", "check 4", "check 5", "check 7"], 5);
}

#[test]
fn at_8191_8192_and_8193_words() {
    let mut tally = Tally::default();
    for length in [8189, 8190, 8191, 8192, 8193, 8194, 16_384, 65_536, 65_538] {
        let words = of_length(length);
        assert_eq!(words.len(), length);
        compare(512, &words, &mut tally);
        assert_eq!(Engine.check(512, &words).is_ok(), length <= 8192, "{length} words");
        // The last word faulty, one in the middle, and those of the last record up to its first k.
        let line = *random::line_places(&words).last().expect("records");
        for at in [length - 1, length - 2, length / 2, line - 1, line, line + 1, line + 2] {
            for edge in edges(512) {
                let mut words = words.clone();
                words[at] = edge;
                compare(512, &words, &mut tally);
            }
        }
        compare(512, &words[..length - 1], &mut tally);
    }
    tally.expect(&["check ok", "check 2", "check 4", "check 5", "check 6", "check 7"], 4);
}

#[test]
fn m_and_k_at_0_63_64_and_65() {
    let mut tally = Tally::default();
    let near = [0, 1, 2, 62, 63, 64, 65, 66, 128, 320];
    for m in near {
        for k in near {
            let mut words = vec![3, 65, m];
            for _ in 0..m {
                words.push(k);
                words.extend((0..k).map(|i| i % 4));
            }
            compare(2, &words, &mut tally);
            let accepted = m <= 64 && (m == 0 || (1..=64).contains(&k));
            assert_eq!(Engine.check(2, &words).is_ok(), accepted, "m {m}, k {k}");
            // Every cut of the first two groups and of the last one.
            for at in (0..words.len()).filter(|&at| at < 140 || at + 70 > words.len()) {
                compare(2, &words[..at], &mut tally);
            }
            words.extend([3, 65, 0]);
            compare(2, &words, &mut tally);
        }
    }
    tally.expect(&["check ok", "check 2", "check 4", "check 6", "check 7"], 30);
}

#[test]
fn lines_of_every_number() {
    let mut tally = Tally::default();
    // The first record's, that of a later one, and that of the last one with a group.
    let tables: [(&[u16], usize); 3] = [(&[1, 0, 0], 1), (&[0, 3, 1, 1, 2, 3, 0, 0], 6), (&[2, 0, 0, 0, 0, 1, 2, 1, 3], 4)];
    for line in 0..=u16::MAX {
        for (words, at) in tables {
            let mut words = words.to_vec();
            words[at] = line;
            compare(2, &words, &mut tally);
            let expected = if line <= 32_768 { Ok(0) } else { Err(Refusal { number: 6, place: at as u64 }) };
            assert_eq!(Engine.check(2, &words), expected, "line {line}");
        }
    }
    tally.expect(&["check ok", "check 6"], 3 * 32_767);
    tally.expect_also(&[(AT_A_LINE, 3 * 32_767)]);
}

#[test]
fn lines_that_mix_repeat_or_fall() {
    let mut tally = Tally::default();
    let lines = [0, 1, 2, 64, 65, 32_767, 32_768];
    for one in lines {
        for two in lines {
            for three in lines {
                compare(2, &[0, one, 0, 3, two, 1, 1, 0, 1, three, 0], &mut tally);
            }
        }
    }
    tally.expect(&["check ok"], 343);
}

#[test]
fn faults_of_head_line_and_m_in_one_record() {
    let mut tally = Tally::default();
    // Before them nothing, or a record of head 0.
    for before in [&[][..], &[0, 7, 0]] {
        for head in [0, 1, 2, 3, 4, 5, u16::MAX] {
            for line in [0, 1, 32_767, 32_768, 32_769, 40_000, u16::MAX] {
                for m in [0, 1, 64, 65, u16::MAX] {
                    let words = [before, &[head, line, m, 1, 3]].concat();
                    for cut in before.len()..=words.len() {
                        compare(2, &words[..cut], &mut tally);
                    }
                }
            }
        }
    }
    let at = |words: &[u16]| Engine.check(1, words).expect_err("a refusal");
    assert_eq!(at(&[0, 0, 0, 0, 40_000, 0]), Refusal { number: 7, place: 3 });
    assert_eq!(at(&[2, 40_000, 65]), Refusal { number: 5, place: 0 });
    assert_eq!(at(&[0, 40_000, 65]), Refusal { number: 6, place: 1 });
    assert_eq!(at(&[0]), Refusal { number: 4, place: 1 });
    assert_eq!(at(&[0, 32_768]), Refusal { number: 4, place: 2 });
    assert_eq!(Engine.check(1, &[0, 9, 0, 1, 0, 0]), Ok(0));
    tally.expect(&["check ok", "check 4", "check 5", "check 6", "check 7"], 50);
    expect_of_lines(&tally, 40);
}
