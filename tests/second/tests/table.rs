//! The table check: each refusal, its place, and which comes first.

use second::random::{self, Chance, TABLE_DAMAGES};
use second::refusal::Refusal;
use second::table::{Record, check, encode, numbered, parse, rules_of};
use second::tables::written;

fn refused(number: u32, place: u64) -> Result<(), Refusal> {
    Err(Refusal { number, place })
}

#[test]
fn accepted_tables() {
    assert_eq!(check(0, &[]), Ok(()));
    assert_eq!(check(512, &[]), Ok(()));
    // Repeated literals, equal groups, opposite literals in one group and the head in its own body.
    let odd = written(&["a: a a / a -a / a -a", "-a: b b b"]);
    assert_eq!(odd.words(), [0, 1, 3, 2, 0, 0, 2, 0, 1, 2, 0, 1, 1, 2, 1, 3, 2, 2, 2]);
    assert_eq!(check(2, &odd.words()), Ok(()));
}

#[test]
fn a_record_is_head_line_groups_and_literals() {
    let table = written(&["arrived: logged / mailed -gap", "gap"]);
    assert_eq!(table.names, ["arrived", "logged", "mailed", "gap"]);
    assert_eq!(table.words(), [0, 1, 2, 1, 2, 2, 4, 7, 6, 2, 0]);
    assert_eq!(parse(4, &table.words()), Ok(numbered(&table.rules)));
    let [first, second] = &table.rules[..] else { panic!("two rules") };
    let records = [Record { line: 32_768, rule: first.clone() }, Record { line: 0, rule: second.clone() }];
    let words = [0, 32_768, 2, 1, 2, 2, 4, 7, 6, 0, 0];
    assert_eq!(encode(&records), words);
    assert_eq!(parse(4, &words), Ok(records.to_vec()));
    assert_eq!(rules_of(4, &words), Ok(table.rules));
}

#[test]
fn a_line_is_0_to_32768_in_any_order() {
    for line in [0, 1, 64, 65, 1023, 1024, 32_767, 32_768] {
        assert_eq!(check(1, &[0, line, 0]), Ok(()), "line {line}");
    }
    for line in [32_769, 32_770, 40_000, 65_534, u16::MAX] {
        assert_eq!(check(1, &[0, line, 0]), refused(6, 1), "line {line}");
        assert_eq!(check(1, &[1, 3, 1, 1, 0, 0, line, 0]), refused(6, 6), "line {line}");
    }
    for line in 0..=u16::MAX {
        assert_eq!(check(1, &[0, line, 0]).is_ok(), line <= 32_768, "line {line}");
    }
    // Zeros mix with numbers; numbers repeat, fall, and leave gaps.
    assert_eq!(check(1, &[0, 9, 0, 1, 0, 0]), Ok(()));
    assert_eq!(check(1, &[0, 0, 0, 1, 9, 0]), Ok(()));
    assert_eq!(check(1, &[0, 9, 0, 1, 9, 0]), Ok(()));
    assert_eq!(check(1, &[0, 9, 0, 1, 3, 0]), Ok(()));
    assert_eq!(check(1, &[0, 1, 0, 1, 32_768, 0]), Ok(()));
}

#[test]
fn within_a_record_the_head_comes_first_then_the_line_then_m() {
    // 5 or 7 at the head before 6 at its line.
    assert_eq!(check(1, &[2, 40_000, 0]), refused(5, 0));
    assert_eq!(check(1, &[0, 0, 0, 2, 40_000, 65]), refused(5, 3));
    assert_eq!(check(1, &[0, 0, 0, 0, 40_000, 0]), refused(7, 3));
    assert_eq!(check(1, &[0, 0, 0, 0, 40_000]), refused(7, 3));
    // 6 at the line before 6 at m, before a record cut short, and before what comes later.
    assert_eq!(check(1, &[0, 40_000, 65]), refused(6, 1));
    assert_eq!(check(1, &[0, 1, 65]), refused(6, 2));
    assert_eq!(check(1, &[0, 40_000]), refused(6, 1));
    assert_eq!(check(1, &[0, 40_000, 1, 0, 2]), refused(6, 1));
    assert_eq!(check(1, &[0, 40_000, 0, 0, 0, 0]), refused(6, 1));
    // A fault of the record before comes first.
    assert_eq!(check(1, &[0, 7, 1, 1, 2, 1, 40_000, 0]), refused(5, 4));
    assert_eq!(check(1, &[0, 7, 1, 0, 1, 40_000, 0]), refused(6, 3));
}

#[test]
fn n_512_and_513() {
    let highest_literal = [1023, 5, 1, 1, 1023];
    assert_eq!(check(512, &highest_literal), Ok(()));
    assert_eq!(check(513, &highest_literal), refused(1, 0));
    for n in [513, 1 << 16, 1 << 32, (1 << 32) + 512, 1 << 63, (1 << 63) + 1, u64::MAX] {
        assert_eq!(check(n, &[]), refused(1, 0), "N {n}");
    }
}

/// 8,192 words: 125 groups of 64 literals in two records, and one of exactly the rest.
fn full_table() -> Vec<u16> {
    let mut words = vec![0, 1, 64];
    for _ in 0..64 {
        words.push(64);
        words.extend([2; 64]);
    }
    words.extend([1, 2, 61]);
    for _ in 0..61 {
        words.push(64);
        words.extend([3; 64]);
    }
    words.extend([2, 3, 1, 8192 - 4163 - 3968 - 4]);
    words.extend([0; 8192 - 4163 - 3968 - 4]);
    words
}

#[test]
fn words_8192_and_8193() {
    let words = full_table();
    assert_eq!(words.len(), 8192);
    assert_eq!(check(2, &words), Ok(()));
    let mut above = words.clone();
    above.push(3);
    assert_eq!(check(2, &above), refused(2, 0));
    // 2 comes after 1 and before the words.
    above[0] = 9;
    assert_eq!(check(2, &above), refused(2, 0));
    assert_eq!(check(513, &above), refused(1, 0));
}

#[test]
fn m_and_k_at_64_and_65() {
    let with_m = |m: u16| [vec![0, 200, m], [1, 0].repeat(m as usize)].concat();
    let with_k = |k: u16| [vec![0, 200, 1, k], vec![0; k as usize]].concat();
    assert_eq!(check(1, &with_m(0)), Ok(()));
    assert_eq!(check(1, &with_m(64)), Ok(()));
    assert_eq!(check(1, &with_m(65)), refused(6, 2));
    assert_eq!(check(1, &with_k(0)), refused(6, 3));
    assert_eq!(check(1, &with_k(1)), Ok(()));
    assert_eq!(check(1, &with_k(64)), Ok(()));
    assert_eq!(check(1, &with_k(65)), refused(6, 3));
    assert_eq!(check(1, &[0, 0, 1, u16::MAX, 0]), refused(6, 3));
    assert_eq!(check(1, &[0, 0, u16::MAX, 1, 0]), refused(6, 2));
}

#[test]
fn cut_short_is_met_only_when_the_missing_word_is_reached() {
    assert_eq!(check(2, &[0, 9, 1, 5, 2, 4]), refused(5, 5));
    assert_eq!(check(2, &[0, 9, 1, 5, 2, 3]), refused(4, 6));
    // After the head, and after the line whatever it is.
    assert_eq!(check(1, &[0]), refused(4, 1));
    assert_eq!(check(1, &[0, 9, 0, 1]), refused(4, 4));
    for line in [0, 1, 65, 32_768] {
        assert_eq!(check(1, &[0, line]), refused(4, 2), "line {line}");
        assert_eq!(check(1, &[0, 9, 0, 1, line]), refused(4, 5), "line {line}");
    }
    assert_eq!(check(1, &[0, 9, 1]), refused(4, 3));
    assert_eq!(check(1, &[0, 9, 1, 1]), refused(4, 4));
    assert_eq!(check(1, &[0, 9, 2, 1, 0]), refused(4, 5));
    // A wrong line, m or k in the last word is 6 there.
    assert_eq!(check(1, &[0, 32_769]), refused(6, 1));
    assert_eq!(check(1, &[0, 9, 65]), refused(6, 2));
    assert_eq!(check(1, &[0, 9, 1, 0]), refused(6, 3));
}

#[test]
fn literal_codes_stay_below_2n() {
    assert_eq!(check(0, &[0, 9, 0]), refused(5, 0));
    assert_eq!(check(1, &[1, 9, 0, 2, 9, 0]), refused(5, 3));
    assert_eq!(check(1, &[0, 9, 1, 1, 1]), Ok(()));
    assert_eq!(check(1, &[0, 9, 1, 1, 2]), refused(5, 4));
    assert_eq!(check(512, &[1024, 9, 0]), refused(5, 0));
    assert_eq!(check(512, &[u16::MAX, 9, 0]), refused(5, 0));
}

#[test]
fn second_head_is_7_at_its_word() {
    assert_eq!(check(2, &[0, 8, 0, 0, 9, 0]), refused(7, 3));
    assert_eq!(check(2, &[0, 7, 0, 1, 8, 0, 0]), refused(7, 6));
    // The head's 7 comes before a fault in the rest of its record, 5 at a head before 7, and the first faulty word decides.
    assert_eq!(check(2, &[0, 8, 0, 0, 9, 65]), refused(7, 3));
    assert_eq!(check(2, &[0, 8, 1, 1, 9, 0, 9, 0]), refused(5, 4));
    // The same literal in a body, or the same number as a line, is no second head.
    assert_eq!(check(2, &[0, 8, 1, 1, 2, 2, 9, 1, 1, 0]), Ok(()));
    assert_eq!(check(2, &[0, 2, 0, 2, 0, 0]), Ok(()));
}

#[test]
fn each_damage_is_refused_by_its_number() {
    for damage in TABLE_DAMAGES {
        let (mut met, mut places) = (0, std::collections::BTreeSet::new());
        for seed in 0..400 {
            let mut chance = Chance::new(seed);
            let (mut n, mut words) = random::accepted_table(&mut chance);
            assert_eq!(check(n, &words), Ok(()), "seed {seed}");
            if random::damage_table(&mut chance, &mut n, &mut words, damage) {
                let refusal = check(n, &words).expect_err("a damaged table");
                assert_eq!(refusal.number, damage.number(), "{damage:?}, seed {seed}");
                met += 1;
                places.insert(refusal.place);
            }
        }
        assert!(met > 200, "{damage:?} met {met} times");
        assert!(places.len() > 20 || damage.number() <= 2, "{damage:?} at {places:?}");
    }
}

#[test]
fn what_is_accepted_is_what_encode_writes() {
    let (mut accepted, mut refused) = (0, 0);
    for seed in 0..3000 {
        let mut chance = Chance::new(seed);
        let (n, words) = random::any_table(&mut chance);
        match check(n, &words) {
            Ok(()) => {
                let records = parse(n, &words).unwrap();
                assert_eq!(encode(&records), words, "seed {seed}");
                assert!(records.iter().all(|record| record.line <= 32_768), "seed {seed}");
                accepted += 1;
            }
            Err(refusal) => {
                assert!(matches!(refusal.number, 1 | 2 | 4..=7), "seed {seed}");
                assert!(refusal.place <= words.len() as u64);
                // What stands before the faulty word does not decide otherwise: without it the record is cut short, or whole.
                if refusal.number >= 4 {
                    let before = check(n, &words[..refusal.place as usize]);
                    assert!(before.is_ok() || before == Err(Refusal { number: 4, place: refusal.place }), "seed {seed}");
                }
                refused += 1;
            }
        }
    }
    assert!(accepted > 1000 && refused > 800, "{accepted} {refused}");
}
