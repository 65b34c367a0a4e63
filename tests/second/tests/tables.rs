//! The tables to measure on are what their names say.

use second::model::{evaluate, markable};
use second::table::{check, parse, rules_of};
use second::tables::{self, GROWING_WITH_MARKS, GROWING_WITHOUT_MARKS, MEASURED};
use second::truth::{I, T, U};

fn values(table: fn() -> (u64, Vec<u16>)) -> Vec<u8> {
    let (n, words) = table();
    let mut values = vec![9; n as usize];
    evaluate(n, &words, &mut values).unwrap();
    values
}

#[test]
fn all_are_accepted_with_n_512_their_length_and_the_lines_of_a_sheet() {
    let lengths = [2558, 8192, 8192, 3326, 8192, 3072, 3580, 8192, 3176, 8192, 6590];
    for (measured, length) in MEASURED.iter().zip(lengths) {
        let (n, words) = (measured.table)();
        assert_eq!(n, 512, "{}", measured.name);
        assert_eq!(check(n, &words), Ok(()), "{}", measured.name);
        assert_eq!(words.len(), length, "{}", measured.name);
        let lines: Vec<usize> = parse(n, &words).unwrap().iter().map(|record| record.line).collect();
        assert_eq!(lines, (1..=lines.len()).collect::<Vec<_>>(), "{}", measured.name);
    }
}

#[test]
fn each_has_the_values_it_is_made_for() {
    let expected: [(&str, usize, usize); 11] = [
        ("chain512", 512, 0),
        ("max_t", 512, 0),
        ("max_random", 0, 0),
        ("marks_seq", 0, 512),
        ("marks_seq_max", 0, 510),
        ("all_i", 0, 512),
        ("prop_trap", 0, 512),
        ("worst_reread", 256, 256),
        ("worst_src", 0, 508),
        ("worst_fresh", 128, 384),
        ("worst_w7", 255, 256),
    ];
    for (measured, (name, t, i)) in MEASURED.iter().zip(expected) {
        assert_eq!(measured.name, name);
        let values = values(measured.table);
        let count = |wanted: u8| values.iter().filter(|&&value| value == wanted).count();
        if name == "max_random" {
            assert!((0..4).all(|value| count(value) > 0), "{:?}", (0..4).map(count).collect::<Vec<_>>());
        } else {
            assert_eq!((count(T), count(I), count(U)), (t, i, 512 - t - i), "{name}");
        }
    }
}

#[test]
fn max_random_has_1024_heads_and_400_facts() {
    let (n, words) = tables::max_random();
    let rules = rules_of(n, &words).unwrap();
    assert_eq!(rules.len(), 1024);
    assert_eq!(rules.iter().filter(|rule| rule.groups.is_empty()).count(), 400);
    let several = rules.iter().filter(|rule| rule.groups.len() > 1).count();
    assert!(several > 250, "{several}");
}

#[test]
fn marks_need_one_another() {
    let (n, words) = tables::marks_seq();
    let rules = rules_of(n, &words).unwrap();
    let mut marked = vec![false; 512];
    for round in 0..512 {
        assert_eq!(second::model::markable(&rules, &marked), [round]);
        marked[round] = true;
    }
}

#[test]
fn kinds_of_growing_tables_have_the_words_asked_for_and_one_mark_a_round() {
    for full in [1024, 2048, 4096, 8192] {
        for kind in GROWING_WITHOUT_MARKS.iter().chain(&GROWING_WITH_MARKS) {
            let (n, words) = (kind.table)(full);
            let least = if kind.name == "worst_w7" { full * 4 / 5 } else { full };
            assert_eq!(check(n, &words), Ok(()), "{} of {full}", kind.name);
            assert!((least..=full).contains(&words.len()), "{} of {full}: {}", kind.name, words.len());
        }
    }
    for kind in GROWING_WITH_MARKS {
        let (n, words) = (kind.table)(1024);
        let rules = rules_of(n, &words).unwrap();
        let mut marked = vec![false; 512];
        while let [atom, others @ ..] = &markable(&rules, &marked)[..] {
            assert_eq!(others, [], "{}", kind.name);
            marked[*atom] = true;
        }
        assert!(marked.iter().filter(|&&mark| mark).count() >= 32, "{}", kind.name);
    }
    for kind in GROWING_WITHOUT_MARKS {
        let (n, words) = (kind.table)(1024);
        assert_eq!(markable(&rules_of(n, &words).unwrap(), &[false; 512]), [], "{}", kind.name);
    }
}

#[test]
fn a_table_written_out_is_its_sheet() {
    let table = tables::written(&["g: h -k / k", "-k"]);
    assert_eq!(table.sheet(), b"g\th -k\tk\n-k\n");
    assert_eq!(table.literal("-k"), 5);
    assert_eq!(table.words(), [0, 1, 2, 2, 2, 5, 1, 4, 5, 2, 0]);
}
