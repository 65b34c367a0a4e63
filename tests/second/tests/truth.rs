//! Values and truth tables.

use second::judge::{TABLE_1_AND, TABLE_1_IMPLIES, TABLE_1_NOT, TABLE_1_OR};
use second::random::{Chance, awkward_number};
use second::refusal::Refusal;
use second::truth::{and, implies, letter, not, or};

#[test]
fn connectives_are_table_1() {
    for a in 0..4u64 {
        assert_eq!(not(a), Ok(TABLE_1_NOT[a as usize]));
        for b in 0..4u64 {
            assert_eq!(and(a, b), Ok(TABLE_1_AND[a as usize][b as usize]), "and {a} {b}");
            assert_eq!(or(a, b), Ok(TABLE_1_OR[a as usize][b as usize]), "or {a} {b}");
            assert_eq!(implies(a, b), Ok(TABLE_1_IMPLIES[a as usize][b as usize]), "implies {a} {b}");
        }
    }
}

#[test]
fn implication_is_the_table_of_document_01() {
    let rows = ["tttt", "tttt", "fftf", "fftt"];
    for (body, row) in rows.iter().enumerate() {
        let answers: Vec<u8> = (0..4).map(|head| letter(implies(body as u64, head).unwrap())).collect();
        assert_eq!(answers, row.as_bytes(), "body {}", letter(body as u8) as char);
    }
}

#[test]
fn codes_stand_in_truth_order() {
    assert_eq!([0, 1, 2, 3].map(letter), *b"fuit");
}

#[test]
fn a_code_above_3_on_either_side_is_20() {
    let refused = Err(Refusal { number: 20, place: 0 });
    let mut chance = Chance::new(1);
    let mut met = 0;
    for _ in 0..200 {
        let high = awkward_number(&mut chance, 3);
        if high <= 3 {
            continue;
        }
        met += 1;
        assert_eq!(not(high), refused);
        for other in [0, 1, 2, 3, 4, u64::MAX] {
            for connective in [and, or, implies] {
                assert_eq!(connective(high, other), refused);
                assert_eq!(connective(other, high), refused);
            }
        }
    }
    assert!(met > 50);
}
