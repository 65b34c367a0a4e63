//! P1 to P12 of document 01, with all that it claims of them.

use second::judge::{Interpretation, is_model, is_well_supported, smallest, values, well_supported_models};
use second::marking::{Picked, fresh, mark_count, pick, report, settled};
use second::model::{conflict, evaluate};
use second::random::Chance;
use second::tables::{EXAMPLES, Example};
use second::truth::letter;

fn example(name: &str) -> &'static Example {
    static ALL: [Example; 12] = EXAMPLES;
    ALL.iter().find(|example| example.name == name).unwrap()
}

fn set(example: &Example, literals: &[&str]) -> Interpretation {
    literals.iter().fold(0, |set, text| set | 1 << example.table().literal(text))
}

#[test]
fn there_are_twelve_in_order() {
    let names: Vec<&str> = EXAMPLES.iter().map(|example| example.name).collect();
    assert_eq!(names, ["P1", "P2", "P3", "P4", "P5", "P6", "P7", "P8", "P9", "P10", "P11", "P12"]);
}

#[test]
fn evaluation_gives_the_values() {
    for example in EXAMPLES {
        let table = example.table();
        let mut values = vec![9; table.names.len() + 1];
        assert_eq!(evaluate(table.n(), &table.words(), &mut values), Ok(()), "{}", example.name);
        assert_eq!(values.pop(), Some(9));
        assert_eq!(values, example.values_in_order(), "{}", example.name);
    }
}

#[test]
fn conflict_is_answered_yes_for_six_of_them() {
    for example in EXAMPLES {
        let table = example.table();
        let expected = matches!(example.name, "P5" | "P7" | "P9" | "P10" | "P11" | "P12");
        assert_eq!(conflict(table.n(), &table.words()), Ok(expected), "{}", example.name);
        assert_eq!(expected, example.marks > 0, "{}", example.name);
    }
}

#[test]
fn the_judge_finds_the_values_smallest() {
    for example in EXAMPLES {
        let table = example.table();
        let n = table.names.len();
        let models = well_supported_models(n, &table.rules);
        let least = smallest(&models).expect("a smallest well-supported model");
        assert_eq!(values(n, least), example.values_in_order(), "{}", example.name);
        for other in example.also_well_supported {
            let other = set(&example, other);
            assert!(models.contains(&other), "{}", example.name);
            assert_ne!(other, least, "{}", example.name);
        }
    }
}

#[test]
fn p2_and_p6_have_a_second_well_supported_model_and_only_they() {
    for example in EXAMPLES {
        let count = well_supported_models(example.table().names.len(), &example.table().rules).len();
        let expected = if matches!(example.name, "P2" | "P6") { 2 } else { 1 };
        assert_eq!(count, expected, "{}", example.name);
    }
    let p2 = example("P2");
    assert!(is_well_supported(1, set(p2, &["b", "-b"]), &p2.table().rules));
    assert!(is_well_supported(1, 0, &p2.table().rules));
    let p6 = example("P6");
    assert!(is_well_supported(2, set(p6, &["l", "-l", "c", "-c"]), &p6.table().rules));
    assert!(is_well_supported(2, set(p6, &["l", "c"]), &p6.table().rules));
}

#[test]
fn picks_in_any_order_give_the_marks_and_the_values() {
    for example in EXAMPLES {
        let table = example.table();
        let words = table.words();
        for seed in 0..20 {
            let mut chance = Chance::new(seed);
            let (mut record, answer) = fresh(table.n());
            assert_eq!(answer, Ok(()));
            let (mut made, mut tries) = (0, 0);
            while !settled(&record, &words).unwrap() {
                tries += 1;
                assert!(tries < 10_000, "{} does not settle", example.name);
                if pick(&mut record, &words, chance.below(table.n())) == Picked::Marked {
                    made += 1;
                }
            }
            assert_eq!(made, example.marks, "{}", example.name);
            assert_eq!(mark_count(&record), Ok(example.marks), "{}", example.name);
            let mut values = vec![9; table.names.len()];
            assert_eq!(report(&record, &words, &mut values), Ok(()));
            assert_eq!(values, example.values_in_order(), "{}", example.name);
        }
    }
}

#[test]
fn p1_is_settled_at_once() {
    let (record, _) = fresh(0);
    assert_eq!(settled(&record, &[]), Ok(true));
    assert_eq!(evaluate(0, &[], &mut []), Ok(()));
    assert_eq!(report(&record, &[], &mut []), Ok(()));
}

#[test]
fn p11_has_five_marks_and_g_and_k_do_not_prop_each_other_up() {
    let p11 = example("P11");
    let table = p11.table();
    let propped = set(p11, &["a", "-a", "b", "-b", "h", "-h", "g", "k"]);
    assert!(is_model(propped, &table.rules));
    assert!(!is_well_supported(5, propped, &table.rules));
    assert_eq!(p11.marks, 5);
    let (mut record, _) = fresh(5);
    for name in ["a", "b", "h", "g", "k"] {
        assert_eq!(pick(&mut record, &table.words(), table.atom(name) as u64), Picked::Marked, "{name}");
    }
    assert_eq!(mark_count(&record), Ok(5));
    assert_eq!(settled(&record, &table.words()), Ok(true));
}

#[test]
fn p12_marks_the_four_that_are_not_good_mood_or_success() {
    let table = example("P12").table();
    let mut values = vec![9; 6];
    evaluate(table.n(), &table.words(), &mut values).unwrap();
    for (name, value) in table.names.iter().zip(values) {
        let expected = if matches!(name.as_str(), "good_mood" | "success") { b't' } else { b'i' };
        assert_eq!(letter(value), expected, "{name}");
    }
}
