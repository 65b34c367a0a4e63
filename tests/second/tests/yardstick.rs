//! The evaluators of tests/bench that serve to compare speed answer as evaluation does. The benchmarks link the engine; these need not.

use second::model::evaluate;
use second::random::{self, Chance};
use second::tables::MEASURED;

#[path = "../../bench/src/yardstick.rs"]
mod yardstick;

use yardstick::{check, counters, plain};

#[test]
fn on_the_tables_to_measure_on() {
    for measured in MEASURED {
        let (n, words) = (measured.table)();
        let [mut reference, mut by_plain, mut by_counters] = [(); 3].map(|()| vec![9; n as usize]);
        evaluate(n, &words, &mut reference).unwrap();
        plain(n, &words, &mut by_plain).unwrap();
        counters(n, &words, &mut by_counters).unwrap();
        assert_eq!(by_plain, reference, "{}", measured.name);
        assert_eq!(by_counters, reference, "{}", measured.name);
    }
}

#[test]
fn on_random_tables() {
    let (mut accepted, mut refused, mut marked) = (0, 0, 0);
    for seed in 0..6000 {
        let mut chance = Chance::new(seed);
        let (n, words) = random::any_table(&mut chance);
        let mut reference = random::value_room(&mut chance, n);
        let (mut by_plain, mut by_counters) = (reference.clone(), reference.clone());
        let expected = evaluate(n, &words, &mut reference);
        assert_eq!(check(n, &words, by_plain.len()), expected, "seed {seed}");
        assert_eq!(plain(n, &words, &mut by_plain), expected, "seed {seed}");
        assert_eq!(counters(n, &words, &mut by_counters), expected, "seed {seed}");
        assert_eq!(by_plain, reference, "seed {seed}");
        assert_eq!(by_counters, reference, "seed {seed}");
        match expected {
            Ok(()) => {
                accepted += 1;
                marked += reference[..n as usize].contains(&2) as u32;
            }
            Err(_) => refused += 1,
        }
    }
    assert!(accepted > 2000 && refused > 2000 && marked > 800, "{accepted} {refused} {marked}");
}
