//! Held, Clean, evaluation and the question of conflict against the judge; which group of a body is wholly in a set.

use second::judge::{self, Interpretation};
use second::marking::{fresh, settled};
use second::model::{OfFirst, clean, conflict, evaluate, held, markable, settle, values_of, which_group, which_group_of_first};
use second::random::{self, Chance, set_of, set_words};
use second::refusal::Refusal;
use second::table::{Literal, Rule, atom_of, check, encode, numbered, rules_of};
use second::tables::{EXAMPLES, written};
use second::truth::{F, I, T, U};

fn refused(number: u32, place: u64) -> Result<(), Refusal> {
    Err(Refusal { number, place })
}

/// The values of rules in document 01's notation, as letters in atom order.
fn letters(rules: &[&str]) -> String {
    let table = written(rules);
    let mut values = vec![9; table.names.len()];
    evaluate(table.n(), &table.words(), &mut values).unwrap();
    values.iter().map(|&value| second::truth::letter(value) as char).collect()
}

#[test]
fn roads_that_lead_astray() {
    // i in a body makes the head i, not t.
    assert_eq!(letters(&["a", "-a", "p: a"]), "ii");
    // An i group does not beat a t group.
    assert_eq!(letters(&["a", "-a", "b", "p: a / b"]), "itt");
    // Absence is not false.
    assert_eq!(letters(&["p: q"]), "uu");
    assert_eq!(letters(&["-p: q"]), "uu");
    // Clean is derived afresh: g and k do not prop each other up.
    assert_eq!(letters(&["a", "-a", "b: a", "h", "-h: -b", "g: h / k", "k: g"]), "iiiii");
}

#[test]
fn values_by_sign() {
    assert_eq!(letters(&["-q", "p: q", "r: -q", "-s: -q"]), "futf");
    assert_eq!(letters(&["-a", "a"]), "i");
    assert_eq!(letters(&["a: a"]), "u");
    assert_eq!(letters(&["a: -a"]), "u");
    assert_eq!(letters(&["a: b -b", "b"]), "ut");
    assert_eq!(letters(&["a: b -b", "b", "-b"]), "ii");
}

#[test]
fn refusals_in_order() {
    let room = &mut [7; 2][..];
    assert_eq!(evaluate(513, &[0; 8193], room), refused(1, 0));
    assert_eq!(evaluate(3, &[0; 8193], room), refused(2, 0));
    assert_eq!(evaluate(3, &[0, 40_000, 0], room), refused(3, 0));
    assert_eq!(evaluate(2, &[9, 40_000, 0], room), refused(5, 0));
    assert_eq!(evaluate(2, &[0, 40_000, 0], room), refused(6, 1));
    assert_eq!(evaluate(u64::MAX, &[], room), refused(1, 0));
    assert_eq!(room, [7; 2]);
    assert_eq!(evaluate(2, &[0, 32_768, 0], room), Ok(()));
    assert_eq!(room, [T, U]);
    let room = &mut [7; 3][..];
    assert_eq!(evaluate(2, &[1, 0, 0], room), Ok(()));
    assert_eq!(room, [F, U, 7]);
    assert_eq!(evaluate(0, &[], room), Ok(()));
    assert_eq!(room, [F, U, 7]);
    assert_eq!(evaluate(1, &[], &mut []), refused(3, 0));
}

#[test]
fn n_512_and_513() {
    let all_facts: Vec<u16> = (0..512).flat_map(|atom| [2 * atom, atom + 1, 0]).collect();
    let mut values = vec![9; 513];
    assert_eq!(evaluate(512, &all_facts, &mut values), Ok(()));
    assert_eq!(values[..512], [T; 512]);
    assert_eq!(values[512], 9);
    assert_eq!(evaluate(513, &all_facts, &mut values), refused(1, 0));
    assert_eq!(values[..512], [T; 512]);
    assert_eq!(evaluate(512, &all_facts, &mut values[..511]), refused(3, 0));
}

#[test]
fn held_and_clean_are_the_least_closed_sets() {
    let (mut held_more, mut clean_less) = (0, 0);
    for seed in 0..3000 {
        let mut chance = Chance::new(seed);
        let (n, words) = random::small_table(&mut chance, 4);
        let rules = rules_of(n, &words).unwrap();
        let marks = chance.below(1 << n) as u32;
        let marked: Vec<bool> = (0..n as usize).map(|atom| judge::has(marks, atom)).collect();
        let as_set = |row: Vec<bool>| row.iter().enumerate().fold(0u32, |set, (l, &is)| set | (is as u32) << l);
        let (by_rules_held, by_rules_clean) = (as_set(held(&rules, &marked)), as_set(clean(&rules, &marked)));
        assert_eq!(by_rules_held, judge::held(n as usize, &rules, marks), "seed {seed}");
        assert_eq!(by_rules_clean, judge::clean(n as usize, &rules, marks), "seed {seed}");
        let none = vec![false; n as usize];
        held_more += (by_rules_held != as_set(held(&rules, &none))) as u32;
        clean_less += (by_rules_clean != as_set(clean(&rules, &none))) as u32;
    }
    assert!(held_more > 1000 && clean_less > 1000, "{held_more} {clean_less}");
}

#[test]
fn evaluation_gives_the_smallest_well_supported_model() {
    let mut met = [0; 4];
    let (mut several, mut mixed, mut in_steps, mut undone) = (0, 0, 0, 0);
    for seed in 0..100_000 {
        let mut chance = Chance::new(seed);
        let most_atoms = if seed % 20 == 0 { 6 } else { 4 };
        let (n, words) = random::small_table(&mut chance, most_atoms);
        let rules = rules_of(n, &words).unwrap();
        let mut values = vec![9; n as usize];
        evaluate(n, &words, &mut values).unwrap();
        let models = judge::well_supported_models(n as usize, &rules);
        let least = judge::smallest(&models).unwrap_or_else(|| panic!("seed {seed}: no smallest among {models:?}"));
        assert_eq!(values, judge::values(n as usize, least), "seed {seed}, {rules:?}");
        values.iter().for_each(|&value| met[value as usize] += 1);
        several += (models.len() > 1) as u32;
        mixed += (values.contains(&I) && (values.contains(&T) || values.contains(&F))) as u32;
        let first = markable(&rules, &vec![false; n as usize]);
        in_steps += (first.len() < values.iter().filter(|&&value| value == I).count()) as u32;
        // An atom clean and consistent before any mark, and inconsistent in the end.
        let start = values_of(&rules, &vec![false; n as usize]);
        undone += values.iter().zip(&start).enumerate().any(|(a, (&end, &start))| {
            end == I && start == T && !first.contains(&a)
        }) as u32;
    }
    assert!(met.iter().all(|&count| count > 2000), "{met:?}");
    assert!(several > 20_000 && mixed > 8000 && in_steps > 6000 && undone > 3000, "{several} {mixed} {in_steps} {undone}");
}

#[test]
fn settled_markings_of_large_tables_leave_nothing_to_mark() {
    let (mut with_marks, mut without) = (0, 0);
    for seed in 0..300 {
        let mut chance = Chance::new(seed);
        let (n, words) = random::large_table(&mut chance);
        let rules = rules_of(n, &words).unwrap();
        let marked = settle(n, &rules);
        assert_eq!(marked.len(), n as usize);
        assert_eq!(markable(&rules, &marked), []);
        let values = values_of(&rules, &marked);
        assert!(values.iter().zip(&marked).all(|(&value, &mark)| (value == I) == mark));
        if marked.contains(&true) { with_marks += 1 } else { without += 1 }
    }
    assert!(with_marks > 150 && without > 20, "{with_marks} {without}");
}

#[test]
fn random_tables_of_any_kind_are_evaluated_or_refused() {
    let mut numbers = std::collections::BTreeMap::new();
    for seed in 0..3000 {
        let mut chance = Chance::new(seed);
        let (n, words) = random::any_table(&mut chance);
        let mut values = random::value_room(&mut chance, n);
        let before = values.clone();
        match evaluate(n, &words, &mut values) {
            Ok(()) => {
                assert!(values[..n as usize].iter().all(|&value| value <= 3), "seed {seed}");
                assert_eq!(values[n as usize..], before[n as usize..], "seed {seed}");
                *numbers.entry(0).or_insert(0) += 1;
            }
            Err(refusal) => {
                assert_eq!(values, before, "seed {seed}");
                *numbers.entry(refusal.number).or_insert(0) += 1;
            }
        }
    }
    assert_eq!(numbers.keys().copied().collect::<Vec<_>>(), [0, 1, 2, 3, 4, 5, 6, 7]);
    assert!(numbers.values().all(|&count| count > 50) && numbers[&0] > 800, "{numbers:?}");
}

/// Whether rules in document 01's notation are in conflict.
fn in_conflict(rules: &[&str]) -> bool {
    let table = written(rules);
    conflict(table.n(), &table.words()).unwrap()
}

#[test]
fn conflict_is_an_atom_with_both_literals_held_before_any_mark() {
    assert!(in_conflict(&["a", "-a"]));
    assert!(in_conflict(&["b", "a: b", "-a: b"]));
    assert!(in_conflict(&["b", "c", "-b: a", "a: c"]));
    // Both signs have a rule, but not both fire.
    assert!(!in_conflict(&["a", "-a: b"]));
    assert!(!in_conflict(&["a: b", "-a: b"]));
    assert!(!in_conflict(&["a", "-a: a -a"]));
    // Nothing is held: P2's {b, -b} is well-supported, but not the smallest.
    assert!(!in_conflict(&["-b: b"]));
    assert!(!in_conflict(&["a: -a", "-a: a"]));
    // a is in conflict, and all that is inconsistent after its mark was consistent before it.
    assert!(in_conflict(&["a", "-a", "b: a", "h", "-h: -b"]));
    assert!(!in_conflict(&["a", "b: a", "h", "-h: -b"]));
    assert_eq!(conflict(0, &[]), Ok(false));
    assert_eq!(conflict(512, &[]), Ok(false));
}

#[test]
fn conflict_refuses_in_order_1_2_words() {
    let refused = |number, place| Err(Refusal { number, place });
    for n in [513, 1 << 16, 1 << 32, (1 << 32) + 1, 1 << 63, u64::MAX] {
        assert_eq!(conflict(n, &[]), refused(1, 0), "{n}");
        assert_eq!(conflict(n, &[9; 8193]), refused(1, 0), "{n}");
        assert_eq!(conflict(n, &[0, 40_000, 0]), refused(1, 0), "{n}");
    }
    assert_eq!(conflict(2, &[9; 8193]), refused(2, 0));
    assert_eq!(conflict(0, &[0; 8193]), refused(2, 0));
    // In conflict up to the fault: the words decide all the same.
    assert_eq!(conflict(1, &[0, 1, 0, 1, 2, 0, 2, 3, 0]), refused(5, 6));
    assert_eq!(conflict(1, &[0, 1, 0, 1, 2, 0, 1, 40_000, 0]), refused(7, 6));
    assert_eq!(conflict(1, &[0, 1, 0, 1, 32_769, 65]), refused(6, 4));
    assert_eq!(conflict(1, &[0, 1, 0, 1, 2, 65]), refused(6, 5));
    assert_eq!(conflict(1, &[0, 1, 0, 1, 2]), refused(4, 5));
    assert_eq!(conflict(1, &[0, 1, 0, 1, 32_768, 0]), Ok(true));
}

#[test]
fn conflict_of_one_atom_out_of_512_is_found_whichever_it_is() {
    for atom in 0..512 {
        // Every atom has one literal as a fact, this one both, the second one last.
        let mut words: Vec<u16> = (0..512).flat_map(|other| [2 * other + other % 2, other + 1, 0]).collect();
        assert_eq!(conflict(512, &words), Ok(false), "{atom}");
        words.extend([2 * atom + 1 - atom % 2, 513, 0]);
        assert_eq!(conflict(512, &words), Ok(true), "{atom}");
        assert_eq!(conflict(atom as u64 + 1, &[2 * atom, 0, 0, 2 * atom + 1, 0, 0]), Ok(true), "{atom}");
    }
}

/// Whether some atom has both literals in the set.
fn has_pair(n: usize, set: Interpretation) -> bool {
    (0..n).any(|atom| judge::value(set, 2 * atom) == I)
}

#[test]
fn conflict_is_what_the_judge_finds() {
    let (mut met, mut spread, mut other_model) = ([0; 2], 0, 0);
    for seed in 0..30_000 {
        let mut chance = Chance::new(0xc0f1 + seed);
        let most_atoms = if seed % 20 == 0 { 6 } else { 4 };
        let (n, words) = random::small_table(&mut chance, most_atoms);
        let rules = rules_of(n, &words).unwrap();
        let models = judge::well_supported_models(n as usize, &rules);
        let least = judge::smallest(&models).expect("a smallest well-supported model");
        let before_any_mark = judge::held(n as usize, &rules, 0);
        let yes = conflict(n, &words).unwrap();
        assert_eq!(yes, has_pair(n as usize, least), "seed {seed}, {rules:?}");
        assert_eq!(yes, has_pair(n as usize, before_any_mark), "seed {seed}, {rules:?}");
        assert_eq!(yes, settled(&fresh(n).0, &words) == Ok(false), "seed {seed}, {rules:?}");
        met[yes as usize] += 1;
        // Atoms that are inconsistent in the end, but not before any mark.
        let pairs = |set| (0..n as usize).filter(|atom| judge::value(set, 2 * atom) == I).count();
        spread += (pairs(least) > pairs(before_any_mark)) as u32;
        other_model += (!yes && models.iter().any(|&model| has_pair(n as usize, model))) as u32;
    }
    assert!(met.iter().all(|&count| count > 8_000) && spread > 1_500 && other_model > 8_000, "{met:?} {spread} {other_model}");
}

#[test]
fn conflict_of_any_table_is_refused_as_its_check_or_told_by_evaluation() {
    let mut numbers = std::collections::BTreeMap::new();
    let mut met = [0; 2];
    for seed in 0..6_000 {
        let (n, words) = random::any_table(&mut Chance::new(seed));
        match conflict(n, &words) {
            Ok(yes) => {
                let mut values = vec![9; n as usize];
                assert_eq!(evaluate(n, &words, &mut values), Ok(()), "seed {seed}");
                assert_eq!(yes, values.contains(&I), "seed {seed}");
                assert_eq!(yes, settled(&fresh(n).0, &words) == Ok(false), "seed {seed}");
                met[yes as usize] += 1;
            }
            Err(refusal) => {
                assert_eq!(check(n, &words), Err(refusal), "seed {seed}");
                *numbers.entry(refusal.number).or_insert(0) += 1;
            }
        }
    }
    assert_eq!(numbers.keys().copied().collect::<Vec<_>>(), [1, 2, 4, 5, 6, 7]);
    assert!(numbers.values().all(|&count| count > 200) && met.iter().all(|&count| count > 800), "{numbers:?} {met:?}");
}

/// Compares evaluation and the question of conflict with the judge on every table that gives each literal one of these bodies, or no
/// rule.
fn compare_all(n: usize, bodies: &[Option<Vec<Vec<usize>>>]) -> u32 {
    let heads = 2 * n;
    let mut met = 0;
    for number in 0..bodies.len().pow(heads as u32) {
        let mut rest = number;
        let mut rules = Vec::new();
        for head in 0..heads {
            if let Some(groups) = &bodies[rest % bodies.len()] {
                rules.push(Rule { head, groups: groups.clone() });
            }
            rest /= bodies.len();
        }
        let values = values_of(&rules, &settle(n as u64, &rules));
        let least = judge::smallest(&judge::well_supported_models(n, &rules));
        assert_eq!(conflict(n as u64, &encode(&numbered(&rules))).ok(), least.map(|set| has_pair(n, set)), "{rules:?}");
        assert_eq!(Some(values), least.map(|set| judge::values(n, set)), "{rules:?}");
        met += 1;
    }
    met
}

#[test]
fn every_table_of_one_atom() {
    let groups: [Vec<usize>; 3] = [vec![0], vec![1], vec![0, 1]];
    // Bit g of the choice takes group g; no group is a fact.
    let body = |choice: usize| (0..3).filter(|g| choice >> g & 1 == 1).map(|g| groups[g].clone()).collect();
    let mut bodies: Vec<Option<Vec<Vec<usize>>>> = (0..8).map(|choice| Some(body(choice))).collect();
    bodies.push(None);
    assert_eq!(compare_all(1, &bodies), 81);
}

#[test]
fn every_table_of_two_atoms_with_one_pair_or_two_single_literals() {
    let mut bodies = vec![None, Some(vec![])];
    for a in 0..4 {
        bodies.push(Some(vec![vec![a]]));
        for b in 0..a {
            bodies.push(Some(vec![vec![a], vec![b]]));
            bodies.push(Some(vec![vec![a, b]]));
        }
    }
    assert_eq!(compare_all(2, &bodies), 18u32.pow(4));
}

/// Which group of the rule, in document 01's notation, is wholly in the set of these literals.
fn which(rule: &str, literals: &str) -> Option<usize> {
    let table = written(&[rule]);
    let mut set = vec![false; 2 * table.names.len()];
    literals.split_whitespace().for_each(|text| set[table.literal(text)] = true);
    which_group(&table.rules[0].groups, &set)
}

#[test]
fn the_lowest_group_is_counted_from_1() {
    assert_eq!(which("p: a", "a"), Some(1));
    assert_eq!(which("p: a / b / c", "a b c"), Some(1));
    assert_eq!(which("p: a / b / c", "b c"), Some(2));
    assert_eq!(which("p: a / b / c", "c"), Some(3));
    assert_eq!(which("p: a b / b c / c a", "b c"), Some(2));
    assert_eq!(which("p: a b / b c / c a", "a c"), Some(3));
    assert_eq!(which("p: a b / b c / c a", "a"), None);
    assert_eq!(which("p: a / b / c", ""), None);
    assert_eq!(which("p: a / b / c", "p -p -a -b -c"), None);
}

#[test]
fn a_fact_is_0_whatever_the_set() {
    for literals in ["", "p", "-p", "p -p"] {
        assert_eq!(which("p", literals), Some(0), "{literals}");
        assert_eq!(which("-p", literals), Some(0), "{literals}");
    }
    assert_eq!(which_group(&[], &[]), Some(0));
}

#[test]
fn of_equal_groups_it_is_the_first() {
    assert_eq!(which("p: a / a", "a"), Some(1));
    assert_eq!(which("p: a / b / b", "b"), Some(2));
    assert_eq!(which("p: c / a b / b a / a b b", "a b"), Some(2));
    assert_eq!(which("p: c / a b b / b a / a b", "a b"), Some(2));
}

#[test]
fn repeated_and_opposite_literals_and_the_head_are_literals_like_any_other() {
    assert_eq!(which("p: a a b / a a", "a"), Some(2));
    assert_eq!(which("p: a b a / a a", "a b"), Some(1));
    assert_eq!(which("p: a -a / a", "a"), Some(2));
    assert_eq!(which("p: a -a / a", "-a"), None);
    assert_eq!(which("p: a -a / a", "a -a"), Some(1));
    assert_eq!(which("p: p", ""), None);
    assert_eq!(which("p: -p", "p"), None);
    assert_eq!(which("p: a p / a", "a"), Some(2));
    assert_eq!(which("-p: a p / a -p", "a -p"), Some(2));
}

/// Which group of each rule is wholly in the set, as "0 2 -" with "-" for none.
fn each(rules: &[Rule], set: &[bool]) -> String {
    let said = |rule: &Rule| which_group(&rule.groups, set).map_or("-".to_string(), |number| number.to_string());
    rules.iter().map(said).collect::<Vec<_>>().join(" ")
}

#[test]
fn the_mark_of_the_head_plays_no_part() {
    // p and q are marked: neither is clean, but the body of each is asked alone.
    let rules = written(&["p", "q: a / a", "-q: b", "a"]).rules;
    let marked = [true, true, false, false];
    assert_eq!(clean(&rules, &marked), [false, false, false, false, true, false, false, false]);
    assert_eq!(each(&rules, &clean(&rules, &marked)), "0 1 - 0");
    assert_eq!(each(&rules, &held(&rules, &marked)), "0 1 - 0");
}

#[test]
fn p1_to_p12_held_and_clean_in_the_settled_marking() {
    let expected = [
        ("P1", "", ""),
        ("P2", "-", "-"),
        ("P3", "-", "-"),
        ("P4", "0", "0"),
        ("P5", "0 0", "0 0"),
        ("P6", "0 1 -", "0 1 -"),
        ("P7", "0 1", "0 -"),
        ("P8", "0 -", "0 -"),
        ("P9", "0 0 -", "0 0 -"),
        ("P10", "0 0 0 1", "0 0 0 2"),
        ("P11", "0 0 1 0 1 1 1", "0 0 - 0 - - -"),
        ("P12", "1 1 1 0 1 1 0 0", "- - - 0 2 - 0 0"),
    ];
    for (example, (name, in_held, in_clean)) in EXAMPLES.iter().zip(expected) {
        let table = example.table();
        let marked = settle(table.n(), &table.rules);
        assert_eq!(example.name, name);
        assert_eq!(each(&table.rules, &held(&table.rules, &marked)), in_held, "{name}");
        assert_eq!(each(&table.rules, &clean(&table.rules, &marked)), in_clean, "{name}");
    }
}

#[test]
fn every_group_of_up_to_64_is_told_by_its_number() {
    for m in 1..=64 {
        // A literal of its own, and one for each later group that it shares with the groups before that.
        let groups: Vec<Vec<Literal>> = (0..m).map(|g| [g].into_iter().chain(65 + g..64 + m).collect()).collect();
        assert_eq!(which_group(&groups, &set_of(64, &[])), None, "{m} groups");
        assert_eq!(which_group(&groups, &set_of(64, &groups)), Some(1), "{m} groups");
        for g in 0..m {
            assert_eq!(which_group(&groups, &set_of(64, &groups[g..=g])), Some(g + 1), "group {g} of {m}");
            assert_eq!(which_group(&groups, &set_of(64, &groups[g..])), Some(g + 1), "from group {g} of {m}");
            for &missing in &groups[g] {
                let mut set = set_of(64, &groups[g..=g]);
                set[missing] = false;
                assert_eq!(which_group(&groups, &set), None, "group {g} of {m} less literal {missing}");
            }
        }
    }
}

/// Whether this answers which group is wholly in the set by document 02's words, with groups and set as bits.
fn answers(groups: &[Vec<Literal>], set: Interpretation, answer: Option<usize>) -> bool {
    let wholly_in = |number: usize| groups[number - 1].iter().fold(0, |bits, literal| bits | 1 << literal) & !set == 0;
    match answer {
        Some(0) => groups.is_empty(),
        Some(number) => number <= groups.len() && wholly_in(number) && !(1..number).any(wholly_in),
        None => !groups.is_empty() && !(1..=groups.len()).any(wholly_in),
    }
}

/// All rows of at least one and at most so many of these.
fn rows<T: Clone>(of: &[T], most: usize) -> Vec<Vec<T>> {
    let mut rows: Vec<Vec<T>> = Vec::new();
    let mut longest = vec![Vec::new()];
    for _ in 0..most {
        longest = longest.iter().flat_map(|row| of.iter().map(move |one| [&row[..], &[one.clone()]].concat())).collect();
        rows.extend_from_slice(&longest);
    }
    rows
}

#[test]
fn every_body_of_few_short_groups_with_every_set_of_two_atoms() {
    let literals: [Literal; 4] = [0, 1, 2, 3];
    let mut met = [0; 5];
    for (most_groups, most_literals) in [(3, 2), (2, 3)] {
        for groups in rows(&rows(&literals, most_literals), most_groups).into_iter().chain([Vec::new()]) {
            for set in 0..16 {
                let row = literals.map(|literal| judge::has(set, literal));
                let answer = which_group(&groups, &row);
                assert!(answers(&groups, set, answer), "{groups:?} in {row:?}: {answer:?}");
                // Exactly one answer is right.
                assert_eq!((0..=4).map(Some).chain([None]).filter(|&any| answers(&groups, set, any)).count(), 1);
                met[answer.unwrap_or(4)] += 1;
            }
        }
    }
    assert_eq!(met.iter().sum::<u32>(), 16 * (1 + 20 + 400 + 8000) + 16 * (1 + 84 + 84 * 84));
    assert!(met[0] == 32 && met[1..].iter().all(|&count| count > 10_000), "{met:?}");
}

#[test]
fn held_and_clean_have_the_heads_whose_answer_is_not_none() {
    let (mut met, mut later, mut differ) = ([0; 3], 0, 0);
    for seed in 0..20_000 {
        let mut chance = Chance::new(0x3b0d + seed);
        let (n, words) = random::accepted_table(&mut chance);
        let rules = rules_of(n, &words).unwrap();
        let marked = random::record(&mut chance, n).marked();
        let (held, clean) = (held(&rules, &marked), clean(&rules, &marked));
        for rule in &rules {
            let (in_held, in_clean) = (which_group(&rule.groups, &held), which_group(&rule.groups, &clean));
            let mark = marked[atom_of(rule.head)];
            assert_eq!(held[rule.head], mark || in_held.is_some(), "seed {seed}, {rule:?}");
            assert_eq!(clean[rule.head], !mark && in_clean.is_some(), "seed {seed}, {rule:?}");
            // What is clean is held, so a group is not later in Held.
            assert!(in_clean.is_none_or(|number| in_held.is_some_and(|lower| lower <= number)), "seed {seed}, {rule:?}");
            met[in_held.map_or(2, |number| number.min(1))] += 1;
            later += in_held.is_some_and(|number| number > 1) as u32;
            differ += (in_clean.is_some() && in_clean != in_held) as u32;
        }
    }
    assert!(met.iter().all(|&count| count > 50_000) && later > 10_000 && differ > 1_000, "{met:?} {later} {differ}");
}

#[test]
fn over_words_the_first_record_is_asked() {
    // a: b / -b c, then -a.
    let words = [0, 7, 2, 1, 2, 2, 3, 4, 1, 9, 0];
    let first = |from: usize, set: u64| which_group_of_first(3, &words[from..], &[set]);
    assert_eq!(first(0, 0b00100), Ok(OfFirst::Group(1)));
    assert_eq!(first(0, 0b11000), Ok(OfFirst::Group(2)));
    assert_eq!(first(0, 0b11100), Ok(OfFirst::Group(1)));
    assert_eq!(first(0, 0b10000), Ok(OfFirst::NoGroup));
    assert_eq!(first(0, !0b11100), Ok(OfFirst::NoGroup));
    assert_eq!(first(8, 0), Ok(OfFirst::Group(0)));
    assert_eq!(first(8, !0), Ok(OfFirst::Group(0)));
    assert_eq!(first(11, !0), Ok(OfFirst::NoRecord));
    assert_eq!(which_group_of_first(0, &[], &[]), Ok(OfFirst::NoRecord));
    assert_eq!(which_group_of_first(512, &[], &[!0; 17]), Ok(OfFirst::NoRecord));
}

#[test]
fn over_words_a_literal_is_its_bit_and_one_past_the_set_is_not_in_it() {
    for literal in 0..1024 {
        let record = [1023 - literal as u16, 0, 1, 2, literal as u16, literal as u16];
        let said = |set: &[u64]| which_group_of_first(512, &record, set);
        let expected = |is_in| Ok(if is_in { OfFirst::Group(1) } else { OfFirst::NoGroup });
        for length in 0..=17 {
            assert_eq!(said(&vec![!0; length]), expected(literal < 64 * length), "literal {literal}, {length} words");
        }
        let mut alone = vec![false; 1024];
        alone[literal] = true;
        assert_eq!(said(&set_words(&alone)), expected(true), "literal {literal}");
        let others: Vec<u64> = set_words(&alone).iter().map(|word| !word).collect();
        assert_eq!(said(&others), expected(false), "literal {literal}");
    }
}

#[test]
fn over_words_refusals_come_in_order_1_2_words() {
    let refused = |number, place| Err(Refusal { number, place });
    let first = |n: u64, words: &[u16]| which_group_of_first(n, words, &[!0]);
    for n in [513, 1 << 16, 1 << 32, (1 << 32) + 1, 1 << 63, u64::MAX] {
        assert_eq!(first(n, &[]), refused(1, 0), "{n}");
        assert_eq!(first(n, &[9; 8193]), refused(1, 0), "{n}");
        assert_eq!(first(n, &[0, 40_000, 0]), refused(1, 0), "{n}");
    }
    assert_eq!(first(2, &[9; 8193]), refused(2, 0));
    assert_eq!(first(0, &[0; 8193]), refused(2, 0));
    // The first record is sound, and the words decide all the same.
    assert_eq!(first(1, &[0, 1, 0, 2, 3, 0]), refused(5, 3));
    assert_eq!(first(1, &[0, 1, 0, 0, 40_000, 0]), refused(7, 3));
    assert_eq!(first(1, &[0, 1, 0, 1, 32_769, 65]), refused(6, 4));
    assert_eq!(first(1, &[0, 1, 1, 1, 1, 1, 2, 65]), refused(6, 7));
    assert_eq!(first(1, &[0, 1, 1, 1, 1, 1, 2]), refused(4, 7));
    assert_eq!(first(1, &[0, 32_768, 1, 1, 1, 1, 0, 0]), Ok(OfFirst::Group(1)));
}

#[test]
fn over_words_any_table_is_refused_as_its_check_or_told_by_its_first_rule() {
    let mut numbers = std::collections::BTreeMap::new();
    let mut met = [0; 4];
    for seed in 0..12_000 {
        let mut chance = Chance::new(0x3b0e + seed);
        let (n, words) = random::any_table(&mut chance);
        let rules = check(n, &words).and_then(|()| rules_of(n, &words));
        let groups = rules.as_ref().map_or(&[][..], |rules| rules.first().map_or(&[], |rule| &rule.groups));
        let set = random::body_set(&mut chance, n.min(512), groups);
        let answer = which_group_of_first(n, &words, &set_words(&set));
        match (rules, answer) {
            (Ok(rules), Ok(OfFirst::NoRecord)) => assert!(rules.is_empty(), "seed {seed}"),
            (Ok(rules), Ok(OfFirst::NoGroup)) => assert_eq!(which_group(&rules[0].groups, &set), None, "seed {seed}"),
            (Ok(rules), Ok(OfFirst::Group(number))) => assert_eq!(which_group(&rules[0].groups, &set), Some(number), "seed {seed}"),
            (rules, answer) => assert_eq!(rules.err(), answer.err(), "seed {seed}"),
        }
        match answer {
            Ok(OfFirst::Group(number)) => met[number.min(1)] += 1,
            Ok(OfFirst::NoGroup) => met[2] += 1,
            Ok(OfFirst::NoRecord) => met[3] += 1,
            Err(refusal) => *numbers.entry(refusal.number).or_insert(0) += 1,
        }
    }
    assert_eq!(numbers.keys().copied().collect::<Vec<_>>(), [1, 2, 4, 5, 6, 7]);
    assert!(numbers.values().all(|&count| count > 300) && met.iter().all(|&count| count > 500), "{numbers:?} {met:?}");
}
