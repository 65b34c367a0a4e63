//! Which group of a record is wholly in a set of literals: each record of a table, asked by lending the table from there on.

use against::cases::{Tally, cases};
use against::entries::{Answer, Engine, Entries, FACT, NO_GROUP, NO_RECORD, Second, which_group, which_group_nulls};
use against::pages::Pages;
use against::shrink::{fewer_bits, smaller, smaller_table, without_parts};
use against::tables::{self, expect_of_lines, of_length, sound_or_faulty};
use second::model::{clean, held};
use second::random::{self, Chance, Shape, head_places, literal_set, set_of, set_words};
use second::refusal::Refusal;
use second::table::{Literal, Rule, atom_of, encode, numbered, rules_of};
use second::tables::{EXAMPLES, MEASURED};
use second::truth::{F, I, T};

const OF_WORDS: [&str; 4] = ["which 4", "which 5", "which 6", "which 7"];

const OF_LIMITS: [&str; 2] = ["which 1", "which 2"];

/// How often each answer was met, by its code, and each refusal.
struct Met {
    said: [u64; 67],
    refused: Tally,
}

impl Met {
    fn new() -> Met {
        Met { said: [0; 67], refused: Tally::default() }
    }

    fn note(&mut self, words: &[u16], answer: &Answer) {
        match answer {
            Ok(said) => self.said[*said as usize] += 1,
            Err(_) => tables::note(&mut self.refused, "which", words, answer),
        }
    }

    fn accepted(&self) -> u64 {
        self.said.iter().sum()
    }

    /// Each of these answers and refusals was met so many times, and no other refusals were met.
    fn expect_among(&self, codes: impl IntoIterator<Item = u64>, refusals: &[&str], least: u64) {
        println!("{} answers, by code {:?}", self.accepted(), self.said);
        for code in codes {
            let times = self.said[code as usize];
            assert!(times >= least, "answer {code} was met {times} times, not {least}: {:?}", self.said);
        }
        self.refused.expect(refusals, least);
    }

    /// The same, and no other answers were met.
    fn expect(&self, codes: impl IntoIterator<Item = u64> + Clone, refusals: &[&str], least: u64) {
        self.expect_among(codes.clone(), refusals, least);
        let listed: u64 = codes.into_iter().map(|code| self.said[code as usize]).sum();
        assert_eq!(listed, self.accepted(), "answers that should not be met: {:?}", self.said);
    }
}

/// The engine says what the second implementation does; if not, the smallest table and set found are shown. The answer.
fn answer(n: u64, words: &[u16], set: &[u64], met: &mut Met) -> Answer {
    let expected = Second.which_group(n, words, set);
    met.note(words, &expected);
    if Engine.which_group(n, words, set) != expected {
        let differ = |n: u64, words: &[u16], set: &[u64]| Engine.which_group(n, words, set) != Second.which_group(n, words, set);
        let words = smaller_table(words, |words| differ(n, words, set));
        let set = without_parts(set, |set| differ(n, &words, set));
        let set = fewer_bits(&set, |set| differ(n, &words, set));
        let n = smaller(n, |n| differ(n, &words, &set));
        let (engine, second) = (Engine.which_group(n, &words, &set), Second.which_group(n, &words, &set));
        panic!("N {n}, words {words:?}, set {set:x?}: engine {engine:?}, second implementation {second:?}");
    }
    expected
}

/// The same, whatever the answer is.
fn compare(n: u64, words: &[u16], set: &[u64], met: &mut Met) {
    let _ = answer(n, words, set, met);
}

/// The answer for the first record of an accepted table, of N 512 and for a set as a row.
fn number(words: &[u16], set: &[bool], met: &mut Met) -> u64 {
    answer(512, words, &set_words(set), met).expect("an accepted table")
}

/// The words of one rule.
fn one_rule(head: Literal, groups: &[Vec<Literal>]) -> Vec<u16> {
    encode(&numbered(&[Rule { head, groups: groups.to_vec() }]))
}

/// The set less one literal.
fn less(set: &[bool], literal: Literal) -> Vec<bool> {
    let mut set = set.to_vec();
    set[literal] = false;
    set
}

/// All literals, none, any, each group alone, and each less one of its literals.
fn sets(chance: &mut Chance, n: u64, groups: &[Vec<Literal>]) -> Vec<Vec<bool>> {
    let mut sets = vec![vec![true; 2 * n as usize], vec![false; 2 * n as usize], literal_set(chance, n)];
    for group in groups {
        let alone = set_of(n, std::slice::from_ref(group));
        sets.push(less(&alone, chance.of(group)));
        sets.push(alone);
    }
    sets
}

/// Every record of a table with all of these, with what is held and clean at marks of chance, and with the groups from one on; then the end.
fn every_record(n: u64, words: &[u16], chance: &mut Chance, met: &mut Met) {
    let rules = rules_of(n, words).expect("an accepted table");
    let marked = random::record(chance, n).marked();
    let of_marks = [held(&rules, &marked), clean(&rules, &marked)];
    for (rule, at) in rules.iter().zip(head_places(words)) {
        let mut sets = sets(chance, n, &rule.groups);
        sets.extend_from_slice(&of_marks);
        sets.push(random::body_set(chance, n, &rule.groups));
        for set in sets {
            compare(n, &words[at..], &random::any_set_words(chance, &set), met);
        }
    }
    compare(n, &[], &set_words(&of_marks[0]), met);
}

#[test]
fn every_record_of_small_tables() {
    let mut chance = Chance::new(0x3401);
    let mut met = Met::new();
    for _ in 0..cases(60_000) {
        let (n, words) = random::small_table(&mut chance, 6);
        every_record(n, &words, &mut chance, &mut met);
    }
    met.expect([FACT, 1, 2, 3, 4, NO_GROUP, NO_RECORD], &[], cases(5_000));
    assert!(met.accepted() > cases(2_500_000), "{}", met.accepted());
}

/// A table of few atoms with bodies of up to 64 groups.
fn wide_table(chance: &mut Chance) -> (u64, Vec<u16>) {
    let n = chance.of(&[1, 2, 5, 31, 32, 33, 64, 300, 512]);
    let shape = Shape { headed: 400 / n.max(4), facts: 10, groups: 64, literals: chance.of(&[1, 2, 4]), negative: 50 };
    let mut rules = random::rules(chance, n, shape);
    rules.truncate(20);
    (n, encode(&numbered(&rules)))
}

#[test]
fn every_record_of_tables_with_many_groups() {
    let mut chance = Chance::new(0x3402);
    let mut met = Met::new();
    for _ in 0..cases(150) {
        let (n, words) = wide_table(&mut chance);
        every_record(n, &words, &mut chance, &mut met);
    }
    met.expect(FACT..=NO_RECORD, &[], cases(5));
    assert!(met.accepted() > cases(40_000), "{}", met.accepted());
}

#[test]
fn every_record_of_large_tables() {
    let mut chance = Chance::new(0x3403);
    let mut met = Met::new();
    for _ in 0..cases(12) {
        let (n, words) = random::large_table(&mut chance);
        every_record(n, &words, &mut chance, &mut met);
    }
    met.expect_among([FACT, 1, 2, NO_GROUP], &[], cases(100));
    assert!(met.accepted() > cases(10_000), "{}", met.accepted());
}

#[test]
fn every_body_of_few_short_groups_with_every_set_of_two_atoms() {
    let groups: Vec<Vec<Literal>> = (0..4).map(|a| vec![a]).chain((0..16).map(|ab| vec![ab / 4, ab % 4])).collect();
    let mut met = Met::new();
    for m in 0..=3 {
        for choice in 0..groups.len().pow(m) {
            let body: Vec<Vec<Literal>> = (0..m).map(|i| groups[choice / groups.len().pow(i) % groups.len()].clone()).collect();
            for (head, set) in (0..4).flat_map(|head| (0..16).map(move |set| (head, set))) {
                compare(2, &one_rule(head, &body), &[set], &mut met);
            }
        }
    }
    assert_eq!(met.accepted(), 4 * 16 * (1 + 20 + 400 + 8_000));
    met.expect([FACT, 1, 2, 3, NO_GROUP], &[], 64);
}

/// Bodies of m groups, each with a literal of its own in front: it alone, one that all share behind it, one for each later group behind it, and
/// itself m times.
fn apart(m: usize) -> [Vec<Vec<Literal>>; 4] {
    let own = |g: usize| 16 * g + g % 16;
    let body = |group: &dyn Fn(usize) -> Vec<Literal>| (0..m).map(group).collect();
    [
        body(&|g| vec![own(g)]),
        body(&|g| vec![own(g), 7]),
        body(&|g| [own(g)].into_iter().chain((g + 1..m).map(|later| own(later) ^ 8)).collect()),
        body(&|g| vec![own(g); m]),
    ]
}

#[test]
fn every_number_of_groups_with_each_of_them_alone_in_the_set() {
    let mut met = Met::new();
    for m in 0..=64 {
        for groups in apart(m) {
            let words = one_rule(1023 - m, &groups);
            let none = if m == 0 { FACT } else { NO_GROUP };
            assert_eq!(number(&words, &set_of(512, &[]), &mut met), none, "{m} groups");
            assert_eq!(number(&words, &vec![true; 1024], &mut met), m.min(1) as u64, "{m} groups");
            for g in 0..m {
                let expected = g as u64 + 1;
                let alone = set_of(512, &groups[g..=g]);
                assert_eq!(number(&words, &alone, &mut met), expected, "group {g} of {m}");
                assert_eq!(number(&words, &less(&alone, groups[g][0]), &mut met), NO_GROUP, "group {g} of {m} less a literal");
                assert_eq!(number(&words, &set_of(512, &groups[g..]), &mut met), expected, "from group {g} of {m}");
                let all_but = groups[..g].iter().fold(vec![true; 1024], |set, group| less(&set, group[0]));
                assert_eq!(number(&words, &all_but, &mut met), expected, "all but a literal of each before group {g} of {m}");
                // Of equal groups the first.
                let equal = [&groups[..g], &vec![groups[g].clone(); m - g]].concat();
                assert_eq!(number(&one_rule(m, &equal), &alone, &mut met), expected, "from group {g} of {m} equal");
            }
        }
    }
    met.expect(FACT..=NO_GROUP, &[], 4);
}

#[test]
fn one_literal_of_a_group_missing_at_each_place() {
    let mut met = Met::new();
    for k in 1..=64 {
        let group: Vec<Literal> = (0..k).map(|i| (i * 331 + k) % 1024).collect();
        let whole = set_of(512, std::slice::from_ref(&group));
        for place in 0..k {
            let missing = less(&whole, group[place]);
            let all_but = less(&vec![true; 1024], group[place]);
            let rest = [&group[..place], &group[place + 1..]].concat();
            let alone = one_rule(5, std::slice::from_ref(&group));
            assert_eq!(number(&alone, &whole, &mut met), 1);
            assert_eq!(number(&alone, &missing, &mut met), NO_GROUP, "{k} literals, {place} missing");
            assert_eq!(number(&alone, &all_but, &mut met), NO_GROUP, "{k} literals, {place} missing");
            if k == 1 {
                continue;
            }
            // A later group, and an earlier one, without that literal.
            assert_eq!(number(&one_rule(5, &[group.clone(), rest.clone()]), &missing, &mut met), 2, "{k} literals, {place} missing");
            assert_eq!(number(&one_rule(5, &[rest.clone(), group.clone()]), &missing, &mut met), 1, "{k} literals, {place} missing");
            // The literal stands there twice, or in place of all others.
            let mut twice = group.clone();
            twice[(place + k / 2) % k] = group[place];
            assert_eq!(number(&one_rule(5, &[twice]), &missing, &mut met), NO_GROUP, "{k} literals, {place} missing");
            assert_eq!(number(&one_rule(group[place], &[vec![group[place]; k], rest]), &missing, &mut met), 2);
        }
    }
    met.expect([1, 2, NO_GROUP], &[], 4_000);
}

#[test]
fn every_literal_with_sets_of_0_to_17_words() {
    let mut met = Met::new();
    for literal in 0..1024 {
        // The negation first, which is in the set only where all are.
        let words = one_rule(literal, &[vec![literal, literal ^ 1], vec![literal]]);
        let bit = 1 << (literal % 64);
        for length in 0..=17 {
            let within = literal / 64 < length;
            let said = |set: Vec<u64>, met: &mut Met| answer(512, &words, &set, met).expect("an accepted table");
            assert_eq!(said(vec![!0; length], &mut met), if within { 1 } else { NO_GROUP }, "literal {literal}, {length} words");
            let mut set = vec![0; length];
            set.iter_mut().skip(literal / 64).take(1).for_each(|word| *word = bit);
            assert_eq!(said(set.clone(), &mut met), if within { 2 } else { NO_GROUP }, "literal {literal}, {length} words");
            set.iter_mut().for_each(|word| *word = !*word);
            assert_eq!(said(set, &mut met), NO_GROUP, "literal {literal}, {length} words");
        }
    }
    met.expect([1, 2, NO_GROUP], &[], 9_000);
}

/// A record of 64 groups of 64 literals, each with one literal of its own, its last; and facts and records behind it up to so many words.
fn full_table(length: usize) -> (Vec<Vec<Literal>>, Vec<u16>) {
    let groups: Vec<Vec<Literal>> = (0..64).map(|g| (0..63).map(|i| 2 * i).chain([512 + g]).collect()).collect();
    let first = one_rule(1023, &groups);
    let behind = of_length(length - first.len());
    (groups, [first, behind].concat())
}

#[test]
fn at_8191_8192_and_8193_words() {
    let mut met = Met::new();
    for length in [4163, 8191, 8192, 8193, 8194, 16_384, 65_538] {
        let (groups, words) = full_table(length);
        assert_eq!(words.len(), length);
        for g in 0..64 {
            let set = set_words(&set_of(512, &groups[g..]));
            let expected = if length <= 8192 { Ok(g as u64 + 1) } else { Err(Refusal { number: 2, place: 0 }) };
            assert_eq!(answer(512, &words, &set, &mut met), expected, "{length} words, group {g}");
            compare(511, &words, &set, &mut met);
            compare(513, &words, &set, &mut met);
        }
        let none = set_words(&set_of(512, &[vec![0]]));
        for at in [0, 1, 2, 3, 67, 4_162, length - 1, length - 2] {
            for word in [0, 64, 65, 1023, 1024, 32_768, 32_769, u16::MAX] {
                let mut words = words.clone();
                words[at] = word;
                compare(512, &words, &none, &mut met);
            }
            compare(512, &words[..at], &none, &mut met);
        }
    }
    met.expect(1..=NO_RECORD, &[&OF_LIMITS[..], &OF_WORDS].concat(), 2);
}

#[test]
fn the_measured_tables() {
    let mut chance = Chance::new(0x3404);
    let mut met = Met::new();
    for measured in MEASURED {
        let (n, words) = (measured.table)();
        let rules = rules_of(n, &words).expect("an accepted table");
        let held = held(&rules, &vec![false; n as usize]);
        let clean = clean(&rules, &random::record(&mut chance, n).marked());
        for (i, (rule, at)) in rules.iter().zip(head_places(&words)).enumerate().filter(|(i, _)| i % 5 == 0) {
            // Before any mark a head is held exactly if its rule is a fact or has a group.
            let fires = number(&words[at..], &held, &mut met) != NO_GROUP;
            assert_eq!(fires, held[rule.head], "{}, record {i}", measured.name);
            number(&words[at..], &clean, &mut met);
            number(&words[at..], &random::body_set(&mut chance, n, &rule.groups), &mut met);
        }
    }
    met.expect_among([FACT, 1, 2, NO_GROUP], &[], 50);
}

#[test]
fn p1_to_p12_in_the_literals_of_the_model() {
    let expected = ["", "-", "-", "0", "0 0", "0 1 -", "0 1", "0 -", "0 0 -", "0 0 0 1", "0 0 1 0 1 1 1", "1 1 1 0 1 1 0 0"];
    for (example, expected) in EXAMPLES.iter().zip(expected) {
        let (n, words) = (example.table().n(), example.table().words());
        let set = set_words(&model_of(&example.values_in_order()));
        let said = |at: usize| match Engine.which_group(n, &words[at..], &set).expect("an accepted table") {
            NO_GROUP => "-".to_string(),
            number => number.to_string(),
        };
        assert_eq!(head_places(&words).into_iter().map(said).collect::<Vec<_>>().join(" "), expected, "{}", example.name);
    }
}

/// The literals of the model with these values: the positive one of t, the negative one of f, both of i.
fn model_of(values: &[u8]) -> Vec<bool> {
    values.iter().flat_map(|&value| [value == T || value == I, value == F || value == I]).collect()
}

/// The engine's own evaluation has the head of each record whose answer is not none, and no head of a record whose answer is none but for i.
fn agrees_with_evaluation(n: u64, words: &[u16], met: &mut Met) {
    let mut values = vec![9; n as usize];
    assert_eq!(Engine.evaluate(n, words, &mut values), Ok(0));
    let rules = rules_of(n, words).expect("an accepted table");
    let (model, before) = (model_of(&values), held(&rules, &vec![false; n as usize]));
    for (rule, at) in rules.iter().zip(head_places(words)) {
        let mut fires = |set: &[bool]| answer(n, &words[at..], &set_words(set), met) != Ok(NO_GROUP);
        let in_model = fires(&model);
        let is_i = values[atom_of(rule.head)] == I;
        assert!(if is_i { model[rule.head] } else { in_model == model[rule.head] }, "N {n}, words {words:?}, {rule:?}");
        assert_eq!(fires(&before), before[rule.head], "N {n}, words {words:?}, {rule:?}");
    }
}

#[test]
fn the_engines_own_evaluation() {
    let mut chance = Chance::new(0x3405);
    let mut met = Met::new();
    for _ in 0..cases(60_000) {
        let (n, words) = random::small_table(&mut chance, 8);
        agrees_with_evaluation(n, &words, &mut met);
    }
    met.expect([FACT, 1, 2, 3, 4, NO_GROUP], &[], cases(300));
    for _ in 0..cases(5) {
        let (n, words) = random::large_table(&mut chance);
        agrees_with_evaluation(n, &words, &mut met);
    }
}

#[test]
fn small_tables_with_a_word_altered_or_cut() {
    let mut chance = Chance::new(0x3406);
    let mut met = Met::new();
    for _ in 0..cases(400_000) {
        let (mut n, mut words) = random::small_table(&mut chance, 5);
        let set = random::any_set(&mut chance, n, &words);
        match chance.below(8) {
            0 => n = random::awkward_number(&mut chance, n),
            1 => words.truncate(chance.index(words.len() + 1)),
            2 => random::damage_record(&mut chance, n, &mut words),
            3..6 if !words.is_empty() => {
                let at = chance.index(words.len());
                words[at] = chance.of(&[0, 1, 2, 3, 2 * n as u16 - 1, 2 * n as u16, 64, 65, 32_768, 32_769, u16::MAX]);
            }
            _ => {}
        }
        compare(n, &words, &set, &mut met);
    }
    // Where m is altered, records may be read as groups.
    met.expect_among([FACT, 1, 2, 3, 4, NO_GROUP, NO_RECORD], &[&OF_LIMITS[..1], &OF_WORDS].concat(), cases(300));
    expect_of_lines(&met.refused, cases(5_000));
}

#[test]
fn random_and_damaged_tables_between_pages_that_cannot_be_read() {
    let mut chance = Chance::new(0x3407);
    let mut met = Met::new();
    let (mut table_pages, mut set_pages) = (Pages::default(), Pages::default());
    for _ in 0..cases(12_000) {
        let (n, words) = random::any_table(&mut chance);
        let tails = [&[0][..], &head_places(&words)].concat();
        let tail = &words[chance.of(&tails)..];
        let set = random::any_set(&mut chance, n, tail);
        let expected = answer(n, tail, &set, &mut met);
        let behind = !chance.one_in(4);
        let (lent, lent_set) = (table_pages.read_only(tail, behind), set_pages.read_only(&set, behind));
        assert_eq!(which_group(n, lent, lent_set), expected, "N {n}, words {tail:?}, set {set:x?}");
    }
    met.expect_among([FACT, 1, 2, NO_GROUP, NO_RECORD], &[&OF_LIMITS[..], &OF_WORDS].concat(), cases(100));
    expect_of_lines(&met.refused, cases(50));
}

#[test]
fn what_stands_behind_the_set_and_the_table_plays_no_part() {
    for literal in 0..1024u16 {
        let words = [1023 - literal, 9, 1, 1, literal, literal, literal];
        for length in 0..=17 {
            let expected = if (literal as usize) < 64 * length { Ok(1) } else { Ok(NO_GROUP) };
            assert_eq!(which_group(512, &words[..5], &[!0; 32][..length]), expected, "literal {literal}, {length} words");
        }
        // Without its last word the record is cut short, whatever stands there.
        assert_eq!(which_group(512, &words[..4], &[!0; 16]), Err(Refusal { number: 4, place: 4 }));
        assert_eq!(which_group_nulls(512, &words[..5]), Ok(NO_GROUP));
        assert_eq!(which_group_nulls(512, &[literal, 9, 0]), Ok(FACT));
    }
    assert_eq!(which_group_nulls(0, &[]), Ok(NO_RECORD));
    assert_eq!(which_group_nulls(512, &[]), Ok(NO_RECORD));
    assert_eq!(which_group_nulls(513, &[]), Err(Refusal { number: 1, place: 0 }));
    assert_eq!(which_group_nulls(2, &[9, 0, 0]), Err(Refusal { number: 5, place: 0 }));
}

#[test]
fn awkward_numbers_of_atoms() {
    let mut met = Met::new();
    let ns = [0, 1, 2, 511, 512, 513, 514, 1 << 16, 1 << 31, 1 << 32, (1 << 32) + 1, (1 << 32) + 512, 1 << 63, (1 << 63) + 1, u64::MAX];
    for n in ns {
        for atom in [0, 1, 2, 255, 256, 510, 511, 512, 513, 16_384, 32_767] {
            let (p, q) = (2 * atom, 2 * atom + 1);
            for words in [&[][..], &[p, 0, 0], &[p, 7, 1, 1, q], &[q, 7, 2, 2, p, q, 1, p], &[p, 0, 0, p, 0, 0], &[p], &[p, 40_000, 0]] {
                for set in [&[][..], &[!0; 16], &[0x5555_5555_5555_5555; 16]] {
                    compare(n, words, set, &mut met);
                }
            }
        }
        // 1 before 2, and 2 before the words.
        for words in [vec![0; 8193], vec![u16::MAX; 8193]] {
            let expected = Err(Refusal { number: if n > 512 { 1 } else { 2 }, place: 0 });
            assert_eq!(answer(n, &words, &[!0; 16], &mut met), expected, "N {n}");
        }
    }
    met.expect([FACT, 1, 2, NO_GROUP, NO_RECORD], &[&OF_LIMITS[..], &OF_WORDS].concat(), 10);
}

#[test]
fn a_group_before_a_faulty_word_is_no_answer() {
    let mut chance = Chance::new(0x3408);
    let mut met = Met::new();
    for _ in 0..cases(60_000) {
        // Every table begins with a fact or with a rule whose group is in the set; what is behind it is accepted, damaged or cut.
        let (n, words) = sound_or_faulty(&mut chance);
        let own = 2 * n as u16;
        let first = chance.of(&[0, 1]);
        let words = [&[own, 1, first, 1, own + 1][..if first == 0 { 3 } else { 5 }], &words].concat();
        let expected = Engine.check(n + 1, &words).map(|_| u64::from(first));
        assert_eq!(answer(n + 1, &words, &[!0], &mut met), expected);
    }
    met.expect([FACT, 1], &OF_WORDS, cases(2_000));
}
