//! The mark record and its count, picks, the settled question, the report and the mark count.

use second::judge;
use second::marking::{MarkRecord, Picked, fresh, mark_count, pick, report, settled};
use second::model::evaluate;
use second::random::{self, Chance, RECORD_FORGERIES};
use second::refusal::Refusal;
use second::table::{Literal, Rule, check, encode, numbered, rules_of};
use second::tables::{EXAMPLES, MEASURED, written};
use second::truth::{F, I, T, U};

fn refusal(number: u32) -> Refusal {
    Refusal { number, place: 0 }
}

/// These marks, and their number as the count.
fn with_marks(n: u64, atoms: &[usize]) -> MarkRecord {
    with_count(n, atoms, atoms.len() as u64)
}

/// These marks, and any count.
fn with_count(n: u64, atoms: &[usize], count: u64) -> MarkRecord {
    let mut marks = [0; 8];
    for atom in atoms {
        marks[atom / 64] |= 1 << (atom % 64);
    }
    MarkRecord { n, marks, count }
}

/// All atoms below N marked, which is N marks.
fn all_marked(n: u64) -> MarkRecord {
    with_marks(n, &(0..n as usize).collect::<Vec<_>>())
}

/// Each entry refuses the record by this number, whatever else is wrong or right, and neither it nor the value room is altered.
fn every_entry_refuses(record: MarkRecord, number: u32) {
    let (mut after, mut room) = (record, [7; 512]);
    for words in [&[][..], &[0, 5, 0], &[9; 8193], &[u16::MAX], &[0, 40_000, 65]] {
        for atom in [0, 1, record.n, u64::MAX] {
            assert_eq!(pick(&mut after, words, atom), Picked::Refused(refusal(number)), "{record:?}");
        }
        assert_eq!(settled(&after, words), Err(refusal(number)), "{record:?}");
        for length in [0, 2, 512] {
            assert_eq!(report(&after, words, &mut room[..length]), Err(refusal(number)), "{record:?}");
        }
    }
    assert_eq!(mark_count(&after), Err(refusal(number)), "{record:?}");
    assert_eq!((after, room), (record, [7; 512]));
}

/// No entry refuses the record with the empty table, and the count is answered as it is stored.
fn every_entry_takes(record: MarkRecord) {
    let mut after = record;
    assert_eq!(mark_count(&record), Ok(record.count), "{record:?}");
    assert!(settled(&record, &[]).is_ok(), "{record:?}");
    assert!(!matches!(report(&record, &[], &mut [7; 512]), Err(given) if given != refusal(18)), "{record:?}");
    if record.n > 0 {
        assert!(!matches!(pick(&mut after, &[], 0), Picked::Refused(_)), "{record:?}");
    }
}

#[test]
fn a_fresh_record_has_no_marks_and_count_0_and_a_refused_one_n_0() {
    for n in [0, 1, 64, 512] {
        assert_eq!(fresh(n), (MarkRecord { n, marks: [0; 8], count: 0 }, Ok(())));
        assert_eq!(mark_count(&fresh(n).0), Ok(0));
    }
    for n in [513, 1 << 32, (1 << 32) + 1, u64::MAX] {
        assert_eq!(fresh(n), (MarkRecord { n: 0, marks: [0; 8], count: 0 }, Err(refusal(1))));
    }
    every_entry_takes(fresh(513).0);
}

#[test]
fn atom_a_is_bit_a_mod_64_of_word_a_div_64() {
    let both: Vec<u16> = (0..1024).flat_map(|head| [head, head + 1, 0]).collect();
    for atom in [0, 1, 63, 64, 127, 128, 300, 511] {
        let (mut record, _) = fresh(512);
        assert_eq!(pick(&mut record, &both, atom), Picked::Marked);
        let mut marks = [0; 8];
        marks[atom as usize / 64] = 1 << (atom % 64);
        assert_eq!(record, MarkRecord { n: 512, marks, count: 1 });
        assert_eq!(mark_count(&record), Ok(1));
    }
}

#[test]
fn a_pick_answers_marked_already_or_cannot() {
    let table = written(&["a", "-a", "p: a"]);
    let (mut record, _) = fresh(2);
    assert_eq!(pick(&mut record, &table.words(), 1), Picked::CannotBeMarkedNow);
    assert_eq!(record, with_count(2, &[], 0));
    assert_eq!(pick(&mut record, &table.words(), 0), Picked::Marked);
    assert_eq!(record, with_count(2, &[0], 1));
    assert_eq!(pick(&mut record, &table.words(), 0), Picked::AlreadyMarked);
    assert_eq!(record, with_count(2, &[0], 1));
    assert_eq!(pick(&mut record, &table.words(), 2), Picked::Refused(refusal(16)));
    assert_eq!(pick(&mut record, &[0], 1), Picked::Refused(Refusal { number: 4, place: 1 }));
    assert_eq!(record, with_count(2, &[0], 1));
    assert_eq!(settled(&record, &table.words()), Ok(false));
    assert_eq!(pick(&mut record, &table.words(), 1), Picked::Marked);
    assert_eq!(record, with_count(2, &[0, 1], 2));
    assert_eq!(mark_count(&record), Ok(2));
    assert_eq!(settled(&record, &table.words()), Ok(true));
}

#[test]
fn a_marked_atom_is_already_marked_whatever_the_table_says() {
    let mut record = with_marks(2, &[0]);
    assert_eq!(pick(&mut record, &[], 0), Picked::AlreadyMarked);
    assert_eq!(pick(&mut record, &[0, 5, 0], 0), Picked::AlreadyMarked);
    // A refused table is refused all the same.
    assert_eq!(pick(&mut record, &[0, 5, 65], 0), Picked::Refused(Refusal { number: 6, place: 2 }));
    assert_eq!(pick(&mut record, &[0, 40_000, 0], 0), Picked::Refused(Refusal { number: 6, place: 1 }));
    assert_eq!(record, with_marks(2, &[0]));
}

#[test]
fn pick_refuses_in_order_1_17_2_words_16() {
    let long = [9; 8193];
    let answer = |mut record: MarkRecord, words: &[u16], atom: u64| {
        let before = record;
        let answer = pick(&mut record, words, atom);
        assert_eq!(record, before);
        answer
    };
    assert_eq!(answer(with_marks(513, &[511]), &long, 600), Picked::Refused(refusal(1)));
    assert_eq!(answer(with_marks(u64::MAX, &[511]), &long, 600), Picked::Refused(refusal(1)));
    assert_eq!(answer(with_count(513, &[511], 0), &long, 600), Picked::Refused(refusal(1)));
    assert_eq!(answer(with_count(2, &[1], 2), &long, 600), Picked::Refused(refusal(17)));
    assert_eq!(answer(with_count(2, &[1], 0), &[0, 5, 0, 4], 600), Picked::Refused(refusal(17)));
    assert_eq!(answer(with_count(2, &[1], 2), &[0, 5, 0], 600), Picked::Refused(refusal(17)));
    assert_eq!(answer(with_marks(2, &[2]), &long, 600), Picked::Refused(refusal(17)));
    assert_eq!(answer(with_marks(2, &[511]), &long, 600), Picked::Refused(refusal(17)));
    assert_eq!(answer(with_marks(2, &[1]), &long, 600), Picked::Refused(refusal(2)));
    assert_eq!(answer(with_marks(2, &[1]), &[0, 5, 0, 4], 600), Picked::Refused(Refusal { number: 5, place: 3 }));
    assert_eq!(answer(with_marks(2, &[1]), &[0, 32_769, 0], 600), Picked::Refused(Refusal { number: 6, place: 1 }));
    for atom in [2, 3, 600, 1 << 32, (1 << 32) + 1, u64::MAX] {
        assert_eq!(answer(with_marks(2, &[1]), &[0, 5, 0], atom), Picked::Refused(refusal(16)), "{atom}");
    }
    assert_eq!(answer(with_marks(0, &[]), &[], 0), Picked::Refused(refusal(16)));
}

#[test]
fn settled_refuses_in_order_1_17_2_words() {
    let long = [9; 8193];
    assert_eq!(settled(&with_marks(513, &[511]), &long), Err(refusal(1)));
    assert_eq!(settled(&with_count(513, &[511], 0), &long), Err(refusal(1)));
    assert_eq!(settled(&with_marks(2, &[2]), &long), Err(refusal(17)));
    assert_eq!(settled(&with_count(2, &[1], 0), &long), Err(refusal(17)));
    assert_eq!(settled(&with_count(2, &[1], 2), &[0]), Err(refusal(17)));
    assert_eq!(settled(&with_marks(2, &[1]), &long), Err(refusal(2)));
    assert_eq!(settled(&with_marks(2, &[1]), &[0]), Err(Refusal { number: 4, place: 1 }));
    assert_eq!(settled(&with_marks(2, &[1]), &[0, 32_769, 0]), Err(Refusal { number: 6, place: 1 }));
    assert_eq!(settled(&with_marks(2, &[1]), &[0, 5, 0]), Ok(true));
}

#[test]
fn report_refuses_in_order_1_17_2_3_words_18() {
    let long = [9; 8193];
    let mut room = [7; 2];
    assert_eq!(report(&with_marks(513, &[511]), &long, &mut []), Err(refusal(1)));
    assert_eq!(report(&with_count(513, &[511], 2), &long, &mut []), Err(refusal(1)));
    assert_eq!(report(&with_marks(2, &[2]), &long, &mut []), Err(refusal(17)));
    assert_eq!(report(&with_count(2, &[1], 0), &long, &mut []), Err(refusal(17)));
    assert_eq!(report(&with_count(2, &[1], 2), &[0], &mut room[..1]), Err(refusal(17)));
    assert_eq!(report(&with_count(2, &[1], 2), &[0], &mut room), Err(refusal(17)));
    assert_eq!(report(&with_count(2, &[], 1), &[0, 5, 0, 1, 6, 0], &mut room), Err(refusal(17)));
    assert_eq!(report(&with_marks(2, &[1]), &long, &mut []), Err(refusal(2)));
    assert_eq!(report(&with_marks(2, &[1]), &[0], &mut room[..1]), Err(refusal(3)));
    assert_eq!(report(&with_marks(2, &[1]), &[0], &mut room), Err(Refusal { number: 4, place: 1 }));
    assert_eq!(report(&with_marks(2, &[]), &[0, 32_769, 0, 1, 6, 0], &mut room), Err(Refusal { number: 6, place: 1 }));
    assert_eq!(report(&with_marks(2, &[]), &[0, 5, 0, 1, 6, 0], &mut room), Err(refusal(18)));
    assert_eq!(room, [7; 2]);
    assert_eq!(report(&with_marks(2, &[0]), &[0, 5, 0, 1, 6, 0], &mut room), Ok(()));
    assert_eq!(room, [I, U]);
}

#[test]
fn mark_count_refuses_in_order_1_17() {
    assert_eq!(mark_count(&with_marks(513, &[0])), Err(refusal(1)));
    assert_eq!(mark_count(&with_count(513, &[0], 0)), Err(refusal(1)));
    assert_eq!(mark_count(&with_marks(511, &[511])), Err(refusal(17)));
    assert_eq!(mark_count(&with_marks(512, &[511])), Ok(1));
    let first_word = [u64::MAX, 0, 0, 0, 0, 0, 0, 0];
    assert_eq!(mark_count(&MarkRecord { n: 512, marks: [u64::MAX; 8], count: 512 }), Ok(512));
    assert_eq!(mark_count(&MarkRecord { n: 512, marks: [u64::MAX; 8], count: 511 }), Err(refusal(17)));
    assert_eq!(mark_count(&MarkRecord { n: 64, marks: first_word, count: 64 }), Ok(64));
    assert_eq!(mark_count(&MarkRecord { n: 64, marks: first_word, count: 63 }), Err(refusal(17)));
    assert_eq!(mark_count(&MarkRecord { n: 63, marks: first_word, count: 64 }), Err(refusal(17)));
    assert_eq!(mark_count(&MarkRecord { n: 63, marks: first_word, count: 63 }), Err(refusal(17)));
}

#[test]
fn no_marks_and_count_5_is_17_from_every_entry_and_the_count_stays_5() {
    for n in [0, 1, 5, 512] {
        every_entry_refuses(with_count(n, &[], 5), 17);
    }
}

#[test]
fn a_count_that_is_not_the_number_of_marks_is_17() {
    let rows: [(u64, Vec<usize>); 8] = [
        (0, vec![]),
        (1, vec![]),
        (1, vec![0]),
        (2, vec![1]),
        (65, vec![0, 63, 64]),
        (512, vec![511]),
        (512, (0..256).collect()),
        (512, (0..512).collect()),
    ];
    for (n, atoms) in rows {
        let number = atoms.len() as u64;
        every_entry_takes(with_marks(n, &atoms));
        // One above, one below, beyond every record, and right in its low bytes or bits.
        let above = [1, 2, 64, 256, 512, 513, 1 << 16, 1 << 32, 1 << 63].map(|more| number + more);
        let below = [1, 2, 64, 256, 512].map(|less| number.wrapping_sub(less));
        for count in above.into_iter().chain(below).chain([u64::MAX]) {
            every_entry_refuses(with_count(n, &atoms, count), 17);
        }
    }
}

#[test]
fn of_all_counts_up_to_520_the_number_of_marks_alone_is_taken() {
    for number in [0, 1, 2, 63, 64, 65, 255, 256, 257, 511, 512] {
        let atoms: Vec<usize> = (0..number).collect();
        for count in 0..=520 {
            let record = with_count(512, &atoms, count);
            let expected = if count == number as u64 { Ok(count) } else { Err(refusal(17)) };
            assert_eq!(mark_count(&record), expected, "{number} marks, count {count}");
        }
    }
}

#[test]
fn a_mark_at_n_is_17_whether_it_is_counted_or_not() {
    for n in [0, 1, 2, 63, 64, 511] {
        for atom in [n as usize, 511] {
            for count in [0, 1, 2, n, 512] {
                every_entry_refuses(with_count(n, &[atom], count), 17);
            }
        }
    }
    // One below N and one past it: all that are there, those below N, those past N.
    for count in [2, 1, 0] {
        every_entry_refuses(with_count(2, &[1, 2], count), 17);
    }
}

#[test]
fn n_above_512_is_1_whatever_the_count() {
    for n in [513, 1 << 16, (1 << 32) + 2, u64::MAX] {
        for atoms in [&[][..], &[0], &[511], &[0, 1, 511]] {
            for count in [0, 1, 2, 3, 5, 512, 513, u64::MAX] {
                every_entry_refuses(with_count(n, atoms, count), 1);
            }
        }
    }
}

#[test]
fn n_0_has_count_0_alone() {
    let record = with_count(0, &[], 0);
    every_entry_takes(record);
    assert_eq!(settled(&record, &[]), Ok(true));
    assert_eq!(report(&record, &[], &mut []), Ok(()));
    for count in [1, 2, 512, u64::MAX] {
        every_entry_refuses(with_count(0, &[], count), 17);
    }
}

/// The record has all N atoms marked and is settled with this table, and all values are i; no pick marks.
fn is_settled_with_all_marked(n: u64, words: &[u16]) {
    let mut record = all_marked(n);
    assert_eq!(mark_count(&record), Ok(n));
    assert_eq!(settled(&record, words), Ok(true), "N {n}, {words:?}");
    let mut values = vec![9; n as usize + 1];
    assert_eq!(report(&record, words, &mut values), Ok(()), "N {n}, {words:?}");
    assert_eq!(values.pop(), Some(9));
    assert!(values.iter().all(|&value| value == I), "N {n}, {words:?}");
    if n > 0 {
        assert_eq!(pick(&mut record, words, n - 1), Picked::AlreadyMarked, "N {n}, {words:?}");
    }
    assert_eq!(record, all_marked(n));
}

#[test]
fn a_record_with_512_marks_of_512_is_settled_for_every_table() {
    assert_eq!(all_marked(512), MarkRecord { n: 512, marks: [u64::MAX; 8], count: 512 });
    is_settled_with_all_marked(512, &[]);
    for measured in MEASURED {
        let (n, words) = (measured.table)();
        is_settled_with_all_marked(n, &words);
    }
}

/// What may head a record of two atoms: nothing, a fact, a literal, two in one group, or one in each of two groups.
fn short_bodies() -> Vec<Option<Vec<Vec<Literal>>>> {
    let pairs = || (0..4).flat_map(|a| (0..a).map(move |b| (b, a)));
    let mut bodies = vec![None, Some(vec![])];
    bodies.extend((0..4).map(|literal| Some(vec![vec![literal]])));
    bodies.extend(pairs().map(|(a, b)| Some(vec![vec![a, b]])));
    bodies.extend(pairs().map(|(a, b)| Some(vec![vec![a], vec![b]])));
    bodies
}

/// The words of each table of two atoms that has such bodies.
fn tables_of_two_atoms() -> impl Iterator<Item = Vec<u16>> {
    let bodies = short_bodies();
    (0..bodies.len().pow(4)).map(move |number| {
        let body = |head: Literal| bodies[number / bodies.len().pow(head as u32) % bodies.len()].clone();
        let rules: Vec<Rule> = (0..4).filter_map(|head| Some(Rule { head, groups: body(head)? })).collect();
        encode(&numbered(&rules))
    })
}

#[test]
fn a_record_with_n_marks_is_settled_for_every_accepted_table() {
    let mut tables = 0;
    for words in tables_of_two_atoms() {
        is_settled_with_all_marked(2, &words);
        tables += 1;
    }
    assert_eq!(tables, 18u32.pow(4));
    for seed in 0..20_000 {
        let (n, words) = random::accepted_table(&mut Chance::new(seed));
        is_settled_with_all_marked(n, &words);
    }
    for seed in 0..300 {
        let (n, words) = random::large_table(&mut Chance::new(seed));
        is_settled_with_all_marked(n, &words);
    }
}

#[test]
fn a_forged_record_that_is_taken_and_whose_count_is_n_is_settled() {
    let (mut full, mut less, mut refused) = (0, 0, 0);
    for seed in 0..60_000 {
        let mut chance = Chance::new(seed);
        let (n, words) = random::small_table(&mut chance, 6);
        let record = random::any_record(&mut chance, n);
        match mark_count(&record) {
            Ok(count) if count == record.n => {
                assert_eq!(settled(&record, &words), Ok(true), "seed {seed}");
                full += 1;
            }
            Ok(count) => {
                assert!(count < record.n, "seed {seed}");
                less += 1;
            }
            Err(_) => refused += 1,
        }
    }
    assert!(full > 5_000 && less > 20_000 && refused > 10_000, "{full} {less} {refused}");
}

/// All orders of the atoms below N.
fn orders(n: u64) -> Vec<Vec<u64>> {
    match n {
        0 => vec![vec![]],
        _ => orders(n - 1)
            .into_iter()
            .flat_map(|order| (0..n as usize).map(move |at| [&order[..at], &[n - 1], &order[at..]].concat()))
            .collect(),
    }
}

/// How often all pick orders of a table led to so many marks, and how often that was all atoms.
#[derive(Debug, Default)]
struct Ends {
    orders: u64,
    marks: [u64; 4],
    all: u64,
}

/// Picks all atoms in each order, again and again: after each pick the count is the number of marks, the end is the same whatever the
/// order, and settled, with a mark for each i of evaluation.
fn all_pick_orders(n: u64, words: &[u16], ends: &mut Ends) {
    let mut values = vec![9; n as usize];
    evaluate(n, words, &mut values).unwrap();
    let inconsistent: Vec<usize> = (0..n as usize).filter(|&atom| values[atom] == I).collect();
    let end = with_marks(n, &inconsistent);
    for order in orders(n) {
        let (mut record, _) = fresh(n);
        let mut made = 0;
        for &atom in order.iter().cycle().take((n * n) as usize) {
            let before = record;
            let answer = pick(&mut record, words, atom);
            made += (answer == Picked::Marked) as u64;
            assert_eq!(record.count, made, "N {n}, {words:?}, {order:?}");
            assert_eq!(record.count, record.number_of_marks(), "N {n}, {words:?}, {order:?}");
            assert_eq!(answer == Picked::Marked, record != before, "N {n}, {words:?}, {order:?}");
            assert!(record.count < n || settled(&record, words) == Ok(true), "N {n}, {words:?}, {order:?}");
        }
        assert_eq!(record, end, "N {n}, {words:?}, {order:?}");
        assert_eq!(settled(&record, words), Ok(true), "N {n}, {words:?}, {order:?}");
        assert_eq!(mark_count(&record), Ok(inconsistent.len() as u64), "N {n}, {words:?}, {order:?}");
        ends.orders += 1;
        ends.marks[made as usize] += 1;
        ends.all += (made == n) as u64;
    }
}

#[test]
fn all_pick_orders_of_small_tables_keep_the_count_and_end_in_one_record() {
    assert_eq!([0, 1, 2, 3].map(|n| orders(n).len()), [1, 1, 2, 6]);
    let mut ends = Ends::default();
    all_pick_orders(0, &[], &mut ends);
    for words in tables_of_two_atoms() {
        all_pick_orders(2, &words, &mut ends);
    }
    assert!(ends.marks[..3].iter().all(|&count| count > 2_000) && ends.all > 10_000, "{ends:?}");
    let mut of_three = Ends::default();
    for seed in 0..30_000 {
        let (n, words) = random::small_table(&mut Chance::new(seed), 3);
        all_pick_orders(n, &words, &mut of_three);
    }
    assert!(of_three.marks.iter().all(|&count| count > 2_000) && of_three.all > 5_000, "{of_three:?}");
}

#[test]
fn after_any_list_of_picks_with_any_tables_the_count_is_the_number_of_marks() {
    let (mut marked, mut already, mut cannot, mut refused, mut full) = (0, 0, 0, 0, 0);
    for seed in 0..10_000 {
        let mut chance = Chance::new(seed);
        let (n, words) = random::small_table(&mut chance, 6);
        let mut tables = vec![words];
        for _ in 0..3 {
            let (mut own_n, mut words) = random::small_table(&mut chance, n);
            if chance.one_in(3) {
                let damage = chance.of(&random::TABLE_DAMAGES[1..]);
                random::damage_table(&mut chance, &mut own_n, &mut words, damage);
            }
            tables.push(words);
        }
        let (mut record, _) = fresh(n);
        for _ in 0..chance.between(1, 30) {
            let words = &tables[chance.index(4)];
            let before = record;
            let answer = pick(&mut record, words, random::any_atom(&mut chance, n));
            match answer {
                Picked::Marked => marked += 1,
                Picked::AlreadyMarked => already += 1,
                Picked::CannotBeMarkedNow => cannot += 1,
                Picked::Refused(_) => refused += 1,
            }
            assert_eq!(record.count, before.count + (answer == Picked::Marked) as u64, "seed {seed}");
            assert_eq!(record.count, record.number_of_marks(), "seed {seed}");
            assert_eq!(mark_count(&record), Ok(record.count), "seed {seed}");
            if record.count == n && check(n, words).is_ok() {
                assert_eq!(settled(&record, words), Ok(true), "seed {seed}");
                full += 1;
            }
        }
    }
    assert!(marked > 10_000 && already > 10_000 && cannot > 10_000, "{marked} {already} {cannot}");
    assert!(refused > 10_000 && full > 5_000, "{refused} {full}");
}

#[test]
fn the_examples_end_with_as_many_marks_as_atoms_where_all_are_i() {
    let mut all = Vec::new();
    for example in EXAMPLES {
        let table = example.table();
        let (mut record, _) = fresh(table.n());
        for _ in 0..table.n() {
            for atom in 0..table.n() {
                pick(&mut record, &table.words(), atom);
                assert_eq!(record.count, record.number_of_marks(), "{}", example.name);
            }
        }
        assert_eq!(record.count, example.marks, "{}", example.name);
        assert_eq!(settled(&record, &table.words()), Ok(true), "{}", example.name);
        if record.count == table.n() {
            all.push(example.name);
        }
    }
    assert_eq!(all, ["P1", "P5", "P7", "P11"]);
}

#[test]
fn a_settled_record_that_no_picks_could_have_made_is_reported() {
    // c is marked out of thin air; p: c is then held and not clean, so p has to be marked as well.
    let table = written(&["a", "-b", "p: c"]);
    let mut values = [9; 5];
    assert_eq!(report(&with_marks(4, &[3]), &table.words(), &mut values), Err(refusal(18)));
    assert_eq!(report(&with_marks(4, &[2, 3]), &table.words(), &mut values), Ok(()));
    assert_eq!(values, [T, F, I, I, 9]);
    assert_eq!(evaluate(4, &table.words(), &mut values), Ok(()));
    assert_eq!(values, [T, F, U, U, 9]);
}

#[test]
fn each_pick_answers_by_the_least_closed_sets() {
    let mut met = [0; 3];
    for seed in 0..3000 {
        let mut chance = Chance::new(seed);
        let (n, words) = random::small_table(&mut chance, 4);
        let rules = rules_of(n, &words).unwrap();
        let mut record = random::record(&mut chance, n);
        let before = record;
        let marks = record.marks[0] as u32;
        let held = judge::held(n as usize, &rules, marks);
        let clean = judge::clean(n as usize, &rules, marks);
        let can = |atom: usize| {
            let (p, q) = (2 * atom, 2 * atom + 1);
            let doubtful = |literal| judge::has(held, literal) && !judge::has(clean, literal);
            !judge::has(marks, atom) && (judge::value(held, p) == I || doubtful(p) || doubtful(q))
        };
        let is_settled = !(0..n as usize).any(can);
        assert_eq!(settled(&record, &words), Ok(is_settled), "seed {seed}");
        let mut values = vec![9; n as usize];
        if is_settled {
            assert_eq!(report(&record, &words, &mut values), Ok(()));
            for (atom, &value) in values.iter().enumerate() {
                let expected = if judge::has(marks, atom) { I } else { judge::value(held, 2 * atom) };
                assert_eq!(value, expected, "seed {seed}");
            }
        } else {
            assert_eq!(report(&record, &words, &mut values), Err(refusal(18)));
            assert!(values.iter().all(|&value| value == 9));
        }
        let atom = chance.below(n) as usize;
        let answer = pick(&mut record, &words, atom as u64);
        let mut after = before;
        if judge::has(marks, atom) {
            assert_eq!(answer, Picked::AlreadyMarked, "seed {seed}");
            met[0] += 1;
        } else if can(atom) {
            assert_eq!(answer, Picked::Marked, "seed {seed}");
            after.marks[0] |= 1 << atom;
            after.count += 1;
            met[1] += 1;
        } else {
            assert_eq!(answer, Picked::CannotBeMarkedNow, "seed {seed}");
            met[2] += 1;
        }
        assert_eq!(record, after, "seed {seed}");
    }
    assert!(met.iter().all(|&count| count > 400), "{met:?}");
}

#[test]
fn random_pick_orders_end_in_the_smallest_model() {
    let (mut marked, mut already, mut cannot, mut refused) = (0, 0, 0, 0);
    for seed in 0..10_000 {
        let mut chance = Chance::new(50_000 + seed);
        let (n, words) = random::small_table(&mut chance, 4);
        let rules = rules_of(n, &words).unwrap();
        let least = judge::smallest(&judge::well_supported_models(n as usize, &rules)).unwrap();
        let inconsistent = (0..n as usize).filter(|&atom| judge::value(least, 2 * atom) == I).count() as u64;
        let (mut record, _) = fresh(n);
        let (mut count, mut tries) = (0, 0);
        while !settled(&record, &words).unwrap() {
            tries += 1;
            assert!(tries < 10_000, "seed {seed} does not settle");
            let atom = random::any_atom(&mut chance, n);
            let before = record;
            match pick(&mut record, &words, atom) {
                Picked::Marked => {
                    marked += 1;
                    count += 1;
                    assert!(record.has(atom as usize) && !before.has(atom as usize), "seed {seed}");
                    assert_eq!(judge::value(least, 2 * atom as usize), I, "seed {seed}");
                    assert_eq!((0..512).filter(|&a| record.has(a) != before.has(a)).count(), 1, "seed {seed}");
                }
                other => {
                    assert_eq!(record, before, "seed {seed}");
                    match other {
                        Picked::AlreadyMarked => already += 1,
                        Picked::CannotBeMarkedNow => cannot += 1,
                        Picked::Refused(given) => {
                            assert_eq!(given, refusal(16));
                            assert!(atom >= n);
                            refused += 1;
                        }
                        Picked::Marked => unreachable!(),
                    }
                }
            }
            assert_eq!(mark_count(&record), Ok(count), "seed {seed}");
        }
        assert_eq!(count, inconsistent, "seed {seed}");
        let mut values = vec![9; n as usize];
        report(&record, &words, &mut values).unwrap();
        assert_eq!(values, judge::values(n as usize, least), "seed {seed}");
        let mut whole = vec![9; n as usize];
        evaluate(n, &words, &mut whole).unwrap();
        assert_eq!(values, whole, "seed {seed}");
    }
    assert!(marked > 5000 && already > 1500 && cannot > 1000 && refused > 1000, "{marked} {already} {cannot} {refused}");
}

#[test]
fn any_record_and_any_table_are_answered() {
    let mut numbers = std::collections::BTreeMap::new();
    for seed in 0..4000 {
        let mut chance = Chance::new(seed);
        let (n, words) = random::any_table(&mut chance);
        let own_n = if chance.one_in(10) { chance.below(520) } else { n };
        let mut record = random::any_record(&mut chance, own_n);
        let before = record;
        let atom = random::any_atom(&mut chance, record.n);
        let question = settled(&record, &words);
        let mut values = random::value_room(&mut chance, record.n);
        let room = values.clone();
        let reported = report(&record, &words, &mut values);
        let count = mark_count(&record);
        let picked = pick(&mut record, &words, atom);

        let record_fault = count.err();
        let forged = RECORD_FORGERIES.into_iter().find(|forgery| forgery.is(&before));
        assert_eq!(record_fault, forged.map(|forgery| refusal(forgery.number())), "seed {seed}, {before:?}");
        assert_eq!(count.ok(), record_fault.is_none().then(|| before.marks.iter().map(|w| w.count_ones() as u64).sum()));
        let table_fault = record_fault.or(check(record.n, &words).err());
        assert_eq!(question.err(), table_fault, "seed {seed}");
        match picked {
            Picked::Refused(given) => {
                assert_eq!(given, table_fault.unwrap_or(refusal(16)), "seed {seed}");
                *numbers.entry(given.number).or_insert(0) += 1;
            }
            _ => *numbers.entry(0).or_insert(0) += 1,
        }
        if picked != Picked::Marked {
            assert_eq!(record, before, "seed {seed}");
        }
        match reported {
            Ok(()) => {
                assert_eq!(question, Ok(true), "seed {seed}");
                assert_eq!(values[before.n as usize..], room[before.n as usize..]);
            }
            Err(given) => {
                assert_eq!(values, room, "seed {seed}");
                let small = (room.len() as u64) < before.n;
                let expected = match table_fault {
                    Some(fault) if matches!(fault.number, 1 | 2 | 17) => fault,
                    _ if small => refusal(3),
                    Some(fault) => fault,
                    None => refusal(18),
                };
                assert_eq!(given, expected, "seed {seed}");
                *numbers.entry(100 + given.number).or_insert(0) += 1;
            }
        }
    }
    let met: Vec<u32> = numbers.keys().copied().collect();
    assert_eq!(met, [0, 1, 2, 4, 5, 6, 7, 16, 17, 101, 102, 103, 104, 105, 106, 107, 117, 118]);
    assert!(numbers.values().all(|&count| count > 30), "{numbers:?}");
}
