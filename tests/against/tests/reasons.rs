//! Reason sheets through the C boundary: the engine's check beside the second implementation's, and the sheets that it writes judged by
//! both checks with whole evaluation's values.

use second::random::{Chance, Claimed, table_bytes};

/// The bytes of a table, once in ten times with a lone byte after them.
fn any_bytes(chance: &mut Chance, words: &[u16]) -> Vec<u8> {
    let mut table = table_bytes(words);
    if chance.one_in(10) {
        table.push(chance.number() as u8);
    }
    table
}

/// What is lent to the check, as bytes.
#[derive(Clone, Debug)]
struct Lent {
    n: u64,
    table: Vec<u8>,
    values: Vec<u8>,
    text: Vec<u8>,
}

fn lent(chance: &mut Chance, claimed: Claimed) -> Lent {
    let Claimed { n, words, values, text } = claimed;
    Lent { n, table: any_bytes(chance, &words), values, text }
}

mod check {
    use super::{Lent, lent};
    use against::cases::{Tally, cases};
    use against::entries::unpacked;
    use against::guard::{BEFORE, Guarded};
    use against::host;
    use against::pages::Pages;
    use against::shrink::{smaller, without_parts};
    use second::host::simmerknot_check_reasons as second_check;
    use second::random::{self, Chance, FORGERIES, evaluated, good_lines, table_bytes};
    use second::reasons::{Line, text_of};
    use second::table::{Literal, Rule, encode, numbered, rules_of};
    use second::tables::{EXAMPLES, MEASURED, all_i};
    use second::truth::{F, I, T, U};

    const OUTCOMES: [&str; 12] = [
        "check ok", "check 1", "check 2", "check 3", "check 4", "check 5", "check 6", "check 7", "check 20", "check 21", "check 22",
        "check 34",
    ];

    /// The engine's packed answer; nothing that is lent is altered.
    fn engine(lent: &Lent, before: usize) -> u64 {
        let rows = [&lent.table, &lent.values, &lent.text].map(|row| Guarded::new(row, before));
        let answer = host::check_reasons(lent.n, rows[0].row(), rows[1].row(), rows[2].row());
        for (row, same) in rows.iter().zip([&lent.table, &lent.values, &lent.text]) {
            assert!(*row == Guarded::new(same, before), "what was lent was altered");
        }
        answer
    }

    fn second(lent: &Lent) -> u64 {
        second_check(lent.n, &lent.table, &lent.values, &lent.text)
    }

    /// Both sides answer the same; if not, the smallest case found is shown. The answer.
    fn compare(lent: &Lent, before: usize, tally: &mut Tally) -> u64 {
        let expected = second(lent);
        tally.answer("check", &unpacked(expected));
        if engine(lent, before) != expected {
            let differ = |lent: &Lent| engine(lent, before) != second(lent);
            let mut lent = lent.clone();
            lent.text = without_parts(&lent.text, |text| differ(&Lent { text: text.to_vec(), ..lent.clone() }));
            lent.table = without_parts(&lent.table, |table| differ(&Lent { table: table.to_vec(), ..lent.clone() }));
            lent.values = without_parts(&lent.values, |values| differ(&Lent { values: values.to_vec(), ..lent.clone() }));
            lent.n = smaller(lent.n, |n| differ(&Lent { n, ..lent.clone() }));
            let (ours, theirs) = (unpacked(engine(&lent, before)), unpacked(second(&lent)));
            panic!("{lent:?}, text \"{}\":\nengine {ours:?}\nsecond {theirs:?}", lent.text.escape_ascii());
        }
        expected
    }

    #[test]
    fn anything() {
        let mut chance = Chance::new(0x5e01);
        let mut tally = Tally::default();
        for _ in 0..cases(60_000) {
            let claimed = random::any_reasons(&mut chance);
            let lent = lent(&mut chance, claimed);
            compare(&lent, chance.of(&BEFORE), &mut tally);
        }
        tally.expect(&OUTCOMES, cases(100));
    }

    #[test]
    fn small_tables_with_values_and_sheets_of_every_kind() {
        let mut chance = Chance::new(0x5e02);
        let mut tally = Tally::default();
        for _ in 0..cases(200_000) {
            let (n, words) = random::small_table(&mut chance, 4);
            let (values, text) = random::claimed(&mut chance, n, &words);
            compare(&Lent { n, table: table_bytes(&words), values, text }, chance.of(&BEFORE), &mut tally);
        }
        tally.expect(&["check ok", "check 3", "check 20", "check 21", "check 22", "check 34"], cases(5_000));
    }

    #[test]
    fn large_tables() {
        let mut chance = Chance::new(0x5e03);
        let mut tally = Tally::default();
        for _ in 0..cases(1_000) {
            let (n, words) = random::large_table(&mut chance);
            let (values, text) = random::claimed(&mut chance, n, &words);
            compare(&Lent { n, table: table_bytes(&words), values, text }, chance.of(&BEFORE), &mut tally);
        }
        tally.expect(&["check ok", "check 3", "check 20", "check 21", "check 22", "check 34"], cases(20));
    }

    #[test]
    fn every_forgery_of_good_sheets() {
        let mut chance = Chance::new(0x5e04);
        for forgery in FORGERIES {
            let mut tally = Tally::default();
            for _ in 0..cases(2_000) {
                let (n, words) = random::small_table(&mut chance, 5);
                let values = evaluated(n, &words);
                let lines = good_lines(&mut chance, &rules_of(n, &words).unwrap(), &values).expect("a sheet");
                let text = random::forged(&mut chance, n, &lines, forgery);
                compare(&Lent { n, table: table_bytes(&words), values, text }, chance.of(&BEFORE), &mut tally);
            }
            for number in forgery.numbers() {
                assert!(tally.times(&format!("check {number}")) > cases(50), "{forgery:?}: {tally:?}");
            }
        }
    }

    /// A good sheet for the values of each example, and for its other model where it has one: all literals at once.
    fn sheets_of_examples() -> Vec<(Lent, Vec<Line>)> {
        let mut sheets = Vec::new();
        for example in EXAMPLES {
            let table = example.table();
            let all_i = vec![I; table.names.len()];
            let others = example.also_well_supported.iter().map(|_| all_i.clone());
            for values in others.chain([example.values_in_order()]) {
                let lines = good_lines(&mut Chance::new(7), &table.rules, &values).expect("a sheet");
                let lent = Lent { n: table.n(), table: table_bytes(&table.words()), values, text: text_of(&lines) };
                sheets.push((lent, lines));
            }
        }
        sheets
    }

    #[test]
    fn every_byte_of_the_examples_sheets_as_every_byte() {
        let mut tally = Tally::default();
        for (lent, _) in sheets_of_examples() {
            assert_eq!(compare(&lent, 13, &mut tally), 0);
            for at in 0..=lent.text.len() {
                let cut = Lent { text: lent.text[..at].to_vec(), ..lent.clone() };
                compare(&cut, 13, &mut tally);
                for byte in 0..=255 {
                    let mut more = lent.clone();
                    more.text.insert(at, byte);
                    compare(&more, 13, &mut tally);
                    if at < lent.text.len() {
                        more.text.remove(at + 1);
                        compare(&more, 16, &mut tally);
                    }
                }
            }
        }
        tally.expect(&["check ok", "check 21", "check 22"], 500);
    }

    #[test]
    fn every_number_of_the_examples_lines() {
        let mut tally = Tally::default();
        for (lent, lines) in sheets_of_examples() {
            let try_line = |at: usize, line: Line, tally: &mut Tally| {
                let mut lines = lines.clone();
                lines[at] = line;
                compare(&Lent { text: text_of(&lines), ..lent.clone() }, 13, tally);
            };
            for (at, &line) in lines.iter().enumerate() {
                (0..1030).chain([2047, 2048, 4096, 9999]).for_each(|rank| try_line(at, Line { rank, ..line }, &mut tally));
                for number in (0..2 * lent.n as usize + 3).chain([1022, 1023, 1024, 8192, 9999]) {
                    try_line(at, Line { literal: number, ..line }, &mut tally);
                    (0..4).for_each(|group| try_line(at, Line { head: number, group, ..line }, &mut tally));
                }
                (0..70).chain([256, 9999]).for_each(|group| try_line(at, Line { group, ..line }, &mut tally));
            }
        }
        tally.expect(&["check ok", "check 22"], 500);
    }

    #[test]
    fn every_row_of_lines_of_the_examples() {
        let mut tally = Tally::default();
        for (lent, lines) in sheets_of_examples() {
            for one in 0..lines.len() {
                let mut without = lines.clone();
                without.remove(one);
                compare(&Lent { text: text_of(&without), ..lent.clone() }, 13, &mut tally);
                for two in 0..=lines.len() {
                    let mut twice = lines.clone();
                    twice.insert(two, lines[one]);
                    compare(&Lent { text: text_of(&twice), ..lent.clone() }, 13, &mut tally);
                    let mut moved = without.clone();
                    moved.insert(two.min(without.len()), lines[one]);
                    compare(&Lent { text: text_of(&moved), ..lent.clone() }, 13, &mut tally);
                }
            }
        }
        tally.expect(&["check ok", "check 22"], 50);
    }

    #[test]
    fn every_value_of_the_examples() {
        let mut tally = Tally::default();
        for (lent, _) in sheets_of_examples() {
            for atom in 0..lent.values.len() {
                for code in 0..=255 {
                    let mut other = lent.clone();
                    other.values[atom] = code;
                    compare(&other, 13, &mut tally);
                }
            }
            for length in 0..=lent.values.len() + 3 {
                let mut other = lent.clone();
                other.values.resize(length, 255);
                compare(&other, 13, &mut tally);
            }
        }
        tally.expect(&["check ok", "check 3", "check 20", "check 22", "check 34"], 10);
    }

    #[test]
    fn every_small_table_of_two_atoms_with_every_interpretation() {
        let mut bodies: Vec<Option<Vec<Vec<Literal>>>> = vec![None, Some(Vec::new())];
        bodies.extend((0..4).map(|literal| Some(vec![vec![literal]])));
        bodies.extend([Some(vec![vec![0, 2]]), Some(vec![vec![3], vec![1]])]);
        let mut tally = Tally::default();
        let mut chance = Chance::new(0x5e05);
        for number in 0..bodies.len().pow(4) {
            let body = |head: usize| bodies[number / bodies.len().pow(head as u32) % bodies.len()].clone();
            let rules: Vec<Rule> = (0..4).filter_map(|head| Some(Rule { head, groups: body(head)? })).collect();
            let table = table_bytes(&encode(&numbered(&rules)));
            for values in [F, U, I, T].into_iter().flat_map(|a| [F, U, I, T].map(|b| vec![a, b])) {
                let good = good_lines(&mut chance, &rules, &values);
                let lines = good.clone().unwrap_or_else(|| random::nearly_good_lines(&mut chance, &rules, &values));
                let lent = Lent { n: 2, table: table.clone(), values, text: text_of(&lines) };
                let answer = compare(&lent, 13, &mut tally);
                assert!(good.is_none() || answer == 0 || answer >> 32 == 34, "{lent:?}");
                // Ranks of chance, small enough to be equal often.
                let drawn: Vec<Line> = lines.iter().map(|line| Line { rank: chance.index(4), ..*line }).collect();
                compare(&Lent { text: text_of(&drawn), ..lent }, 13, &mut tally);
            }
        }
        tally.expect(&["check ok", "check 22", "check 34"], 5_000);
    }

    #[test]
    fn a_literal_rests_on_each_group_of_up_to_64() {
        let mut tally = Tally::default();
        for m in [1, 2, 63, 64] {
            for group in 0..=66 {
                for (t, rank) in [(m, 1), (1, 1), (m, 0)] {
                    let groups: Vec<Vec<Literal>> = (1..=m).map(|number| if number == t { vec![2] } else { vec![4] }).collect();
                    let rules = [Rule { head: 0, groups }, Rule { head: 2, groups: Vec::new() }];
                    let lines = [Line { literal: 0, rank, head: 0, group }, Line { literal: 2, rank: 0, head: 2, group: 0 }];
                    let table = table_bytes(&encode(&numbered(&rules)));
                    compare(&Lent { n: 3, table, values: vec![T, T, U], text: text_of(&lines) }, 13, &mut tally);
                }
            }
        }
        tally.expect(&["check ok", "check 22"], 8);
    }

    #[test]
    fn at_every_limit() {
        let mut tally = Tally::default();
        let mut try_lent = |n: u64, table: &[u8], values: &[u8], text: &[u8]| {
            let lent = Lent { n, table: table.to_vec(), values: values.to_vec(), text: text.to_vec() };
            compare(&lent, 13, &mut tally)
        };
        let (n, words) = all_i();
        let table = table_bytes(&words);
        let lines: Vec<Line> = (0..1024).map(|literal| Line { literal, rank: 1023, head: literal, group: 0 }).collect();
        let text = text_of(&lines);
        assert_eq!(try_lent(n, &table, &[I; 512], &text), 0);
        assert_eq!(try_lent(n, &table, &[I; 600], &text), 0);
        try_lent(n, &table, &[I; 511], &text);
        try_lent(n, &table, &[I; 512], &text[..text.len() - 1]);
        try_lent(n, &table, &[I; 512], &text_of(&lines[..1023]));
        try_lent(n, &table, &[I; 512], &[&text[..], b"1024\t0\t0\t0\n"].concat());
        try_lent(n, &table, &[I; 512], &text.repeat(10));
        for n in [511, 513, 1 << 16, 1 << 32, (1 << 32) + 512, u64::MAX] {
            try_lent(n, &table, &[I; 512], &text);
        }
        // 8,192 words, 8,193, and a lone byte after either.
        let full = table_bytes(&against::tables::of_length(8192));
        for length in 16_382..=16_388 {
            let table: Vec<u8> = full.iter().copied().chain([0; 4]).take(length).collect();
            try_lent(512, &table, &[U; 512], b"");
            try_lent(512, &table, &[U; 511], b"x");
        }
        // A chain that takes every rank.
        let rule = |head: Literal| Rule { head, groups: if head == 0 { Vec::new() } else { vec![vec![head - 1]] } };
        let chain = table_bytes(&encode(&numbered(&(0..1024).map(rule).collect::<Vec<_>>())));
        let line = |literal: Literal| Line { literal, rank: literal, head: literal, group: (literal > 0) as usize };
        let lines: Vec<Line> = (0..1024).map(line).collect();
        assert_eq!(try_lent(512, &chain, &[I; 512], &text_of(&lines)), 0);
        let raised: Vec<Line> = lines.iter().map(|line| Line { rank: line.rank + 1, ..*line }).collect();
        try_lent(512, &chain, &[I; 512], &text_of(&raised));
        for at in 1..1024 {
            let mut altered = lines.clone();
            altered[at].rank -= 1;
            try_lent(512, &chain, &[I; 512], &text_of(&altered));
        }
    }

    #[test]
    fn the_measured_tables() {
        let mut tally = Tally::default();
        for measured in MEASURED {
            let (n, words) = (measured.table)();
            let values = evaluated(n, &words);
            let lines = good_lines(&mut Chance::new(3), &rules_of(n, &words).unwrap(), &values).expect("a sheet");
            compare(&Lent { n, table: table_bytes(&words), values, text: text_of(&lines) }, 13, &mut tally);
        }
        tally.expect(&["check ok"], MEASURED.len() as u64);
    }

    #[test]
    fn a_lone_byte_after_the_whole_words_and_before_what_is_wrong_with_values_and_text() {
        let mut tally = Tally::default();
        for lone in [0, 1, 255] {
            for (values, text) in [(&[3][..], &b"0\t0\t0\t0\n"[..]), (&[4], b"x"), (&[3], b"x"), (&[1], b""), (&[3], b""), (&[], b"x")] {
                for table in [&[lone][..], &[0, 0, 9, 0, 0, 0, lone], &[0, 0, 9, 0, 65, 0, lone], &[0, 0, lone], &[2, 0, lone]] {
                    let lent = Lent { n: 1, table: table.to_vec(), values: values.to_vec(), text: text.to_vec() };
                    compare(&lent, 13, &mut tally);
                }
            }
        }
        tally.expect(&["check 3", "check 4", "check 5", "check 6"], 3);
    }

    #[test]
    fn null_pointers_where_the_lengths_are_0() {
        assert_eq!(host::check_reasons_nulls(0), 0);
        assert_eq!(unpacked(host::check_reasons_nulls(1)).unwrap_err().number, 3);
        assert_eq!(unpacked(host::check_reasons_nulls(513)).unwrap_err().number, 1);
    }

    #[test]
    fn nothing_is_read_outside_of_what_is_lent() {
        let mut chance = Chance::new(0x5e06);
        let mut pages: [Pages; 3] = Default::default();
        for _ in 0..cases(5_000) {
            let claimed = random::any_reasons(&mut chance);
            let lent = lent(&mut chance, claimed);
            let behind = chance.one_in(2);
            let [table, values, text] = &mut pages;
            let answer = host::check_reasons(
                lent.n,
                table.read_only(&lent.table, behind),
                values.read_only(&lent.values, behind),
                text.read_only(&lent.text, behind),
            );
            assert_eq!(answer, second(&lent), "{lent:?}");
        }
    }

    #[test]
    fn tables_that_differ_only_in_lines_have_equal_answers() {
        let mut chance = Chance::new(0x5e07);
        let mut tally = Tally::default();
        for _ in 0..cases(20_000) {
            let (n, words) = random::small_table(&mut chance, 6);
            let (values, text) = random::claimed(&mut chance, n, &words);
            let other = random::other_lines(&mut chance, n, &words);
            let answer = compare(&Lent { n, table: table_bytes(&words), values: values.clone(), text: text.clone() }, 13, &mut tally);
            assert_eq!(compare(&Lent { n, table: table_bytes(&other), values, text }, 13, &mut tally), answer);
        }
    }
}

mod write {
    use super::any_bytes;
    use against::cases::{Tally, cases};
    use against::compare::reasons as sheet;
    use against::entries::unpacked;
    use against::host;
    use against::pages::Pages;
    use second::random::{self, Chance, table_bytes};
    use second::refusal::Refusal;
    use second::tables::{EXAMPLES, MEASURED, all_i};

    const OUTCOMES: [&str; 8] =
        ["write ok", "write nothing", "write 1", "write 2", "write 4", "write 5", "write 6", "write 7"];

    #[test]
    fn random_and_damaged_tables() {
        let mut chance = Chance::new(0x5e11);
        let mut tally = Tally::default();
        for _ in 0..cases(20_000) {
            let (n, words) = random::any_table(&mut chance);
            let table = any_bytes(&mut chance, &words);
            let _ = sheet(&mut chance, n, &table, &mut tally);
        }
        tally.expect(&OUTCOMES, cases(200));
    }

    #[test]
    fn small_tables_and_the_same_with_other_lines() {
        let mut chance = Chance::new(0x5e12);
        let mut tally = Tally::default();
        for _ in 0..cases(100_000) {
            let (n, words) = random::small_table(&mut chance, 6);
            let written = sheet(&mut chance, n, &table_bytes(&words), &mut tally);
            let other = table_bytes(&random::other_lines(&mut chance, n, &words));
            assert_eq!(sheet(&mut chance, n, &other, &mut tally), written, "N {n}, words {words:?}");
        }
        tally.expect(&["write ok", "write nothing"], cases(10_000));
    }

    #[test]
    fn large_and_measured_tables_and_the_examples() {
        let mut chance = Chance::new(0x5e13);
        let mut tally = Tally::default();
        let measured = MEASURED.iter().map(|measured| (measured.table)());
        let examples = EXAMPLES.iter().map(|example| (example.table().n(), example.table().words())).collect::<Vec<_>>();
        let drawn: Vec<_> = (0..cases(300)).map(|seed| random::large_table(&mut Chance::new(seed))).collect();
        for (n, words) in measured.chain(examples).chain(drawn) {
            let _ = sheet(&mut chance, n, &table_bytes(&words), &mut tally);
        }
        tally.expect(&["write ok", "write nothing"], 2);
    }

    #[test]
    fn every_literal_has_a_line() {
        let mut tally = Tally::default();
        let (n, words) = all_i();
        let text = sheet(&mut Chance::new(1), n, &table_bytes(&words), &mut tally).expect("a sheet");
        assert_eq!(text.iter().filter(|&&byte| byte == b'\n').count(), 1024);
    }

    #[test]
    fn null_pointers_where_the_lengths_are_0() {
        assert_eq!(host::reasons_nulls(0), 0);
        assert_eq!(host::reasons_nulls(512), 0);
        assert_eq!(unpacked(host::reasons_nulls(513)).unwrap_err().number, 1);
    }

    #[test]
    fn nothing_is_read_or_written_outside_of_what_is_lent() {
        let mut chance = Chance::new(0x5e14);
        let (mut table, mut text) = (Pages::default(), Pages::default());
        for _ in 0..cases(3_000) {
            let (n, words) = random::any_table(&mut chance);
            let bytes = any_bytes(&mut chance, &words);
            let length = match unpacked(host::reasons(n, &bytes, &mut [])) {
                Err(Refusal { number: 15, place }) => place as usize,
                _ => 0,
            };
            for room in [length, length.saturating_sub(1), chance.index(60)] {
                let behind = chance.one_in(2);
                let room = chance.bytes(room);
                let answer = host::reasons(n, table.read_only(&bytes, behind), text.to_write(&room, behind));
                assert!(answer >> 32 == 0 || text.lent() == room, "N {n}, table {bytes:?}");
            }
        }
    }
}
