//! Evaluation, the question of conflict and the sheet entry through the C boundary: answers, every byte of every buffer, and guards around each.

use second::random::{self, Chance, table_bytes};

/// The bytes of a small table; once in three times with a byte anywhere set to anything or to a code, cut anywhere, or with a lone byte
/// after it.
fn small_bytes(chance: &mut Chance) -> (u64, Vec<u8>) {
    let (n, words) = random::small_table(chance, 6);
    let mut table = table_bytes(&words);
    match chance.below(12) {
        0 | 1 if !table.is_empty() => {
            let at = chance.index(table.len());
            table[at] = if chance.one_in(2) { chance.below(12) as u8 } else { chance.number() as u8 };
        }
        2 => table.truncate(chance.index(table.len() + 1)),
        3 => table.push(chance.number() as u8),
        _ => {}
    }
    (n, table)
}

mod evaluate {
    use super::small_bytes;
    use against::cases::{Tally, cases};
    use against::compare::{host_evaluated as engine, host_evaluation as compare};
    use against::guard::BEFORE;
    use against::host;
    use against::tables::expect_of_lines;
    use second::host::simmerknot_evaluate as second_evaluate;
    use second::random::{self, Chance, table_bytes};
    use second::tables::{EXAMPLES, MEASURED};

    const OUTCOMES: [&str; 8] = [
        "evaluate ok", "evaluate 1", "evaluate 2", "evaluate 3", "evaluate 4", "evaluate 5", "evaluate 6", "evaluate 7",
    ];

    #[test]
    fn random_and_damaged_tables() {
        let mut chance = Chance::new(0x4057);
        let mut tally = Tally::default();
        for _ in 0..cases(60_000) {
            let (n, words) = random::any_table(&mut chance);
            let mut table = table_bytes(&words);
            if chance.one_in(8) {
                table.push(chance.number() as u8);
            }
            let room = random::value_room(&mut chance, n);
            compare(n, &table, &room, chance.of(&BEFORE), &mut tally);
        }
        tally.expect(&OUTCOMES, cases(1_000));
        expect_of_lines(&tally, cases(250));
    }

    #[test]
    fn small_tables() {
        let mut chance = Chance::new(0x4058);
        let mut tally = Tally::default();
        for _ in 0..cases(1_200_000) {
            let (n, table) = small_bytes(&mut chance);
            let room = random::value_room(&mut chance, n);
            compare(n, &table, &room, chance.of(&BEFORE), &mut tally);
        }
        let small = ["evaluate ok", "evaluate 3", "evaluate 4", "evaluate 5", "evaluate 6", "evaluate 7"];
        tally.expect(&small, cases(500));
    }

    #[test]
    fn large_tables() {
        let mut chance = Chance::new(0x4059);
        let mut tally = Tally::default();
        for _ in 0..cases(6_000) {
            let (n, words) = random::large_table(&mut chance);
            let room = random::value_room(&mut chance, n);
            compare(n, &table_bytes(&words), &room, chance.of(&BEFORE), &mut tally);
        }
        tally.expect(&["evaluate ok", "evaluate 3"], cases(500));
    }

    #[test]
    fn the_measured_tables_at_full_size() {
        let mut tally = Tally::default();
        for measured in MEASURED {
            let (n, words) = (measured.table)();
            compare(n, &table_bytes(&words), &vec![9; n as usize + 5], 13, &mut tally);
        }
        tally.expect(&["evaluate ok"], MEASURED.len() as u64);
    }

    #[test]
    fn p1_to_p12() {
        for example in EXAMPLES {
            let table = example.table();
            let (answer, mut values) = engine(table.n(), &table_bytes(&table.words()), &vec![9; table.n() as usize + 1], 13);
            assert_eq!(answer, 0, "{}", example.name);
            assert_eq!(values.pop(), Some(9), "{}", example.name);
            assert_eq!(values, example.values_in_order(), "{}", example.name);
        }
    }

    #[test]
    fn lengths_0_with_null_pointers() {
        for n in [0, 1, 512, 513, u64::MAX] {
            assert_eq!(host::evaluate_nulls(n), second_evaluate(n, &[], &mut []), "N {n}");
        }
        assert_eq!(host::evaluate_nulls(0), 0);
        assert_eq!(host::evaluate_nulls(1), 3 << 32);
        assert_eq!(host::evaluate_nulls(513), 1 << 32);
    }

    #[test]
    fn a_lone_byte_is_met_after_the_whole_words() {
        let mut tally = Tally::default();
        let full = table_bytes(&second::tables::max_t().1);
        assert_eq!(full.len(), 16_384);
        for more in 0..4 {
            let mut table = full.clone();
            table.extend(vec![0; more]);
            compare(512, &table, &[9; 512], 16, &mut tally);
            compare(512, &table, &[9; 511], 16, &mut tally);
            compare(513, &table, &[9; 512], 16, &mut tally);
        }
        for cut in 0..full.len() {
            compare(512, &full[..cut], &[9; 512], 13, &mut tally);
        }
        // N 1, words 0, 9, 65 and a byte: 6 at 2; words 0, 32,769 and a byte: 6 at 1; words 0, 32,768 and a byte: 4 at 2.
        assert_eq!(engine(1, &[0, 0, 9, 0, 65, 0, 7], &[9], 13).0, (6 << 32) + 2);
        assert_eq!(engine(1, &[0, 0, 1, 128, 7], &[9], 13).0, (6 << 32) + 1);
        assert_eq!(engine(1, &[0, 0, 0, 128, 7], &[9], 13).0, (4 << 32) + 2);
        tally.expect(&["evaluate ok", "evaluate 1", "evaluate 2", "evaluate 3", "evaluate 4"], 1);
    }

    #[test]
    fn awkward_numbers_of_atoms() {
        let mut tally = Tally::default();
        let ns = [0, 1, 255, 256, 257, 511, 512, 513, 1 << 16, 1 << 31, 1 << 32, (1 << 32) + 1, (1 << 32) + 512, 1 << 63, u64::MAX];
        for n in ns {
            for room in [0, 1, 255, 256, 511, 512, 513, 600] {
                let lines = [32_767, 32_768, 32_769, u16::MAX].map(|line| [0, line, 0]);
                let heads = [&[][..], &[0, 0, 0], &[1, 2, 0, 0, 1, 0], &[511, 1, 0], &[1023, 1, 0], &[1024, 1, 0], &[0, 1, 65]];
                for words in heads.into_iter().chain(lines.iter().map(|words| &words[..])) {
                    compare(n, &table_bytes(words), &vec![9; room], 13, &mut tally);
                }
            }
        }
        tally.expect(&["evaluate ok", "evaluate 1", "evaluate 3", "evaluate 5", "evaluate 6"], 10);
    }
}

mod conflict {
    use super::small_bytes;
    use against::cases::{Tally, cases};
    use against::compare::host_conflict as compare;
    use against::guard::BEFORE;
    use against::host;
    use against::tables::expect_of_lines;
    use second::host::simmerknot_conflict as second_conflict;
    use second::random::{self, Chance, table_bytes};
    use second::tables::{EXAMPLES, MEASURED};

    const OUTCOMES: [&str; 8] = [
        "conflict yes", "conflict no", "conflict 4", "conflict 5", "conflict 6", "conflict 7", "conflict 1", "conflict 2",
    ];

    #[test]
    fn random_and_damaged_tables() {
        let mut chance = Chance::new(0x405a);
        let mut tally = Tally::default();
        for _ in 0..cases(30_000) {
            let (n, words) = random::any_table(&mut chance);
            let mut table = table_bytes(&words);
            if chance.one_in(8) {
                table.push(chance.number() as u8);
            }
            compare(n, &table, chance.of(&BEFORE), &mut tally);
        }
        tally.expect(&OUTCOMES, cases(1_000));
        expect_of_lines(&tally, cases(150));
    }

    #[test]
    fn small_tables() {
        let mut chance = Chance::new(0x405b);
        let mut tally = Tally::default();
        for _ in 0..cases(800_000) {
            let (n, table) = small_bytes(&mut chance);
            compare(n, &table, chance.of(&BEFORE), &mut tally);
        }
        tally.expect(&OUTCOMES[..6], cases(300));
    }

    #[test]
    fn p1_to_p12_and_the_measured_tables() {
        let mut tally = Tally::default();
        let tables = EXAMPLES.iter().map(|example| (example.table().n(), example.table().words()));
        for (n, words) in tables.chain(MEASURED.iter().map(|measured| (measured.table)())) {
            let answers = BEFORE.map(|before| compare(n, &table_bytes(&words), before, &mut tally));
            assert!(answers[0] == answers[1] && answers[0] <= 1, "{answers:?}");
        }
        tally.expect(&OUTCOMES[..2], 2 * 8);
    }

    #[test]
    fn length_0_with_a_null_pointer() {
        for n in [0, 1, 512, 513, 1 << 32, u64::MAX] {
            assert_eq!(host::conflict_null(n), second_conflict(n, &[]), "N {n}");
        }
        assert_eq!(host::conflict_null(0), 0);
        assert_eq!(host::conflict_null(512), 0);
        assert_eq!(host::conflict_null(513), 1 << 32);
    }

    #[test]
    fn a_lone_byte_is_met_after_the_whole_words() {
        let mut tally = Tally::default();
        // Full tables, without a conflict and with one.
        for words in [second::tables::max_t().1, second::tables::max_random().1] {
            let full = table_bytes(&words);
            assert_eq!(full.len(), 16_384);
            for more in 0..4 {
                let table = [&full[..], &vec![0; more]].concat();
                let answer = compare(512, &table, 16, &mut tally);
                assert_eq!(answer >> 32, [0, 4, 2, 2][more]);
                assert_eq!(compare(513, &table, 13, &mut tally), 1 << 32);
            }
            for cut in (0..full.len()).filter(|cut| cut % 7 == 0 || *cut < 300 || *cut > 16_000) {
                compare(512, &full[..cut], BEFORE[cut % 2], &mut tally);
            }
        }
        // N 1, in conflict and a byte: 4 at 6. Words 0, 9, 65 and a byte: 6 at 2. Words 0, 32,769 and a byte: 6 at 1.
        for lone in [0, 7, 255] {
            let pair = [0, 0, 9, 0, 0, 0, 1, 0, 9, 0, 0, 0];
            assert_eq!(compare(1, &pair, 13, &mut tally), 1);
            assert_eq!(compare(1, &[&pair[..], &[lone]].concat(), 13, &mut tally), (4 << 32) + 6);
            assert_eq!(compare(1, &[lone], 13, &mut tally), 4 << 32);
            assert_eq!(compare(1, &[0, 0, 9, 0, 65, 0, lone], 13, &mut tally), (6 << 32) + 2);
            assert_eq!(compare(1, &[0, 0, 1, 128, lone], 13, &mut tally), (6 << 32) + 1);
            assert_eq!(compare(1, &[2, 0, lone], 13, &mut tally), 5 << 32);
            assert_eq!(compare(1, &[&pair[..6], &[0, 0, lone]].concat(), 13, &mut tally), (7 << 32) + 3);
            assert_eq!(compare(1 << 32, &[lone], 13, &mut tally), 1 << 32);
        }
        tally.expect(&OUTCOMES, 3);
    }

    #[test]
    fn awkward_numbers_of_atoms() {
        let mut tally = Tally::default();
        let ns = [0, 1, 255, 256, 257, 511, 512, 513, 1 << 16, 1 << 31, 1 << 32, (1 << 32) + 1, (1 << 32) + 512, 1 << 63, u64::MAX];
        for n in ns {
            for atom in [0, 127, 128, 255, 256, 511, 512, 32_767] {
                let (p, q) = (2 * atom, 2 * atom + 1);
                for words in [&[][..], &[p, 0, 0], &[p, 1, 0, q, 32_768, 0], &[p, 1, 0, q, 32_769, 0], &[p, 1, 0, p, 1, 0], &[q, 1]] {
                    for before in BEFORE {
                        compare(n, &table_bytes(words), before, &mut tally);
                        compare(n, &[&table_bytes(words)[..], &[1]].concat(), before, &mut tally);
                    }
                }
            }
        }
        tally.expect(&OUTCOMES[..7], 10);
    }
}

mod sheet {
    use against::cases::{Tally, cases};
    use against::compare::{Buffers, host_sheet as compare, second_read as second};
    use against::entries::unpacked;
    use against::guard::BEFORE;
    use against::host;
    use against::sheets::{MANY_LINES, NOT_BY_TWO, ONLY_IN_BODIES, ROOM_FOR_HEADS};
    use second::host::simmerknot_sheet as second_sheet;
    use second::random::{self, Chance, SHEET_DAMAGES};
    use second::tables::EXAMPLES;

    /// Buffers of awkward lengths, large enough most of the time; the text room fits or just does not.
    fn buffers(chance: &mut Chance, sheet: &[u8]) -> Buffers {
        Buffers { words: random::word_bytes(chance), names: random::name_bytes(chance), text: random::text_room(chance, sheet) }
    }

    fn full(text: usize) -> Buffers {
        Buffers::least(text)
    }

    const OUTCOMES: [&str; 10] = [
        "sheet ok", "sheet 7", "sheet 8", "sheet 9", "sheet 10", "sheet 11", "sheet 12", "sheet 13", "sheet 14", "sheet 15",
    ];

    #[test]
    fn sheets_grown_from_the_grammar_and_damaged() {
        let mut chance = Chance::new(0x5ee7);
        let mut tally = Tally::default();
        for _ in 0..cases(24_000) {
            let sheet = random::any_sheet(&mut chance);
            let lent = buffers(&mut chance, &sheet);
            compare(&sheet, &lent, chance.of(&BEFORE), &mut tally);
        }
        tally.expect(&OUTCOMES, cases(400));
        tally.expect_also(&[(ONLY_IN_BODIES, cases(4_000)), (ROOM_FOR_HEADS, cases(1_200))]);
        tally.expect_also(&[(MANY_LINES, cases(200)), (NOT_BY_TWO, cases(400))]);
    }

    #[test]
    fn sheets_damaged_in_each_way() {
        let mut chance = Chance::new(0x5ee8);
        let mut tally = Tally::default();
        for _ in 0..cases(1_000) {
            for damage in SHEET_DAMAGES {
                let sheet = random::damaged_sheet(&mut chance, damage);
                compare(&sheet, &full(20_000), chance.of(&BEFORE), &mut tally);
            }
        }
        let numbers = ["sheet 7", "sheet 8", "sheet 10", "sheet 11", "sheet 12", "sheet 13", "sheet 14"];
        tally.expect(&numbers, cases(100));
    }

    #[test]
    fn short_sheets_of_few_bytes() {
        let mut chance = Chance::new(0x5ee9);
        let mut tally = Tally::default();
        let lent = full(60);
        for _ in 0..cases(150_000) {
            let length = chance.index(14);
            let mut sheet: Vec<u8> = (0..length).map(|_| chance.of(b"ab\t\t \n\n-\nab0")).collect();
            if chance.one_in(2) {
                sheet.push(b'\n');
            }
            compare(&sheet, &lent, 13, &mut tally);
        }
        tally.expect(&["sheet ok", "sheet 7", "sheet 10"], cases(500));
        tally.expect_also(&[(ONLY_IN_BODIES, cases(400))]);
    }

    #[test]
    fn every_byte_value_at_every_place_of_a_sheet() {
        let mut tally = Tally::default();
        let lent = full(100);
        let base = b"ab\t-c d.\te_\nab.0\n-f\t-ab g\tc\n";
        for at in 0..base.len() {
            for byte in 0..=255 {
                let mut sheet = base.to_vec();
                sheet[at] = byte;
                compare(&sheet, &lent, 13, &mut tally);
                sheet.insert(at, base[at]);
                compare(&sheet, &lent, 13, &mut tally);
            }
            compare(&base[..at], &lent, 13, &mut tally);
        }
        tally.expect(&["sheet ok", "sheet 7", "sheet 10"], 1);
        tally.expect_also(&[(ONLY_IN_BODIES, 1_600)]);
    }

    #[test]
    fn limits_of_names_groups_literals_and_words() {
        let mut tally = Tally::default();
        let mut at = |sheet: &[u8], outcome: &str| {
            let before = tally.times(outcome);
            compare(sheet, &full(20_000), 13, &mut tally);
            assert_eq!(tally.times(outcome), before + 1, "{outcome}");
        };
        for (length, outcome) in [(1, "sheet ok"), (23, "sheet ok"), (24, "sheet ok"), (25, "sheet 11"), (26, "sheet 11")] {
            for sign in ["", "-"] {
                at(format!("{sign}{}\n", "x".repeat(length)).as_bytes(), outcome);
                at(format!("a\t{sign}{}\n", "x".repeat(length)).as_bytes(), outcome);
                at(format!("a\tb {sign}{}\n", "x".repeat(length)).as_bytes(), outcome);
            }
        }
        at(format!("{}#\n", "x".repeat(24)).as_bytes(), "sheet 10");
        for (count, outcome) in [(63, "sheet ok"), (64, "sheet ok"), (65, "sheet 13"), (66, "sheet 13")] {
            at(format!("a{}\n", "\tb".repeat(count)).as_bytes(), outcome);
            at(format!("a\tb{}\n", " b".repeat(count - 1)).as_bytes(), outcome);
        }
        for (count, outcome) in [(511, "sheet ok"), (512, "sheet ok"), (513, "sheet 12"), (514, "sheet 12")] {
            at((0..count).map(|i| format!("n{i}\n")).collect::<String>().as_bytes(), outcome);
            at((0..count).map(|i| format!("-n{i}\n")).collect::<String>().as_bytes(), outcome);
            at(&one_head(count), outcome);
        }
        // As many lines as there can be.
        at((0..512).map(|i| format!("n{i}\n-n{i}\n")).collect::<String>().as_bytes(), "sheet ok");
        for (words, outcome) in [(8190, "sheet ok"), (8191, "sheet ok"), (8192, "sheet ok"), (8193, "sheet 14"), (8194, "sheet 14")] {
            for seed in 0..20 {
                at(&random::full_draft(&mut Chance::new(seed), words).sheet(), outcome);
            }
        }
        // The last line with so many words left for it: a head takes three, the first of a group two, a further literal one.
        for (left, line, outcome) in [
            (2, "new\n", "sheet 14"),
            (3, "new\n", "sheet ok"),
            (4, "new\tnew\n", "sheet 14"),
            (5, "new\tnew\n", "sheet ok"),
            (5, "new\tnew -new\n", "sheet 14"),
            (6, "-new\tnew -new\n", "sheet ok"),
            (6, "-new\tnew\tnew\n", "sheet 14"),
            (7, "-new\tnew\tnew\n", "sheet ok"),
        ] {
            for seed in 0..20 {
                let sheet = random::full_draft(&mut Chance::new(seed), 8192 - left).sheet();
                at(&[sheet, line.as_bytes().to_vec()].concat(), outcome);
            }
        }
        tally.expect(&["sheet ok", "sheet 10", "sheet 11", "sheet 12", "sheet 13", "sheet 14"], 1);
        tally.expect_also(&[(ONLY_IN_BODIES, 70)]);
    }

    /// So many distinct names of 24 bytes, each a fact.
    fn facts(count: usize) -> Vec<u8> {
        (0..count).flat_map(|i| format!("n{i:0>23}\n").into_bytes()).collect()
    }

    /// So many distinct names of 24 bytes, all but the head only in the groups of its rule.
    fn one_head(count: usize) -> Vec<u8> {
        let parts = ["\n", "\t", " "];
        let part = |i: usize| parts[if i == 0 { 0 } else if i % 64 == 1 { 1 } else { 2 }];
        let literals: String = (0..count).map(|i| format!("{}n{i:0>23}", part(i))).collect();
        format!("{}\n", literals.trim_start()).into_bytes()
    }

    /// A sheet of so many bytes with one rule a line, its groups of one name of 20 bytes, then facts up to the length.
    fn long(length: usize) -> Vec<u8> {
        let mut sheet = Vec::new();
        let mut line = 0;
        while length - sheet.len() > 1100 {
            sheet.extend(format!("h{line}").into_bytes());
            sheet.extend(b"\tbcdefghijklmnopqrst0".repeat(48));
            sheet.push(b'\n');
            line += 1;
        }
        let mut rest = length - sheet.len();
        while rest > 0 {
            // A fact of 2 to 25 bytes with its own name.
            let fact = if rest > 50 { 25 } else if rest > 25 { 20 } else { rest };
            let name = format!("z{line}.{}", "y".repeat(30));
            sheet.extend(&name.as_bytes()[..fact - 1]);
            sheet.push(b'\n');
            line += 1;
            rest -= fact;
        }
        assert_eq!(sheet.len(), length);
        sheet
    }

    #[test]
    fn sheets_of_65536_and_65537_bytes() {
        let mut tally = Tally::default();
        for length in [65_535, 65_536, 65_537, 65_538] {
            compare(&long(length), &full(20_000), 13, &mut tally);
        }
        assert_eq!(tally.times("sheet 8"), 2);
        tally.expect(&["sheet ok", "sheet 8"], 2);
    }

    #[test]
    fn full_sheets_in_buffers_at_each_limit() {
        let mut tally = Tally::default();
        let words = |words| random::full_draft(&mut Chance::new(1), words).sheet();
        for sheet in [words(8192), words(8193), facts(512), facts(513), one_head(512), one_head(513), long(65_536), long(65_537)] {
            let needed = unpacked(second(&sheet, &full(20_000)).0).unwrap_or(100) as usize;
            let heads = random::lines_length(&random::heads_and_others(&sheet).0);
            // 8,191 to 8,193 whole words and 511 to 513 whole name entries, each with every number of bytes after them.
            for words in 16_382..16_388 {
                for names in 2044..2056 {
                    for text in [heads, needed - 1, needed, needed + 1] {
                        let lent = Buffers { words: vec![7; words], names: vec![7; names], text: vec![7; text] };
                        compare(&sheet, &lent, BEFORE[words % 2], &mut tally);
                    }
                }
            }
        }
        tally.expect(&["sheet ok", "sheet 8", "sheet 9", "sheet 12", "sheet 14", "sheet 15"], 96);
        tally.expect_also(&[(ONLY_IN_BODIES, 192), (ROOM_FOR_HEADS, 192)]);
    }

    #[test]
    fn buffers_of_awkward_lengths() {
        let mut tally = Tally::default();
        for words in [0, 1, 2, 3, 16_381, 16_382, 16_383, 16_384, 16_385, 16_386, 16_391, 40_000] {
            for names in [0, 1, 3, 4, 2043, 2044, 2047, 2048, 2049, 2051, 2052, 2055, 5000] {
                for sheet in [&b""[..], b"a\n", b"a", b"b\ta\n-a\n", b"a\na\n", b"b\ta -c\n"] {
                    for text in [0, 3, 4, 5, 7, 8, 9, 11, 12] {
                        let lent = Buffers { words: vec![7; words], names: vec![7; names], text: vec![7; text] };
                        compare(sheet, &lent, 13, &mut tally);
                    }
                }
            }
        }
        tally.expect(&["sheet ok", "sheet 7", "sheet 9", "sheet 10", "sheet 15"], 10);
        tally.expect_also(&[(ONLY_IN_BODIES, 30), (ROOM_FOR_HEADS, 180)]);
    }

    #[test]
    fn lengths_0_with_null_pointers() {
        for (words, names) in [(0, 0), (16_384, 0), (0, 2048), (16_384, 2048)] {
            let (mut words, mut names) = (vec![7; words], vec![7; names]);
            let (mut w, mut n) = (words.clone(), names.clone());
            assert_eq!(host::sheet_nulls(&mut words, &mut names), second_sheet(b"", &mut w, &mut n, &mut []));
            assert_eq!((words, names), (w, n));
        }
    }

    #[test]
    fn p1_to_p12_as_sheets() {
        let mut tally = Tally::default();
        for example in EXAMPLES {
            compare(&example.table().sheet(), &full(400), 13, &mut tally);
        }
        tally.expect(&["sheet ok"], 12);
        // P3 and P9.
        tally.expect_also(&[(ONLY_IN_BODIES, 2)]);
    }
}
