//! The host's entries on bytes, against the plain entries.

use second::host::{refused_writing, simmerknot_check_reasons, simmerknot_conflict, simmerknot_evaluate, simmerknot_sheet};
use second::model::{conflict, evaluate};
use second::random::{self, Chance, Claimed, entry_bytes, table_bytes};
use second::reasons::{check_reasons, check_writing};
use second::sheet::read_sheet;

fn packed(number: u64, place: u64) -> u64 {
    number * (1 << 32) + place
}

#[test]
fn words_go_low_byte_first() {
    let mut values = [7; 301];
    // Head 2 × 300 + 1, line 32,768, a fact.
    assert_eq!(simmerknot_evaluate(301, &[0x59, 0x02, 0x00, 0x80, 0, 0], &mut values), 0);
    assert_eq!(values[300], 0);
    assert!(values[..300].iter().all(|&value| value == 1));
    // Line 32,769: 6 at its word. High byte first it would be 384.
    assert_eq!(simmerknot_evaluate(301, &[0x59, 0x02, 0x01, 0x80, 0, 0], &mut values), packed(6, 1));
}

#[test]
fn a_lone_last_byte_is_a_record_cut_short() {
    let mut values = [7; 1];
    for lone in [0, 1, 255] {
        assert_eq!(simmerknot_evaluate(1, &[lone], &mut values), packed(4, 0));
        // After a whole record, after its head, after its line.
        assert_eq!(simmerknot_evaluate(1, &[0, 0, 9, 0, 0, 0, lone], &mut values), packed(4, 3));
        assert_eq!(simmerknot_evaluate(1, &[0, 0, lone], &mut values), packed(4, 1));
        assert_eq!(simmerknot_evaluate(1, &[0, 0, 9, 0, lone], &mut values), packed(4, 2));
        // A whole word that is faulty beats it.
        assert_eq!(simmerknot_evaluate(1, &[0, 0, 9, 0, 65, 0, lone], &mut values), packed(6, 2));
        assert_eq!(simmerknot_evaluate(1, &[0, 0, 0, 255, lone], &mut values), packed(6, 1));
        assert_eq!(simmerknot_evaluate(1, &[2, 0, lone], &mut values), packed(5, 0));
        assert_eq!(simmerknot_evaluate(513, &[lone], &mut values), packed(1, 0));
        assert_eq!(simmerknot_evaluate(2, &[lone], &mut values), packed(3, 0));
    }
    assert_eq!(values, [7]);
}

#[test]
fn refusal_2_counts_whole_words() {
    let mut values = [7; 2];
    let (_, mut words) = second::tables::max_t();
    words.truncate(8192);
    let mut bytes = table_bytes(&words);
    let mut room = vec![7; 512];
    assert_eq!(simmerknot_evaluate(512, &bytes, &mut room), 0);
    bytes.push(0);
    assert_eq!(simmerknot_evaluate(512, &bytes, &mut room), packed(4, 8192));
    bytes.push(0);
    assert_eq!(simmerknot_evaluate(512, &bytes, &mut room), packed(2, 0));
    assert_eq!(simmerknot_evaluate(u64::MAX, &bytes, &mut values), packed(1, 0));
}

#[test]
fn conflict_is_0_1_or_a_packed_refusal() {
    // Both literals of atom 300, lines 32,768 and 0, facts; then the first alone.
    let table = [0x58, 0x02, 0x00, 0x80, 0, 0, 0x59, 0x02, 0, 0, 0, 0];
    assert_eq!(simmerknot_conflict(301, &table), 1);
    assert_eq!(simmerknot_conflict(301, &table[..6]), 0);
    assert_eq!(simmerknot_conflict(300, &table), packed(5, 0));
    assert_eq!(simmerknot_conflict(513, &table), packed(1, 0));
    assert_eq!(simmerknot_conflict(u64::MAX, &[]), packed(1, 0));
    assert_eq!(simmerknot_conflict(0, &[]), 0);
    assert_eq!(simmerknot_conflict(512, &[]), 0);
    // No value room is asked for.
    assert_eq!(simmerknot_evaluate(301, &table, &mut [7; 300]), packed(3, 0));
}

#[test]
fn conflict_meets_a_lone_last_byte_after_the_whole_words() {
    for lone in [0, 1, 255] {
        assert_eq!(simmerknot_conflict(1, &[lone]), packed(4, 0));
        assert_eq!(simmerknot_conflict(0, &[lone]), packed(4, 0));
        // In conflict up to the lone byte.
        assert_eq!(simmerknot_conflict(1, &[0, 0, 9, 0, 0, 0, 1, 0, 9, 0, 0, 0, lone]), packed(4, 6));
        assert_eq!(simmerknot_conflict(1, &[0, 0, lone]), packed(4, 1));
        assert_eq!(simmerknot_conflict(1, &[0, 0, 9, 0, 65, 0, lone]), packed(6, 2));
        assert_eq!(simmerknot_conflict(1, &[0, 0, 0, 255, lone]), packed(6, 1));
        assert_eq!(simmerknot_conflict(1, &[2, 0, lone]), packed(5, 0));
        assert_eq!(simmerknot_conflict(1, &[0, 0, 9, 0, 0, 0, 0, 0, lone]), packed(7, 3));
        assert_eq!(simmerknot_conflict(513, &[lone]), packed(1, 0));
    }
    let (_, words) = second::tables::max_t();
    let mut bytes = table_bytes(&words);
    assert_eq!(simmerknot_conflict(512, &bytes), 0);
    bytes.push(0);
    assert_eq!(simmerknot_conflict(512, &bytes), packed(4, 8192));
    bytes.push(0);
    assert_eq!(simmerknot_conflict(512, &bytes), packed(2, 0));
    bytes.push(0);
    assert_eq!(simmerknot_conflict(512, &bytes), packed(2, 0));
    assert_eq!(simmerknot_conflict(513, &bytes), packed(1, 0));
}

#[test]
fn the_check_of_a_reason_sheet_is_0_or_a_packed_refusal() {
    // Both literals of atom 300, lines 32,768 and 0, facts.
    let table = [0x58, 0x02, 0x00, 0x80, 0, 0, 0x59, 0x02, 0, 0, 0, 0];
    let mut values = [1; 301];
    values[300] = 2;
    let text = b"600\t0\t600\t0\n601\t7\t601\t0\n";
    assert_eq!(simmerknot_check_reasons(301, &table, &values, text), 0);
    assert_eq!(simmerknot_check_reasons(0, &[], &[], &[]), 0);
    assert_eq!(simmerknot_check_reasons(513, &table, &values, text), packed(1, 0));
    assert_eq!(simmerknot_check_reasons(u64::MAX, &[], &[], &[]), packed(1, 0));
    assert_eq!(simmerknot_check_reasons(301, &[0; 16_386], &values, text), packed(2, 0));
    assert_eq!(simmerknot_check_reasons(301, &table, &values[..300], text), packed(3, 0));
    assert_eq!(simmerknot_check_reasons(300, &table, &values, text), packed(5, 0));
    assert_eq!(simmerknot_check_reasons(301, &table[..6], &values, text), packed(22, 2));
    assert_eq!(simmerknot_check_reasons(301, &table, &[1; 301], text), packed(34, 0));
    assert_eq!(simmerknot_check_reasons(301, &table, &[9; 301], text), packed(20, 0));
    assert_eq!(simmerknot_check_reasons(301, &table, &values, &text[..20]), packed(21, 20));
    // A text too long for 16 bits, broken at its end.
    let long = [&b"0\t0\t0\t0\n".repeat(9000)[..], b"0\t"].concat();
    assert_eq!(simmerknot_check_reasons(301, &table, &values, &long), packed(21, 72_002));
}

#[test]
fn the_check_of_a_reason_sheet_meets_a_lone_last_byte_after_the_whole_words() {
    for lone in [0, 1, 255] {
        let check = |n, table: &[u8], values: &[u8], text: &[u8]| simmerknot_check_reasons(n, table, values, text);
        assert_eq!(check(1, &[lone], &[1], b""), packed(4, 0));
        assert_eq!(check(1, &[0, 0, 9, 0, 0, 0, lone], &[3], b"0\t0\t0\t0\n"), packed(4, 3));
        assert_eq!(check(1, &[0, 0, 9, 0, 65, 0, lone], &[3], b""), packed(6, 2));
        assert_eq!(check(1, &[0, 0, 9, 0, 0, 0, 0, 0, lone], &[3], b""), packed(7, 3));
        assert_eq!(check(513, &[lone], &[], b"x"), packed(1, 0));
        assert_eq!(check(1, &[0, 0, 9, 0, 0, 0, lone], &[], b"x"), packed(3, 0));
        // Before what is wrong with values and text.
        assert_eq!(check(1, &[0, 0, 9, 0, 0, 0, lone], &[4], b"x"), packed(4, 3));
        assert_eq!(check(1, &[0, 0, 9, 0, 0, 0, lone], &[3], b"x"), packed(4, 3));
        assert_eq!(check(1, &[0, 0, 9, 0, 0, 0, lone], &[1], b""), packed(4, 3));
        assert_eq!(check(1, &[0, 0, 9, 0, 0, 0, lone], &[3], b""), packed(4, 3));
        assert_eq!(refused_writing(1, &[0, 0, 9, 0, 0, 0, lone]), Some(packed(4, 3)));
        assert_eq!(refused_writing(1, &[0, 0, 9, 0, 65, 0, lone]), Some(packed(6, 2)));
        assert_eq!(refused_writing(513, &[lone]), Some(packed(1, 0)));
    }
    assert_eq!(refused_writing(1, &[0, 0, 9, 0, 0, 0]), None);
    assert_eq!(refused_writing(1, &[0; 16_386]), Some(packed(2, 0)));
}

#[test]
fn surplus_bytes_of_the_buffers_are_untouched() {
    // 16,391 bytes are 8,195 words and one byte; 2,055 bytes are 513 names and three bytes.
    for (sheet, answer) in [(&b"a\n"[..], 4), (b"a", packed(10, 1))] {
        let (mut words, mut names, mut text) = (vec![7; 16_391], vec![7; 2055], vec![7; 6]);
        assert_eq!(simmerknot_sheet(sheet, &mut words, &mut names, &mut text), answer);
        assert_eq!(words[16_384..16_390], [0; 6]);
        assert_eq!(words[16_390], 7);
        assert_eq!(names[2048..2052], [0; 4]);
        assert_eq!(names[2052..], [7; 3]);
        assert_eq!(words[..4], [0, 0, (answer == 4) as u8, 0]);
        assert!(words[4..16_390].iter().all(|&byte| byte == 0));
        assert_eq!(names[0], (answer == 4) as u8);
        assert_eq!(text, if answer == 4 { *b"a\tt\n\x07\x07" } else { [7; 6] });
    }
}

#[test]
fn buffers_too_small_are_9_and_zeroed_to_the_last_whole_entry() {
    let (mut words, mut names) = (vec![7; 16_383], vec![7; 2048]);
    assert_eq!(simmerknot_sheet(b"a\n", &mut words, &mut names, &mut [7; 4]), packed(9, 0));
    assert!(words[..16_382].iter().all(|&byte| byte == 0) && names.iter().all(|&byte| byte == 0));
    assert_eq!(words[16_382], 7);
    let (mut words, mut names) = (vec![7; 16_384], vec![7; 2047]);
    assert_eq!(simmerknot_sheet(b"a\n", &mut words, &mut names, &mut [7; 4]), packed(9, 0));
    assert!(words.iter().all(|&byte| byte == 0) && names[..2044].iter().all(|&byte| byte == 0));
    assert_eq!(names[2044..], [7; 3]);
    let (mut words, mut names) = (vec![7; 1], vec![7; 3]);
    assert_eq!(simmerknot_sheet(&[b'a'; 65_537], &mut words, &mut names, &mut []), packed(8, 0));
    assert_eq!((words, names), (vec![7; 1], vec![7; 3]));
    assert_eq!(simmerknot_sheet(b"", &mut [], &mut [], &mut []), packed(9, 0));
}

#[test]
fn the_answered_length_counts_every_atom() {
    let sheet = b"p\tq -r\n";
    let (mut words, mut names, mut text) = (vec![7; 16_384], vec![7; 2048], vec![7; 14]);
    assert_eq!(simmerknot_sheet(sheet, &mut words, &mut names, &mut text), 12);
    assert_eq!(text, b"p\tu\nq\tu\nr\tu\n\x07\x07");
    assert_eq!(entry_bytes(&[1, 32 * 2 + 1, 32 * 5 + 1, 0]), names[..16]);
    assert_eq!(table_bytes(&[0, 1, 1, 2, 2, 5, 0]), words[..14]);
    // Enough for the line of p alone, and one byte too few for all.
    for room in [4, 11] {
        let mut text = vec![7; room];
        assert_eq!(simmerknot_sheet(sheet, &mut words, &mut names, &mut text), packed(15, 12));
        assert!(words.iter().chain(&names).all(|&byte| byte == 0) && text.iter().all(|&byte| byte == 7));
    }
}

#[test]
fn a_place_beyond_16_bits_is_told_whole() {
    let mut sheet = b"a\t".to_vec();
    for _ in 0..511 {
        sheet.extend(b"b ".repeat(63));
        sheet.extend(b"b\t");
    }
    sheet.truncate(65_536);
    assert_eq!(sheet.len(), 65_410);
    let (mut words, mut names) = (vec![7; 16_384], vec![7; 2048]);
    assert_eq!(simmerknot_sheet(&sheet, &mut words, &mut names, &mut []), packed(13, 2 + 64 * 128));
    let no_end = [&b"h\t"[..], &[b'x'; 1]].concat();
    assert_eq!(simmerknot_sheet(&no_end, &mut words, &mut names, &mut []), packed(10, 3));
    // Lines of 1,024 bytes; the last one does not end.
    let line = |i: usize| format!("h{i:02}\t{}\n", vec!["z".repeat(16); 60].join(" "));
    let lines: String = (0..64).map(line).collect();
    let cut = &lines.as_bytes()[..lines.len() - 1];
    assert!(cut.len() == 65_535, "{}", cut.len());
    assert_eq!(simmerknot_sheet(cut, &mut words, &mut names, &mut [0; 1000]), packed(10, 65_535));
}

/// N, any table's words, their bytes, now and then with a lone byte behind them, and whether there is one.
fn any_bytes(chance: &mut Chance) -> (u64, Vec<u16>, Vec<u8>, bool) {
    let (n, words) = random::any_table(chance);
    let mut bytes = table_bytes(&words);
    let odd = chance.one_in(5);
    if odd {
        bytes.push(chance.number() as u8);
    }
    (n, words, bytes, odd)
}

#[test]
fn evaluation_on_bytes_equals_evaluation_on_words() {
    let (mut accepted, mut refused, mut lone) = (0, 0, 0);
    for seed in 0..3000 {
        let mut chance = Chance::new(seed);
        let (n, words, bytes, odd) = any_bytes(&mut chance);
        let mut on_words = random::value_room(&mut chance, n);
        let mut on_bytes = on_words.clone();
        let before = on_words.clone();
        let answer = simmerknot_evaluate(n, &bytes, &mut on_bytes);
        match evaluate(n, &words, &mut on_words) {
            Ok(()) if odd => {
                assert_eq!(answer, packed(4, words.len() as u64), "seed {seed}");
                assert_eq!(on_bytes, before, "seed {seed}");
                lone += 1;
            }
            Ok(()) => {
                assert_eq!(answer, 0, "seed {seed}");
                assert_eq!(on_bytes, on_words, "seed {seed}");
                accepted += 1;
            }
            Err(refusal) => {
                assert_eq!(answer, packed(refusal.number.into(), refusal.place), "seed {seed}");
                assert_eq!(on_bytes, before, "seed {seed}");
                refused += 1;
            }
        }
    }
    assert!(accepted > 600 && refused > 600 && lone > 150, "{accepted} {refused} {lone}");
}

#[test]
fn conflict_on_bytes_equals_conflict_on_words() {
    let (mut met, mut refused, mut lone) = ([0; 2], 0, 0);
    for seed in 0..4000 {
        let mut chance = Chance::new(seed);
        let (n, words, bytes, odd) = any_bytes(&mut chance);
        let answer = simmerknot_conflict(n, &bytes);
        match conflict(n, &words) {
            Ok(_) if odd => {
                assert_eq!(answer, packed(4, words.len() as u64), "seed {seed}");
                lone += 1;
            }
            Ok(yes) => {
                assert_eq!(answer, yes as u64, "seed {seed}");
                met[yes as usize] += 1;
            }
            Err(refusal) => {
                assert_eq!(answer, packed(refusal.number.into(), refusal.place), "seed {seed}");
                refused += 1;
            }
        }
    }
    assert!(met.iter().all(|&count| count > 400) && refused > 800 && lone > 200, "{met:?} {refused} {lone}");
}

#[test]
fn the_sheet_entry_on_bytes_equals_the_sheet_entry() {
    let (mut accepted, mut refused) = (0, 0);
    for seed in 0..1500 {
        let mut chance = Chance::new(seed);
        let sheet = random::any_sheet(&mut chance);
        let (mut words, mut names) = (random::word_bytes(&mut chance), random::name_bytes(&mut chance));
        let mut text = random::text_room(&mut chance, &sheet);
        let (mut words_before, mut names_before) = (words.clone(), names.clone());
        let (mut entries, mut starts) = (vec![7; words.len() / 2], vec![7; names.len() / 4]);
        let mut same_text = text.clone();
        let answer = simmerknot_sheet(&sheet, &mut words, &mut names, &mut text);
        match read_sheet(&sheet, &mut entries, &mut starts, &mut same_text) {
            Ok(given) => {
                assert_eq!(answer, given.value_sheet_length, "seed {seed}");
                accepted += 1;
            }
            Err(refusal) => {
                assert_eq!(answer, packed(refusal.number.into(), refusal.place), "seed {seed}");
                refused += 1;
            }
        }
        words_before[..2 * entries.len()].copy_from_slice(&table_bytes(&entries));
        names_before[..4 * starts.len()].copy_from_slice(&entry_bytes(&starts));
        assert_eq!((words, names, text), (words_before, names_before, same_text), "seed {seed}");
    }
    assert!(accepted > 300 && refused > 500, "{accepted} {refused}");
}

#[test]
fn the_check_of_a_reason_sheet_on_bytes_equals_the_one_on_words() {
    let mut met = std::collections::BTreeMap::new();
    for seed in 0..8000 {
        let mut chance = Chance::new(seed);
        let Claimed { n, words, values, text } = random::any_reasons(&mut chance);
        let mut bytes = table_bytes(&words);
        let odd = chance.one_in(5);
        if odd {
            bytes.push(chance.number() as u8);
        }
        let answer = simmerknot_check_reasons(n, &bytes, &values, &text);
        let of_words = match check_reasons(n, &words, &values, &text) {
            Err(refusal) if refusal.number < 20 => packed(refusal.number.into(), refusal.place),
            _ if odd => packed(4, words.len() as u64),
            Err(refusal) => packed(refusal.number.into(), refusal.place),
            Ok(()) => 0,
        };
        assert_eq!(answer, of_words, "seed {seed}");
        let writing = match check_writing(n, &words) {
            Err(refusal) => Some(packed(refusal.number.into(), refusal.place)),
            Ok(()) if odd => Some(packed(4, words.len() as u64)),
            Ok(()) => None,
        };
        assert_eq!(refused_writing(n, &bytes), writing, "seed {seed}");
        *met.entry(answer >> 32).or_insert(0) += 1;
    }
    assert_eq!(met.keys().copied().collect::<Vec<_>>(), [0, 1, 2, 3, 4, 5, 6, 7, 20, 21, 22, 34]);
    assert!(met.values().all(|&count| count > 20), "{met:?}");
}
