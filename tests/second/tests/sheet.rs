//! The sheet entry: words, names and value sheet; each refusal, its place, its order, and what is left in the buffers.

use second::model;
use second::random::{self, Chance, SHEET_DAMAGES, SheetDamage};
use second::reader::{Reader, Reading, Role};
use second::refusal::Refusal;
use second::sheet::{Accepted, contents, line_of, read_sheet};
use second::table::{check, parse};
use second::tables::{EXAMPLES, WHOLE_RUN_INPUT, WHOLE_RUN_OUTPUT, written};
use second::truth;

/// The answer for a sheet with buffers of these lengths, and what is in them afterwards; all start full of sevens.
struct Run {
    answer: Result<Accepted, Refusal>,
    words: Vec<u16>,
    names: Vec<u32>,
    text: Vec<u8>,
}

fn run_with(sheet: &[u8], words: usize, names: usize, text: usize) -> Run {
    let mut run = Run { answer: Err(Refusal { number: 0, place: 0 }), words: vec![7; words], names: vec![7; names], text: vec![7; text] };
    run.answer = read_sheet(sheet, &mut run.words, &mut run.names, &mut run.text);
    run
}

fn run(sheet: &[u8]) -> Run {
    run_with(sheet, 8192, 512, 20_000)
}

/// Asserts that the sheet is refused, with both buffers zero and the text room untouched.
fn refused(sheet: &[u8]) -> (u32, u64) {
    let run = run(sheet);
    assert!(run.words.iter().all(|&word| word == 0) && run.names.iter().all(|&entry| entry == 0));
    assert!(run.text.iter().all(|&byte| byte == 7));
    let refusal = run.answer.expect_err("a refusal");
    (refusal.number, refusal.place)
}

/// The value sheet of an accepted sheet.
fn value_sheet(sheet: &[u8]) -> String {
    let run = run(sheet);
    let length = run.answer.expect("an accepted sheet").value_sheet_length as usize;
    String::from_utf8(run.text[..length].to_vec()).unwrap()
}

#[test]
fn the_empty_sheet_is_accepted() {
    let run = run(b"");
    assert_eq!(run.answer, Ok(Accepted { n: 0, words_filled: 0, value_sheet_length: 0 }));
    assert!(run.words.iter().all(|&word| word == 0) && run.names.iter().all(|&entry| entry == 0));
    assert!(run.text.iter().all(|&byte| byte == 7));
}

#[test]
fn words_names_and_value_sheet() {
    let sheet = b"arrived\tlogged\tmailed -gap\n-gap\n";
    let run = run_with(sheet, 8200, 600, 100);
    assert_eq!(run.answer, Ok(Accepted { n: 4, words_filled: 11, value_sheet_length: 34 }));
    assert_eq!(run.words[..11], [0, 1, 2, 1, 2, 2, 4, 7, 7, 2, 0]);
    assert!(run.words[11..].iter().all(|&word| word == 0));
    let entries = [7, 32 * 8 + 6, 32 * 15 + 6, 32 * 23 + 3];
    assert_eq!(run.names[..4], entries);
    assert!(run.names[4..].iter().all(|&entry| entry == 0));
    assert_eq!(&run.text[..34], b"arrived\tu\nlogged\tu\nmailed\tu\ngap\tf\n");
    assert!(run.text[34..].iter().all(|&byte| byte == 7));
}

#[test]
fn the_whole_run_of_document_01() {
    assert_eq!(value_sheet(WHOLE_RUN_INPUT.as_bytes()), WHOLE_RUN_OUTPUT);
}

#[test]
fn value_lines_stand_in_atom_order() {
    assert_eq!(value_sheet(b"a\tc\nb\nc\n"), "a\tt\nc\tt\nb\tt\n");
    // Neither by heads first, nor by name.
    assert_eq!(value_sheet(b"z\ty\nx\n-y\n"), "z\tu\ny\tf\nx\tt\n");
    assert_eq!(value_sheet(b"b\tz\na\n"), "b\tu\nz\tu\na\tt\n");
}

#[test]
fn every_atom_has_its_line_once() {
    assert_eq!(value_sheet(b"p\tq -r\n"), "p\tu\nq\tu\nr\tu\n");
    // An atom that heads rules in both signs, and stands in bodies too.
    assert_eq!(value_sheet(b"-a\tb\na\n"), "a\tt\nb\tu\n");
    assert_eq!(value_sheet(b"a\ta -a\n-a\n"), "a\tf\n");
    assert_eq!(value_sheet(b"a\tb c\n-c\n"), "a\tu\nb\tu\nc\tf\n");
    // P2: only in the body of its own negation.
    assert_eq!(value_sheet(b"-b\tb\n"), "b\tu\n");
    // The same name in several groups, in both signs, and in several lines.
    assert_eq!(value_sheet(b"p\tq\tq r\t-q\n-p\tr -q\n"), "p\tu\nq\tu\nr\tu\n");
    // A name that stands only in bodies is u whatever the rest does.
    assert_eq!(value_sheet(b"a\n-a\nb\ta\tx\n-c\nd\t-c y\n"), "a\ti\nb\ti\nx\tu\nc\tf\nd\tu\ny\tu\n");
}

#[test]
fn the_examples_as_sheets() {
    for example in EXAMPLES {
        let table = example.table();
        let run = run(&table.sheet());
        let accepted = run.answer.unwrap();
        assert_eq!(accepted.n, table.n(), "{}", example.name);
        assert_eq!(run.words[..accepted.words_filled as usize], table.words(), "{}", example.name);
        let line = |(name, value): (&String, u8)| format!("{name}\t{}\n", truth::letter(value) as char);
        let lines: String = table.names.iter().zip(example.values_in_order()).map(line).collect();
        assert_eq!(value_sheet(&table.sheet()), lines, "{}", example.name);
    }
    assert_eq!(value_sheet(&written(&["p: q"]).sheet()), "p\tu\nq\tu\n");
}

#[test]
fn second_head_is_7_at_the_literals_first_byte() {
    assert_eq!(refused(b"a\na\n"), (7, 2));
    assert_eq!(refused(b"-a\n-a\n"), (7, 3));
    assert_eq!(refused(b"a\tb\n-a\na\tc\n"), (7, 7));
    // The fault of the line's rest is not reached.
    assert_eq!(refused(b"a\na\t\n"), (7, 2));
    // The byte after the literal comes before its 7.
    assert_eq!(refused(b"a\na#"), (10, 3));
    assert_eq!(refused(b"a\na b\n"), (10, 3));
    assert_eq!(refused(b"a\na"), (10, 3));
    assert!(run(b"a\n-a\n").answer.is_ok());
    assert!(run(b"a\tb\nb\ta\n").answer.is_ok());
}

/// 512 names aa0, aa1 .., eight to a line, and the next name.
fn names_512() -> (Vec<u8>, Vec<u8>) {
    let name = |i: usize| format!("n{i}");
    let line = |i: usize| format!("{}\t{}\n", name(8 * i), (1..8).map(|j| name(8 * i + j)).collect::<Vec<_>>().join(" "));
    ((0..64).map(line).collect::<String>().into_bytes(), name(512).into_bytes())
}

#[test]
fn the_513th_name_is_12_at_its_first_byte() {
    let (sheet, next) = names_512();
    let length = sheet.len() as u64;
    assert_eq!(run(&sheet).answer.unwrap().n, 512);
    let more = |parts: &[&[u8]]| [&sheet[..], &parts.concat()].concat();
    assert_eq!(refused(&more(&[&next, b"\n"])), (12, length));
    // Without "-".
    assert_eq!(refused(&more(&[b"-", &next, b"\n"])), (12, length + 1));
    assert_eq!(refused(&more(&[b"n1\t-", &next, b" n1\n"])), (12, length + 4));
    // Its bytes and the byte after come first.
    assert_eq!(refused(&more(&[&next, b" n1\n"])), (10, length + 4));
    // A known name goes on.
    assert_eq!(run(&more(&[b"n1\t-n511\n"])).answer.unwrap().n, 512);
}

#[test]
fn the_65th_group_and_the_65th_literal_are_13() {
    let groups = |count: usize| [b"a".to_vec(), b"\t-b".repeat(count), b"\n".to_vec()].concat();
    assert_eq!(run(&groups(64)).answer.unwrap().words_filled, 3 + 128);
    assert_eq!(refused(&groups(65)), (13, 1 + 64 * 3 + 1));
    assert_eq!(refused(&groups(66)), (13, 1 + 64 * 3 + 1));
    let literals = |count: usize| [b"a\tb".to_vec(), b" -b".repeat(count - 1), b"\n".to_vec()].concat();
    assert_eq!(run(&literals(64)).answer.unwrap().words_filled, 3 + 65);
    assert_eq!(refused(&literals(65)), (13, 3 + 63 * 3 + 1));
    // 64 literals in a later group, and a group after 64 literals.
    let second = [b"a\tc".to_vec(), b" c".repeat(63), b"\tb".to_vec(), b" b".repeat(64), b"\n".to_vec()].concat();
    assert_eq!(refused(&second), (13, second.len() as u64 - 2));
    // 64 groups in each of two lines.
    let lines = [groups(64), b"-".to_vec(), groups(64)].concat();
    assert_eq!(run(&lines).answer.unwrap().words_filled, 2 * 131);
    // 12 comes before 13.
    let (names, next) = names_512();
    let both = [names.clone(), b"n1".to_vec(), b"\tn2".repeat(64), b"\t".to_vec(), next, b"\n".to_vec()].concat();
    assert_eq!(refused(&both), (12, both.len() as u64 - 5));
}

#[test]
fn words_8192_and_8193() {
    let mut chance = Chance::new(14);
    for _ in 0..40 {
        let draft = random::full_draft(&mut chance, 8192);
        let sheet = draft.sheet();
        assert_eq!(run(&sheet).answer.unwrap().words_filled, 8192);
        // A head needs three words more.
        let length = sheet.len() as u64;
        let more = |line: &[u8]| [&sheet[..], line].concat();
        assert_eq!(refused(&more(b"new\n")), (14, length));
        assert_eq!(refused(&more(b"-new\n")), (14, length));
        // The head's own 10 and 7 come before its 14.
        assert_eq!(refused(&more(b"-new")), (10, length + 4));
        let again = sheet[..=sheet.iter().position(|b| matches!(b, b'\t' | b'\n')).unwrap() - 1].to_vec();
        assert_eq!(refused(&more(&[again, b"\n".to_vec()].concat())), (7, length));
    }
}

#[test]
fn words_counted_are_3_for_a_head_2_for_a_first_and_1_for_a_further() {
    let mut chance = Chance::new(15);
    // Room for one word or two: no head at all.
    for words in [8190, 8191] {
        let sheet = random::full_draft(&mut chance, words).sheet();
        let length = sheet.len() as u64;
        let more = |line: &[u8]| [&sheet[..], line].concat();
        assert_eq!(run(&sheet).answer.unwrap().words_filled, words as u64);
        assert_eq!(refused(&more(b"new\n")), (14, length));
        assert_eq!(refused(&more(b"-new\tnew\n")), (14, length));
    }
    // Room for exactly three words: a fact fits, a head with a group does not.
    let sheet = random::full_draft(&mut chance, 8189).sheet();
    let length = sheet.len() as u64;
    let more = |line: &[u8]| [&sheet[..], line].concat();
    assert_eq!(run(&more(b"new\n")).answer.unwrap().words_filled, 8192);
    assert_eq!(refused(&more(b"new\t-new\n")), (14, length + 4));
    // Room for four: the first of a group needs two more after the head.
    let sheet = random::full_draft(&mut chance, 8188).sheet();
    let length = sheet.len() as u64;
    let more = |line: &[u8]| [&sheet[..], line].concat();
    assert_eq!(run(&more(b"new\n")).answer.unwrap().words_filled, 8191);
    assert_eq!(refused(&more(b"new\tnew\n")), (14, length + 4));
    // Room for five: no further literal.
    let sheet = random::full_draft(&mut chance, 8187).sheet();
    let length = sheet.len() as u64;
    let more = |line: &[u8]| [&sheet[..], line].concat();
    assert_eq!(run(&more(b"new\tnew\n")).answer.unwrap().words_filled, 8192);
    assert_eq!(refused(&more(b"new\tnew -new\n")), (14, length + 8));
    // Room for six: one further literal, none after it.
    let sheet = random::full_draft(&mut chance, 8186).sheet();
    let length = sheet.len() as u64;
    let more = |line: &[u8]| [&sheet[..], line].concat();
    assert_eq!(run(&more(b"new\tnew new\n")).answer.unwrap().words_filled, 8192);
    assert_eq!(refused(&more(b"new\tnew new new\n")), (14, length + 12));
}

#[test]
fn a_sheet_that_two_words_for_a_head_would_let_pass_is_14() {
    // Both literals of 455 atoms, each with a group of six: 8,190 words by two for a head, but by three for 819 of these lines.
    let line = |i: usize| format!("{}n{}\tn0 n1 n2 n3 n4 n5\n", if i % 2 == 1 { "-" } else { "" }, i / 2);
    let sheet: String = (0..910).map(line).collect();
    assert_eq!(random::word_count(sheet.as_bytes(), 2), 8190);
    let most: String = (0..819).map(line).collect();
    assert_eq!(run(most.as_bytes()).answer.unwrap().words_filled, 8190);
    assert_eq!(refused(sheet.as_bytes()), (14, most.len() as u64));
    let mut chance = Chance::new(18);
    for _ in 0..40 {
        let sheet = random::full_draft(&mut chance, 8193).sheet();
        assert!(random::word_count(&sheet, 2) < 8000);
        assert_eq!(refused(&sheet).0, 14);
    }
}

#[test]
fn a_record_has_the_line_of_its_head_from_1() {
    let lines = |sheet: &[u8]| -> Vec<usize> { contents(sheet).unwrap().records.iter().map(|record| record.line).collect() };
    assert_eq!(lines(b"a\n"), [1]);
    assert_eq!(lines(b"a\tb c\td\nb\n-a\tc\n"), [1, 2, 3]);
    assert_eq!(run(b"a\tb c\td\nb\n-a\tc\n").words[..20], [0, 1, 2, 2, 2, 4, 1, 6, 2, 2, 0, 1, 3, 1, 1, 4, 0, 0, 0, 0]);
    assert_eq!(line_of(b"a\nb\n", 0), 1);
    assert_eq!(line_of(b"a\nb\n", 1), 1);
    assert_eq!(line_of(b"a\nb\n", 2), 2);
    assert_eq!(line_of(b"a\nb\n", 4), 3);
    // Bodies of 64 groups and of 64 literals take no line of their own.
    let long = [b"a".to_vec(), b"\tb c".repeat(64), b"\nb\tc".to_vec(), b" d".repeat(63), b"\nc\n".to_vec()].concat();
    assert_eq!(lines(&long), [1, 2, 3]);
    // As many lines as a sheet can have: both literals of 512 atoms.
    let all: String = (0..512).map(|i| format!("n{i}\n-n{i}\n")).collect();
    assert_eq!(lines(all.as_bytes()), (1..=1024).collect::<Vec<_>>());
    assert_eq!(run(all.as_bytes()).words[3069..3072], [1023, 1024, 0]);
}

#[test]
fn the_line_in_the_words_is_where_the_head_stands() {
    let (mut met, mut highest) = (0, 0);
    for seed in 0..1000 {
        let sheet = random::accepted_sheet(&mut Chance::new(seed));
        let run = run(&sheet);
        let accepted = run.answer.unwrap();
        let records = parse(accepted.n, &run.words[..accepted.words_filled as usize]).unwrap();
        let lines: Vec<&[u8]> = sheet.split_inclusive(|&byte| byte == b'\n').collect();
        assert_eq!(records.len(), lines.len(), "seed {seed}");
        for record in &records {
            let head = lines[record.line - 1].split(|byte| b"\t\n".contains(byte)).next().unwrap();
            let entry = run.names[record.rule.head / 2] as usize;
            let name = &sheet[entry / 32..entry / 32 + entry % 32];
            let sign: &[u8] = if record.rule.head % 2 == 1 { b"-" } else { b"" };
            assert_eq!(head, [sign, name].concat(), "seed {seed}");
        }
        met += records.len();
        highest = highest.max(records.len());
    }
    assert!(met > 10_000 && highest > 200, "{met} {highest}");
}

#[test]
fn thirteen_comes_before_14() {
    // Two words are left after 64 groups, so a 65th group has both faults.
    let mut chance = Chance::new(16);
    let line = [b"new".to_vec(), b"\tb1".repeat(64)].concat();
    let sheet = [random::full_draft(&mut chance, 8192 - 131).sheet(), line].concat();
    assert_eq!(run(&[&sheet[..], b"\n"].concat()).answer.unwrap().words_filled, 8192);
    let length = sheet.len() as u64;
    assert_eq!(refused(&[&sheet[..], b"\tb1\n"].concat()), (13, length + 1));
    assert_eq!(refused(&[&sheet[..], b" b1\n"].concat()), (14, length + 1));
}

#[test]
fn names_of_24_and_25_bytes() {
    let name = "abcdefghijklmnopqrstuvwx";
    assert_eq!(name.len(), 24);
    assert_eq!(value_sheet(format!("{name}\n").as_bytes()), format!("{name}\tt\n"));
    assert_eq!(refused(format!("{name}y\n").as_bytes()), (11, 24));
    assert_eq!(refused(format!("a\t-{name}y\n").as_bytes()), (11, 27));
    // Names that differ only in the last byte, or only in length, are different.
    let run = run(format!("{name}\n{}y\n{}\n", &name[..23], &name[..23]).as_bytes());
    assert_eq!(run.answer.unwrap().n, 3);
    assert_eq!(run.names[..3], [24, 32 * 25 + 24, 32 * 50 + 23]);
}

#[test]
fn sheets_of_65536_and_65537_bytes() {
    // 64 lines of 1,024 bytes: a head, and 40 literals of 24 bytes with a filler.
    let mut sheet = Vec::new();
    for i in 0..64 {
        let head = format!("h{i}");
        let group: Vec<String> = (0..40).map(|j| format!("{}{j:02}", "x".repeat(22))).collect();
        let mut line = format!("{head}\t{}\t", group.join(" "));
        line += &"f".repeat(1023 - line.len());
        sheet.extend(line.bytes());
        sheet.push(b'\n');
    }
    assert_eq!(sheet.len(), 65_536);
    let accepted = run(&sheet).answer.unwrap();
    assert_eq!(accepted.words_filled, 64 * (3 + 41 + 2));
    sheet.push(b'\n');
    assert_eq!(refused(&sheet), (8, 0));
    sheet.pop();
    sheet[65_535] = b'f';
    assert_eq!(refused(&sheet), (10, 65_536));
    // A head in the last bytes has its start in the names.
    sheet[65_535] = b'\n';
    sheet[65_533] = b'\n';
    sheet[65_534] = b'q';
    let run = run(&sheet);
    let n = run.answer.unwrap().n as usize;
    assert_eq!(run.names[n - 1], 32 * 65_534 + 1);
}

#[test]
fn eight_then_nine_with_buffers_zeroed_whatever_their_size() {
    let long = vec![b'a'; 65_537];
    for (sheet, words, names, number) in [
        (&long[..], 0, 0, 8),
        (&long[..], 8192, 512, 8),
        (b"#", 8191, 512, 9),
        (b"#", 8192, 511, 9),
        (b"#", 0, 0, 9),
        (b"#", 8192, 512, 10),
        (b"", 8191, 512, 9),
        (b"", 9000, 511, 9),
    ] {
        let run = run_with(sheet, words, names, 10);
        assert_eq!(run.answer, Err(Refusal { number, place: 0 }), "{words} {names}");
        assert_eq!((run.words, run.names, run.text), (vec![0; words], vec![0; names], vec![7; 10]));
    }
}

/// Asserts that this is what is needed: 15 there in each smaller room of these, accepted in exactly that room.
fn needs(sheet: &[u8], needed: usize, smaller: &[usize]) {
    let run = run_with(sheet, 8192, 512, needed);
    assert_eq!(run.answer.unwrap().value_sheet_length, needed as u64);
    assert_eq!(run.text, value_sheet(sheet).as_bytes());
    for &room in smaller {
        let run = run_with(sheet, 8192, 512, room);
        assert_eq!(run.answer, Err(Refusal { number: 15, place: needed as u64 }), "room {room}");
        assert!(run.words.iter().all(|&word| word == 0) && run.names.iter().all(|&entry| entry == 0));
        assert_eq!(run.text, vec![7; room]);
    }
}

#[test]
fn fifteen_only_if_the_value_sheet_is_longer_than_the_room() {
    needs(b"ab\nc\tab\n", 9, &[0, 1, 8]);
    // A broken sheet is refused for its fault, not for the room.
    assert_eq!(run_with(b"ab\nc\tab\nc\n", 8192, 512, 0).answer, Err(Refusal { number: 7, place: 8 }));
}

#[test]
fn fifteen_counts_the_lines_of_names_that_head_no_rule() {
    // Enough for the line of p alone, for those of p and q, and one byte too few.
    needs(b"p\tq -r\n", 12, &[4, 8, 11]);
    needs(b"ab\tlonger.name\n", 19, &[5, 14, 18]);
    // In the whole run 44 bytes are the lines of the heads.
    needs(WHOLE_RUN_INPUT.as_bytes(), 53, &[0, 44, 45, 52]);
    let mut chance = Chance::new(17);
    let mut between = 0;
    for _ in 0..400 {
        let sheet = random::accepted_sheet(&mut chance);
        let (heads, others) = random::heads_and_others(&sheet);
        let heads = random::lines_length(&heads);
        let needed = heads + random::lines_length(&others);
        if !others.is_empty() {
            between += 1;
            needs(&sheet, needed, &[heads, heads + chance.index(needed - heads), needed - 1]);
        }
    }
    assert!(between > 250, "{between}");
}

/// 512 names of 24 bytes, so many of them heads of facts; the others stand in the groups of one rule.
fn longest_names(facts: usize) -> Vec<u8> {
    let name = |i: usize| format!("{}{i:03}", "n".repeat(21));
    let mut sheet: String = (0..facts).map(|i| name(i) + "\n").collect();
    let bodies: Vec<String> = (facts..512).map(name).collect();
    if !bodies.is_empty() {
        sheet += &format!("-{}", name(0));
        sheet.extend(bodies.chunks(64).map(|group| format!("\t{}", group.join(" "))));
        sheet += "\n";
    }
    sheet.into_bytes()
}

#[test]
fn the_longest_value_sheet_has_13824_bytes_whichever_names_head_rules() {
    for facts in [512, 511, 300, 1] {
        let sheet = longest_names(facts);
        let (heads, others) = random::heads_and_others(&sheet);
        assert_eq!((heads.len(), others.len()), (facts, 512 - facts));
        needs(&sheet, 13_824, &[0, 27 * facts - 1, 13_823]);
        let letters: Vec<u8> = value_sheet(&sheet).bytes().skip(25).step_by(27).collect();
        assert!(letters[..facts].iter().all(|&letter| letter == b't') && letters[facts..].iter().all(|&letter| letter == b'u'));
    }
    // No line is longer and there are no more: a name more or a byte more is refused.
    let all = longest_names(1);
    assert_eq!(refused(&[&all[..all.len() - 1], b"\tnew\n"].concat()), (12, all.len() as u64));
    assert_eq!(refused(&[&all[..all.len() - 1], b"n\n"].concat()), (11, all.len() as u64 - 1));
}

#[test]
fn each_damage_is_refused_by_its_number() {
    for damage in SHEET_DAMAGES {
        let mut places = std::collections::BTreeSet::new();
        for seed in 0..60 {
            let mut chance = Chance::new(seed);
            let sheet = random::damaged_sheet(&mut chance, damage);
            let (number, place) = refused(&sheet);
            assert_eq!(number, damage.number(), "{damage:?}, seed {seed}");
            places.insert(place);
        }
        assert!(places.len() > 5 || damage == SheetDamage::TooLong, "{damage:?} at {places:?}");
    }
}

/// What the readings from the start say of a sheet: each literal with its name, up to the end or a refusal.
fn by_readings(sheet: &[u8]) -> (Vec<(Role, bool, u64, &[u8])>, Option<Refusal>) {
    let mut reader = Reader::new(sheet);
    let mut literals = Vec::new();
    loop {
        match reader.next_reading() {
            Reading::End => return (literals, None),
            Reading::Refused(refusal) => return (literals, Some(refusal)),
            Reading::Literal(found) => {
                let name = &sheet[found.name_place as usize..][..found.name_length as usize];
                literals.push((found.role, found.negated, found.place(), name));
            }
        }
    }
}

#[test]
fn the_reader_from_the_start_agrees_with_the_entry() {
    let mut numbers = std::collections::BTreeMap::new();
    for seed in 0..4000 {
        let mut chance = Chance::new(seed);
        let sheet = random::any_sheet(&mut chance);
        let run = run(&sheet);
        let (literals, fault) = by_readings(&sheet);
        match run.answer {
            Ok(accepted) => {
                assert_eq!(fault, None, "seed {seed}");
                // The words told by the literals alone, with names numbered by a plain search.
                let mut names: Vec<&[u8]> = Vec::new();
                let mut words: Vec<u16> = Vec::new();
                let (mut line, mut m, mut k) = (0, 0, 0);
                for (role, negated, _, name) in literals {
                    let atom = names.iter().position(|&known| known == name).unwrap_or_else(|| {
                        names.push(name);
                        names.len() - 1
                    });
                    let code = (2 * atom + negated as usize) as u16;
                    match role {
                        Role::Head => {
                            line += 1;
                            m = words.len() + 2;
                            words.extend([code, line, 0]);
                        }
                        Role::First => {
                            words[m] += 1;
                            k = words.len();
                            words.extend([1, code]);
                        }
                        Role::Further => {
                            words[k] += 1;
                            words.push(code);
                        }
                    }
                }
                assert_eq!(accepted.n, names.len() as u64, "seed {seed}");
                assert_eq!(accepted.words_filled, words.len() as u64, "seed {seed}");
                assert_eq!(run.words[..words.len()], words, "seed {seed}");
                assert!(run.words[words.len()..].iter().all(|&word| word == 0));
                for (atom, &entry) in run.names.iter().enumerate() {
                    if atom < names.len() {
                        let (start, length) = (entry as usize / 32, entry as usize % 32);
                        assert_eq!(&sheet[start..start + length], names[atom], "seed {seed}");
                        let first = sheet.windows(length).enumerate().position(|(at, window)| {
                            let before = at == 0 || b"\n\t -".contains(&sheet[at - 1]);
                            let after = b"\n\t ".contains(&sheet[at + length]);
                            before && after && window == names[atom]
                        });
                        assert_eq!(first, Some(start), "seed {seed}");
                    } else {
                        assert_eq!(entry, 0);
                    }
                }
                // The table is accepted, and its evaluation gives the value sheet.
                assert_eq!(check(accepted.n, &words), Ok(()), "seed {seed}");
                let mut values = vec![9; names.len()];
                model::evaluate(accepted.n, &words, &mut values).unwrap();
                let mut lines = Vec::new();
                for (atom, name) in names.iter().enumerate() {
                    lines.extend_from_slice(name);
                    lines.extend([b'\t', truth::letter(values[atom]), b'\n']);
                }
                assert_eq!(run.text[..lines.len()], lines, "seed {seed}");
                assert_eq!(accepted.value_sheet_length, lines.len() as u64, "seed {seed}");
                assert!(run.text[lines.len()..].iter().all(|&byte| byte == 7));
                *numbers.entry(0).or_insert(0) += 1;
            }
            Err(refusal) => {
                *numbers.entry(refusal.number).or_insert(0) += 1;
                if matches!(refusal.number, 8 | 10 | 11) {
                    assert_eq!(fault, Some(refusal), "seed {seed}");
                } else {
                    // A literal that the reader yields, at this place.
                    let dashed = |(_, negated, place, _): &(Role, bool, u64, &[u8])| {
                        *place + (refusal.number == 12 && *negated) as u64 == refusal.place
                    };
                    assert!(literals.iter().any(dashed), "seed {seed}: {refusal:?}");
                }
                assert!(run.words.iter().all(|&word| word == 0) && run.names.iter().all(|&entry| entry == 0));
                assert!(run.text.iter().all(|&byte| byte == 7));
            }
        }
    }
    assert_eq!(numbers.keys().copied().collect::<Vec<_>>(), [0, 7, 8, 10, 11, 12, 13, 14]);
    assert!(numbers.values().all(|&count| count > 40) && numbers[&0] > 1000, "{numbers:?}");
}

#[test]
fn any_sheet_with_any_buffers_leaves_what_it_should() {
    let mut numbers = std::collections::BTreeMap::new();
    for seed in 0..2000 {
        let mut chance = Chance::new(seed);
        let sheet = random::any_sheet(&mut chance);
        let usual = run(&sheet);
        let (mut words, mut names) = (random::word_buffer(&mut chance), random::name_buffer(&mut chance));
        let needed = usual.answer.map_or(0, |accepted| accepted.value_sheet_length as usize);
        let mut text = random::text_room(&mut chance, &sheet);
        let room = text.clone();
        let answer = read_sheet(&sheet, &mut words, &mut names, &mut text);
        let expected = if sheet.len() > 65_536 {
            Err(Refusal { number: 8, place: 0 })
        } else if words.len() < 8192 || names.len() < 512 {
            Err(Refusal { number: 9, place: 0 })
        } else if usual.answer.is_ok() && room.len() < needed {
            Err(Refusal { number: 15, place: needed as u64 })
        } else {
            usual.answer
        };
        assert_eq!(answer, expected, "seed {seed}");
        if answer.is_ok() {
            assert_eq!(words[..8192], usual.words, "seed {seed}");
            assert_eq!(names[..512], usual.names, "seed {seed}");
            assert_eq!(text[..needed], usual.text[..needed], "seed {seed}");
            assert_eq!(text[needed..], room[needed..], "seed {seed}");
            assert!(words[8192..].iter().all(|&word| word == 0) && names[512..].iter().all(|&entry| entry == 0));
        } else {
            assert!(words.iter().all(|&word| word == 0) && names.iter().all(|&entry| entry == 0), "seed {seed}");
            assert_eq!(text, room, "seed {seed}");
        }
        *numbers.entry(answer.map_or_else(|refusal| refusal.number, |_| 0)).or_insert(0) += 1;
    }
    assert_eq!(numbers.keys().copied().collect::<Vec<_>>(), [0, 7, 8, 9, 10, 11, 12, 13, 14, 15]);
    assert!(numbers.values().all(|&count| count > 15) && numbers[&0] > 400, "{numbers:?}");
}

/// The literals of a sheet, cut at the bytes that part them: names without "-".
fn literal_names(sheet: &[u8]) -> impl Iterator<Item = &[u8]> {
    let parts = sheet.split(|byte| b"\n\t ".contains(byte)).filter(|part| !part.is_empty());
    parts.map(|part| part.strip_prefix(b"-").unwrap_or(part))
}

#[test]
fn each_name_of_a_sheet_can_be_looked_up_in_its_value_sheet() {
    let (mut lines_met, mut by_letter, mut others_met, mut literals_met) = (0, [0; 4], 0, 0);
    for seed in 0..3000 {
        let sheet = random::accepted_sheet(&mut Chance::new(seed));
        let run = run(&sheet);
        let accepted = run.answer.unwrap();
        let n = accepted.n as usize;
        let text = &run.text[..accepted.value_sheet_length as usize];
        // Exactly N lines, each ended by byte 10.
        let mut lines: Vec<&[u8]> = text.split(|&byte| byte == b'\n').collect();
        assert_eq!(lines.pop(), Some(&b""[..]), "seed {seed}");
        assert_eq!(lines.len(), n, "seed {seed}");
        // Line a is the name of atom a, tab, the letter of its value.
        let mut values = vec![9; n];
        model::evaluate(accepted.n, &run.words[..accepted.words_filled as usize], &mut values).unwrap();
        let mut found = std::collections::BTreeMap::new();
        for (atom, line) in lines.iter().enumerate() {
            let (start, length) = (run.names[atom] as usize / 32, run.names[atom] as usize % 32);
            let [name @ .., b'\t', letter] = line else { panic!("seed {seed}: line {atom}") };
            assert_eq!(name, &sheet[start..start + length], "seed {seed}");
            assert_eq!(*letter, truth::letter(values[atom]), "seed {seed}");
            by_letter[values[atom] as usize] += 1;
            // No name has two lines.
            assert_eq!(found.insert(name, *letter), None, "seed {seed}");
        }
        // Every literal of the sheet finds its name, and every name found is one of the sheet's.
        let literals: std::collections::BTreeSet<&[u8]> = literal_names(&sheet).collect();
        assert!(literals.iter().all(|name| found.contains_key(name)), "seed {seed}");
        assert_eq!(literals.len(), found.len(), "seed {seed}");
        // One that heads no rule is u.
        let (_, others) = random::heads_and_others(&sheet);
        assert!(others.iter().all(|name| found[name.of(&sheet)] == b'u'), "seed {seed}");
        lines_met += n;
        others_met += others.len();
        literals_met += literal_names(&sheet).count();
    }
    let met = (lines_met, by_letter, others_met, literals_met);
    assert!(lines_met > 70_000 && by_letter.iter().all(|&count| count > 2_000), "{met:?}");
    assert!(others_met > 40_000 && literals_met > 250_000, "{met:?}");
}
