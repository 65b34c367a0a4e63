//! The program: what it prints for an input.

use second::program::output;
use second::random::{self, Chance};
use second::sheet::read_sheet;
use second::tables::{WHOLE_RUN_INPUT, WHOLE_RUN_OUTPUT};

#[test]
fn the_whole_run_of_document_01() {
    assert_eq!(output(WHOLE_RUN_INPUT.as_bytes()), WHOLE_RUN_OUTPUT.as_bytes());
}

#[test]
fn an_empty_input_prints_nothing() {
    assert_eq!(output(b""), b"");
}

#[test]
fn no_last_newline_is_refused_at_the_length() {
    let cut = &WHOLE_RUN_INPUT.as_bytes()[..WHOLE_RUN_INPUT.len() - 1];
    assert_eq!(output(cut), format!("refused\t10\t{}\n", cut.len()).into_bytes());
}

#[test]
fn a_refusal_is_one_line() {
    assert_eq!(output(b"a\na\n"), b"refused\t7\t2\n");
    assert_eq!(output(b"\xff"), b"refused\t10\t0\n");
    assert_eq!(output(b"#\n"), b"refused\t10\t0\n");
}

#[test]
fn input_above_65536_bytes_is_8() {
    let line = b"a\tb c d\n";
    assert_eq!(output(&line.repeat(8192)), b"refused\t7\t8\n");
    assert_eq!(output(&[&line.repeat(8192)[..], b"x"].concat()), b"refused\t8\t0\n");
    assert_eq!(output(&vec![b'a'; 1 << 20]), b"refused\t8\t0\n");
}

/// 512 names of 24 bytes.
fn longest_names() -> Vec<String> {
    (0..512).map(|i| format!("{}{i:03}", "n".repeat(21))).collect()
}

#[test]
fn the_longest_value_sheet_is_printed_whole() {
    // 512 facts.
    let names = longest_names();
    let input: String = names.iter().map(|name| format!("{name}\n")).collect();
    let expected: String = names.iter().map(|name| format!("{name}\tt\n")).collect();
    assert_eq!(expected.len(), 13_824);
    assert_eq!(output(input.as_bytes()), expected.into_bytes());
}

#[test]
fn so_is_the_longest_one_of_names_that_stand_only_in_bodies() {
    // One head, and the others in eight groups.
    let names = longest_names();
    let groups: Vec<String> = names[1..].chunks(64).map(|group| group.join(" ")).collect();
    let input = format!("{}\t{}\n", names[0], groups.join("\t"));
    let expected: String = names.iter().map(|name| format!("{name}\tu\n")).collect();
    assert_eq!(expected.len(), 13_824);
    assert_eq!(output(input.as_bytes()), expected.into_bytes());
}

#[test]
fn a_name_that_heads_no_rule_is_printed_as_u() {
    assert_eq!(output(b"p\tq -r\n"), b"p\tu\nq\tu\nr\tu\n");
    assert_eq!(output(b"a\n-a\np\ta b\n"), b"a\ti\np\tu\nb\tu\n");
}

#[test]
fn the_program_prints_what_the_sheet_entry_answers() {
    let (mut accepted, mut refused) = (0, 0);
    for seed in 0..1500 {
        let mut chance = Chance::new(seed);
        let sheet = random::any_sheet(&mut chance);
        let (mut words, mut names, mut text) = (vec![7; 8192], vec![7; 512], vec![7; 14_000]);
        let expected = match read_sheet(&sheet, &mut words, &mut names, &mut text) {
            Ok(answer) => {
                accepted += 1;
                text[..answer.value_sheet_length as usize].to_vec()
            }
            Err(refusal) => {
                refused += 1;
                format!("refused\t{}\t{}\n", refusal.number, refusal.place).into_bytes()
            }
        };
        assert_eq!(output(&sheet), expected, "seed {seed}");
    }
    assert!(accepted > 400 && refused > 400, "{accepted} {refused}");
}
