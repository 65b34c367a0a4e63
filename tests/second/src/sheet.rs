//! Rule sheet, the entry that reads a whole sheet, and the value sheet.

use std::collections::{BTreeMap, BTreeSet};

use crate::model;
use crate::reader::{Reader, Reading, Role, SheetLiteral};
use crate::refusal::*;
use crate::table::{self, Literal, Record, Rule};
use crate::truth;

/// What an accepted sheet answers.
#[derive(Clone, Copy, Debug, PartialEq, Eq)]
pub struct Accepted {
    pub n: u64,
    pub words_filled: u64,
    pub value_sheet_length: u64,
}

/// Where an atom's name first appears, without "-".
#[derive(Clone, Copy, Debug, PartialEq, Eq)]
pub struct Name {
    pub start: usize,
    pub length: usize,
}

impl Name {
    pub fn entry(&self) -> u32 {
        (32 * self.start + self.length) as u32
    }

    pub fn of<'a>(&self, sheet: &'a [u8]) -> &'a [u8] {
        &sheet[self.start..self.start + self.length]
    }
}

/// The records of a sheet, each with the line of its head, and the names of its atoms in atom order.
#[derive(Clone, Debug, PartialEq, Eq, Default)]
pub struct Contents {
    pub records: Vec<Record>,
    pub names: Vec<Name>,
}

impl Contents {
    pub fn rules(&self) -> Vec<Rule> {
        self.records.iter().map(|record| record.rule.clone()).collect()
    }
}

/// The sheet entry: fills the buffers and the text room. 8, 9, literals, 15.
///
/// Entries past what is filled are zero, all of them after a refusal; the text room is altered only by the value sheet.
pub fn read_sheet(
    sheet: &[u8],
    words: &mut [u16],
    names: &mut [u32],
    text: &mut [u8],
) -> Result<Accepted, Refusal> {
    words.fill(0);
    names.fill(0);
    if sheet.len() > MOST_SHEET_BYTES {
        return refuse(SHEET_ABOVE_65536, 0);
    }
    if words.len() < MOST_WORDS || names.len() < MOST_ATOMS as usize {
        return refuse(BUFFER_TOO_SMALL, 0);
    }
    let contents = contents(sheet)?;
    let lines = value_sheet(sheet, &contents);
    if lines.len() > text.len() {
        return refuse(TEXT_ROOM_TOO_SMALL, lines.len());
    }
    let filled = table::encode(&contents.records);
    words[..filled.len()].copy_from_slice(&filled);
    for (entry, name) in names.iter_mut().zip(&contents.names) {
        *entry = name.entry();
    }
    text[..lines.len()].copy_from_slice(&lines);
    Ok(Accepted {
        n: contents.names.len() as u64,
        words_filled: filled.len() as u64,
        value_sheet_length: lines.len() as u64,
    })
}

/// The records and names of a sheet, or the first literal with a fault.
pub fn contents(sheet: &[u8]) -> Result<Contents, Refusal> {
    let mut gathered = Gathered::default();
    let mut reader = Reader::new(sheet);
    loop {
        match reader.next_reading() {
            Reading::End => return Ok(gathered.contents),
            Reading::Refused(refusal) => return Err(refusal),
            Reading::Literal(literal) => gathered.take(sheet, literal)?,
        }
    }
}

/// What has been read of a sheet so far.
#[derive(Default)]
struct Gathered<'a> {
    contents: Contents,
    numbers: BTreeMap<&'a [u8], usize>,
    heads: BTreeSet<Literal>,
    words: usize,
}

impl<'a> Gathered<'a> {
    /// Takes one literal: 12, 7, 13, 14.
    fn take(&mut self, sheet: &'a [u8], read: SheetLiteral) -> Result<(), Refusal> {
        let place = read.place() as usize;
        let literal = 2 * self.atom(sheet, read)? + read.negated as usize;
        match read.role {
            Role::Head => {
                if !self.heads.insert(literal) {
                    return refuse(SECOND_RULE_FOR_HEAD, place);
                }
                self.count_words(3, place)?;
                self.contents.records.push(Record {
                    line: line_of(sheet, place),
                    rule: Rule {
                        head: literal,
                        groups: Vec::new(),
                    },
                });
            }
            Role::First => {
                if self.groups().len() == MOST_GROUPS {
                    return refuse(GROUP_OR_LITERAL_65, place);
                }
                self.count_words(2, place)?;
                self.groups().push(vec![literal]);
            }
            Role::Further => {
                if self.group().len() == MOST_LITERALS {
                    return refuse(GROUP_OR_LITERAL_65, place);
                }
                self.count_words(1, place)?;
                self.group().push(literal);
            }
        }
        Ok(())
    }

    /// The number of the literal's atom, a new one at a first appearance.
    fn atom(&mut self, sheet: &'a [u8], read: SheetLiteral) -> Result<usize, Refusal> {
        let name = Name {
            start: read.name_place as usize,
            length: read.name_length as usize,
        };
        if let Some(&number) = self.numbers.get(name.of(sheet)) {
            return Ok(number);
        }
        let number = self.contents.names.len();
        if number as u64 == MOST_ATOMS {
            return refuse(NAME_513, name.start);
        }
        self.numbers.insert(name.of(sheet), number);
        self.contents.names.push(name);
        Ok(number)
    }

    fn count_words(&mut self, more: usize, place: usize) -> Result<(), Refusal> {
        self.words += more;
        if self.words > MOST_WORDS { refuse(WORDS_PASS_8192, place) } else { Ok(()) }
    }

    /// The groups of the last rule; a group is read only after a head.
    fn groups(&mut self) -> &mut Vec<Vec<Literal>> {
        &mut self.contents.records.last_mut().expect("a head stands before each group").rule.groups
    }

    /// The last group; a further literal is read only after a first one.
    fn group(&mut self) -> &mut Vec<Literal> {
        self.groups().last_mut().expect("a first literal stands before each further one")
    }
}

/// The line in which a byte of a sheet stands, from 1.
pub fn line_of(sheet: &[u8], place: usize) -> usize {
    1 + sheet[..place].iter().filter(|&&byte| byte == b'\n').count()
}

/// One line for each atom, in atom order: its name, tab, the letter of its value, byte 10.
fn value_sheet(sheet: &[u8], contents: &Contents) -> Vec<u8> {
    let n = contents.names.len() as u64;
    let rules = contents.rules();
    let values = model::values_of(&rules, &model::settle(n, &rules));
    let mut lines = Vec::new();
    for (name, value) in contents.names.iter().zip(values) {
        lines.extend_from_slice(name.of(sheet));
        lines.extend_from_slice(&[b'\t', truth::letter(value), b'\n']);
    }
    lines
}
