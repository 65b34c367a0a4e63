//! A sheet read with any way to look a name up: yardsticks of speed, and indexes that are wrong on purpose.

use second::reader::{Reader, Reading, Role};
use second::refusal::*;

/// Which earlier name is equal to one.
pub trait Lookup<'a> {
    fn number(&mut self, sheet: &'a [u8], entries: &[u32], name: &'a [u8]) -> Option<usize>;
    fn note(&mut self, name: &'a [u8], number: usize);
}

/// The words and name entries of a sheet within the limits of its bytes; N and the words filled.
pub fn read<'a>(mut lookup: impl Lookup<'a>, sheet: &'a [u8], words: &mut [u16], names: &mut [u32]) -> Result<(usize, usize), Refusal> {
    let mut heads = [false; 1024];
    let (mut n, mut filled, mut line, mut rule, mut group) = (0, 0, 0, 0, 0);
    let mut reader = Reader::new(sheet);
    loop {
        let literal = match reader.next_reading() {
            Reading::End => return Ok((n, filled)),
            Reading::Refused(refusal) => return Err(refusal),
            Reading::Literal(literal) => literal,
        };
        let (start, length, place) = (literal.name_place as usize, literal.name_length as usize, literal.place() as usize);
        let name = &sheet[start..start + length];
        let number = match lookup.number(sheet, &names[..n], name) {
            Some(number) => number,
            None if n == 512 => return refuse(NAME_513, start),
            None => {
                names[n] = (32 * start + length) as u32;
                lookup.note(name, n);
                n += 1;
                n - 1
            }
        };
        let code = 2 * number + literal.negated as usize;
        if literal.role == Role::Head && heads[code] {
            return refuse(SECOND_RULE_FOR_HEAD, place);
        }
        let (count, more) = match literal.role {
            Role::Head => (0, 3),
            Role::First => (words[rule + 2], 2),
            Role::Further => (words[group], 1),
        };
        if count == 64 {
            return refuse(GROUP_OR_LITERAL_65, place);
        }
        if filled + more > MOST_WORDS {
            return refuse(WORDS_PASS_8192, place);
        }
        match literal.role {
            Role::Head => {
                heads[code] = true;
                line += 1;
                rule = filled;
                words[rule] = code as u16;
                words[rule + 1] = line;
            }
            Role::First => {
                words[rule + 2] += 1;
                group = filled;
                words[group] = 1;
                words[group + 1] = code as u16;
            }
            Role::Further => {
                words[group] += 1;
                words[filled] = code as u16;
            }
        }
        filled += more;
    }
}
