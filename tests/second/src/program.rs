//! The program: a sheet on standard input, the value sheet or one line of refusal on standard output.

use crate::refusal::{MOST_ATOMS, MOST_NAME_BYTES, MOST_WORDS};
use crate::sheet;

/// What the program prints for an input.
pub fn output(input: &[u8]) -> Vec<u8> {
    let mut words = vec![0; MOST_WORDS];
    let mut names = vec![0; MOST_ATOMS as usize];
    // The longest value sheet there is: each name at its longest, then tab, letter and byte 10.
    let mut text = vec![0; MOST_ATOMS as usize * (MOST_NAME_BYTES + 3)];
    match sheet::read_sheet(input, &mut words, &mut names, &mut text) {
        Ok(accepted) => {
            text.truncate(accepted.value_sheet_length as usize);
            text
        }
        Err(refusal) => format!("refused\t{}\t{}\n", refusal.number, refusal.place).into_bytes(),
    }
}
