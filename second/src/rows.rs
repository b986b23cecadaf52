//! Lent rows of bits: 64 to a word from the lowest bit up, variable 1 first.

use crate::limits::WORD_BITS;
use crate::numbering::{words_needed, FormulaVariable};
use crate::refusal::*;

fn position(variable: FormulaVariable) -> (usize, u64) {
    let index = variable.0 - 1;
    ((index / WORD_BITS) as usize, index % WORD_BITS)
}

pub fn bit(row: &[u64], variable: FormulaVariable) -> bool {
    let (word, place) = position(variable);
    row[word] >> place & 1 == 1
}

pub fn set_bit(row: &mut [u64], variable: FormulaVariable, value: bool) {
    let (word, place) = position(variable);
    row[word] = row[word] & !(1 << place) | u64::from(value) << place;
}

/// Refusal 10 if a row is shorter than N variables need.
pub fn judge_row(row: &[u64], highest: u64) -> Answer<()> {
    if (row.len() as u64) < words_needed(highest) {
        return refuse(ROOM, NO_DETAIL);
    }
    Ok(())
}

/// Sets every word needed to 0; the words behind are left alone.
pub fn clear(row: &mut [u64], highest: u64) {
    row[..words_needed(highest) as usize].fill(0);
}
