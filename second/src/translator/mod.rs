//! The text that the Fast Downward translator writes, format version 3, made
//! into a task file.

mod judge;
mod line_kind;
mod reader;

pub use line_kind::{LineKind, LINE_KINDS};
pub use reader::{read_text, LineFault, Operator, TextEffect, TextPair, TextTask};

use crate::refusal::{store, Answer};

/// The file of a text, refusals 30 to 32, then 3 to 7.
pub fn translate(text: &[u8]) -> Answer<Vec<u8>> {
    let task = read_text(text).map_err(|fault| fault.refusal)?;
    judge::task_file(&task)
}

/// The same into lent room, then 10; how many bytes were written.
pub fn translate_into(text: &[u8], room: &mut [u8]) -> Answer<usize> {
    let file = translate(text)?;
    store(room, &file)?;
    Ok(file.len())
}
