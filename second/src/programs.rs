//! What the programs print for any input, a line or a whole file at a call of
//! `print`.

use crate::checker::{end, EMPTY_STEP};
use crate::clauses::formula;
use crate::numbering::words_needed;
use crate::refusal::{Answer, Refusal};
use crate::solver_lines::{read_output, start, Rows};
use crate::text::{clause_line, header_line};
use crate::translator::translate;

/// The file's length takes two bytes behind the horizon.
const LENGTH_FROM: usize = 1;
const FILE_FROM: usize = 3;

/// The clause program: a horizon byte, then the file.
pub fn clauses_program(input: &[u8], print: &mut dyn FnMut(&[u8])) {
    let file = input.get(1..).unwrap_or(&[]);
    let formula = match formula(file, u64::from(byte(input, 0))) {
        Ok(formula) => formula,
        Err(refusal) => return print(&refusal_line(refusal)),
    };
    print(&header_line(formula.counts()));
    for clause in formula.every_clause() {
        print(&clause_line(&clause));
    }
}

/// The model program: horizon, file length, file and solver lines.
pub fn model_program(input: &[u8], print: &mut dyn FnMut(&[u8])) {
    let length = u16::from_le_bytes([byte(input, LENGTH_FROM), byte(input, LENGTH_FROM + 1)]);
    let behind = input.get(FILE_FROM..).unwrap_or(&[]);
    let (file, output) = behind.split_at(behind.len().min(usize::from(length)));
    match schedule(file, u64::from(byte(input, 0)), output) {
        Ok(entries) => {
            for entry in entries {
                print(format!("{entry}\n").as_bytes());
            }
        }
        Err(refusal) => print(&refusal_line(refusal)),
    }
}

/// The translate program: a translator's text becomes the file's bytes.
pub fn translate_program(input: &[u8], print: &mut dyn FnMut(&[u8])) {
    match translate(input) {
        Ok(file) => print(&file),
        Err(refusal) => print(&refusal_line(refusal)),
    }
}

/// Missing bytes of horizon and length read as 0.
fn byte(input: &[u8], position: usize) -> u8 {
    input.get(position).copied().unwrap_or(0)
}

fn schedule(file: &[u8], horizon: u64, output: &[u8]) -> Answer<Vec<u64>> {
    let highest = formula(file, horizon)?.counts().variables;
    let words = words_needed(highest) as usize;
    let (mut given, mut truth) = (vec![0; words], vec![0; words]);
    let mut rows = Rows { given: &mut given, truth: &mut truth };
    let begun = start(file, horizon, &mut rows)?;
    let state = read_output(begun, output, &mut rows)?;
    let mut entries = vec![EMPTY_STEP; horizon as usize];
    end(file, horizon, state, (&given, &truth), &mut entries)?;
    Ok(entries)
}

fn refusal_line(refusal: Refusal) -> Vec<u8> {
    format!("refused {} {}\n", refusal.number, refusal.detail).into_bytes()
}
