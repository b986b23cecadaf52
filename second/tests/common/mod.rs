//! What the tests share: the folder example and short ways to ask.
#![allow(dead_code)]

pub mod texts;

use second::checker::end;
use second::draft::{file_of, Draft, DraftAction, DraftPair};
use second::numbering::words_needed;
use second::programs::{clauses_program, model_program};
use second::refusal::{Answer, Refusal};
use second::schedule::way_back;
use second::solver_lines::*;

const FOLDER_HEX: &str = "10 00 02 00 12 00 02 00 14 00 02 00 16 00 10 00 \
    02 02 00 00 01 01 01 01 00 00 00 01 02 02 00 01 01 00 00 00 01 01";

pub fn folder() -> Vec<u8> {
    let byte = |word| u8::from_str_radix(word, 16).expect("two hex digits");
    FOLDER_HEX.split_whitespace().map(byte).collect()
}

pub fn refused<T>(number: u64, detail: u64) -> Answer<T> {
    Err(Refusal { number, detail })
}

pub fn action(preconditions: &[DraftPair], effects: &[DraftPair]) -> DraftAction {
    DraftAction { preconditions: preconditions.to_vec(), effects: effects.to_vec() }
}

/// A draft whose start is 0 everywhere.
pub fn draft_of(domains: &[u8], goal: &[DraftPair], actions: &[DraftAction]) -> Draft {
    Draft {
        domains: domains.to_vec(),
        start: vec![0; domains.len()],
        goal: goal.to_vec(),
        actions: actions.to_vec(),
    }
}

/// A file of four bodies with contents that fit them.
pub fn file_with(bodies: [&[u8]; 4]) -> Vec<u8> {
    file_of(&bodies.map(|body| body.to_vec()))
}

/// Sixteen bytes of contents, rows given as start and length.
pub fn contents(rows: [(u16, u16); 4]) -> Vec<u8> {
    rows.iter()
        .flat_map(|(start, length)| [start.to_le_bytes(), length.to_le_bytes()].concat())
        .collect()
}

pub fn bits(variables: &[u64]) -> Vec<u64> {
    let highest = variables.iter().copied().max().unwrap_or(1);
    let mut row = vec![0; words_needed(highest) as usize];
    for variable in variables {
        row[(variable - 1) as usize / 64] |= 1 << ((variable - 1) % 64);
    }
    row
}

pub fn state(highest: u64, phase: Phase) -> ReadingState {
    ReadingState { highest, phase }
}

/// One line after the given phase of a reading with nothing given yet; rows
/// for as many variables as fit two words.
pub fn line_at(phase: Phase, highest: u64, line: &[u8]) -> Answer<Phase> {
    let (mut given, mut truth) = ([0; 2], [0; 2]);
    let mut rows = Rows { given: &mut given, truth: &mut truth };
    read_line(state(highest, phase), line, &mut rows).map(|next| next.phase)
}

/// A line after SATISFIABLE at the folder example's N for k = 1.
pub fn open_line(line: &[u8]) -> Answer<Phase> {
    line_at(Phase::SatisfiableOpen, 10, line)
}

pub fn first_line(line: &[u8]) -> Answer<Phase> {
    line_at(Phase::NoStatus, 10, line)
}

/// The end on rows that give the variables up to the highest.
pub fn end_with(
    file: &[u8],
    k: u64,
    phase: Phase,
    highest: u64,
    truth: &[u64],
) -> Answer<Vec<u64>> {
    let given = bits(&(1..=highest).collect::<Vec<u64>>());
    let mut entries = vec![0; k as usize];
    end(file, k, state(highest, phase), (&given, truth), &mut entries)?;
    Ok(entries)
}

/// The given and the true row of a schedule, written over old bits.
pub fn model_of(
    file: &[u8],
    k: u64,
    entries: &[u64],
    words: usize,
) -> Answer<(Vec<u64>, Vec<u64>)> {
    let (mut given, mut truth) = (vec![u64::MAX; words], vec![u64::MAX; words]);
    let mut rows = Rows { given: &mut given, truth: &mut truth };
    way_back(file, k, entries, &mut rows)?;
    Ok((given, truth))
}

pub fn printed_clauses(input: &[u8]) -> String {
    printed(clauses_program, input)
}

pub fn printed_schedule(input: &[u8]) -> String {
    printed(model_program, input)
}

type Program = fn(&[u8], &mut dyn FnMut(&[u8]));

fn printed(program: Program, input: &[u8]) -> String {
    String::from_utf8(printed_bytes(program, input)).expect("the programs print ASCII")
}

pub fn printed_bytes(program: Program, input: &[u8]) -> Vec<u8> {
    let mut out = Vec::new();
    program(input, &mut |line| out.extend(line));
    out
}

/// The model program's input.
pub fn model_input(horizon: u8, file: &[u8], output: &str) -> Vec<u8> {
    let length = (file.len() as u16).to_le_bytes();
    [&[horizon][..], &length, file, output.as_bytes()].concat()
}
