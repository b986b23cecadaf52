//! A reading of solver output: its state, one line, and many lines.

use crate::clauses::formula;
use crate::limits::*;
use crate::numbering::FormulaVariable;
use crate::refusal::*;
use crate::rows::*;

#[derive(Clone, Copy, Debug, PartialEq, Eq)]
pub enum Phase {
    NoStatus,
    SatisfiableOpen,
    Closed,
    Unsatisfiable,
    Unknown,
}

#[derive(Clone, Copy, Debug, PartialEq, Eq)]
pub struct ReadingState {
    /// N, the highest variable a number may name.
    pub highest: u64,
    pub phase: Phase,
}

/// The two lent rows: which variables were given and which are true.
pub struct Rows<'a> {
    pub given: &'a mut [u64],
    pub truth: &'a mut [u64],
}

impl Rows<'_> {
    pub fn judge(&self, highest: u64) -> Answer<()> {
        judge_row(self.given, highest)?;
        judge_row(self.truth, highest)
    }

    /// Storing a variable writes both its bits.
    pub fn store(&mut self, variable: FormulaVariable, value: bool) {
        set_bit(self.given, variable, true);
        set_bit(self.truth, variable, value);
    }
}

const STATUS_LINES: [(&[u8], Phase); 3] = [
    (b"s SATISFIABLE", Phase::SatisfiableOpen),
    (b"s UNSATISFIABLE", Phase::Unsatisfiable),
    (b"s UNKNOWN", Phase::Unknown),
];

/// The start of a reading, refusals 1 to 8 and 10.
pub fn start(file: &[u8], horizon: u64, rows: &mut Rows) -> Answer<ReadingState> {
    let highest = formula(file, horizon)?.counts().variables;
    rows.judge(highest)?;
    clear(rows.given, highest);
    clear(rows.truth, highest);
    Ok(ReadingState { highest, phase: Phase::NoStatus })
}

/// One line without its LF, refusals 10 to 14.
pub fn read_line(state: ReadingState, line: &[u8], rows: &mut Rows) -> Answer<ReadingState> {
    rows.judge(state.highest)?;
    if line.len() > LONGEST_LINE {
        return refuse_at(LINE_GRAMMAR, LONGEST_LINE);
    }
    let phase = match line.first() {
        Some(b'c') => judge_comment(line).map(|()| state.phase),
        Some(b's') => status_line(state.phase, line),
        Some(b'v') => value_line(state, line, rows),
        _ => refuse(LINE_GRAMMAR, NO_DETAIL),
    }?;
    Ok(ReadingState { phase, ..state })
}

fn judge_comment(line: &[u8]) -> Answer<()> {
    match line.get(1) {
        None | Some(b' ') => Ok(()),
        Some(_) => refuse(LINE_GRAMMAR, 1),
    }
}

fn status_line(phase: Phase, line: &[u8]) -> Answer<Phase> {
    if phase != Phase::NoStatus {
        return refuse(OUT_OF_PLACE, NO_DETAIL);
    }
    for (words, next) in STATUS_LINES {
        if line == words {
            return Ok(next);
        }
    }
    // The line goes on as long as some status line begins with it so far.
    let begun = |words: &[u8]| words.iter().zip(line).take_while(|(a, b)| a == b).count();
    let furthest = STATUS_LINES.iter().map(|(words, _)| begun(words)).max();
    refuse_at(LINE_GRAMMAR, furthest.unwrap_or(0))
}

fn value_line(state: ReadingState, line: &[u8], rows: &mut Rows) -> Answer<Phase> {
    if state.phase != Phase::SatisfiableOpen {
        return refuse(OUT_OF_PLACE, NO_DETAIL);
    }
    let (numbers, fault) = scan_numbers(line);
    // A number that was followed by a space stands left of any later fault.
    judge_numbers(&numbers, state.highest, rows.given)?;
    if let Some(position) = fault {
        return refuse_at(LINE_GRAMMAR, position);
    }
    let mut phase = Phase::SatisfiableOpen;
    for number in numbers {
        match number.variable {
            Some(variable) => rows.store(variable, number.value),
            None => phase = Phase::Closed,
        }
    }
    Ok(phase)
}

/// A number of a line that a space or the line's end follows.
struct Number {
    first_byte: usize,
    /// None is the closing 0.
    variable: Option<FormulaVariable>,
    value: bool,
}

/// The numbers of a "v" line, up to the first byte against the grammar if any.
fn scan_numbers(line: &[u8]) -> (Vec<Number>, Option<usize>) {
    let mut numbers = Vec::new();
    let mut position = 1;
    while position < line.len() {
        if line[position] != b' ' {
            return (numbers, Some(position));
        }
        position += 1;
        // Behind a space stands another space, a number or the line's end.
        if position == line.len() || line[position] == b' ' {
            continue;
        }
        let length = match number_length(&line[position..]) {
            Ok(length) => length,
            Err(wrong) => return (numbers, Some(position + wrong)),
        };
        numbers.push(number(&line[position..position + length], position));
        position += length;
    }
    (numbers, None)
}

/// The length of the number at the front of a part that a space or the end
/// follows, or the first byte that cannot continue it.
fn number_length(part: &[u8]) -> Result<usize, usize> {
    let digits_from = usize::from(part[0] == b'-');
    let length = match part.get(digits_from) {
        Some(b'0') if digits_from == 0 => 1,
        Some(b'1'..=b'9') => {
            let digits = part[digits_from..].iter().take_while(|byte| byte.is_ascii_digit());
            digits_from + digits.count().min(MOST_DIGITS)
        }
        _ => return Err(digits_from),
    };
    match part.get(length) {
        None | Some(b' ') => Ok(length),
        Some(_) => Err(length),
    }
}

fn number(bytes: &[u8], first_byte: usize) -> Number {
    const TEN: u64 = 10;
    let mut variable = 0;
    for &byte in bytes.iter().filter(|&&byte| byte != b'-') {
        variable = variable * TEN + u64::from(byte - b'0');
    }
    Number {
        first_byte,
        variable: (variable != 0).then_some(FormulaVariable(variable)),
        value: bytes[0] != b'-',
    }
}

/// Refusals 12, 13 and 14 in that order at each number, leftmost number first.
fn judge_numbers(numbers: &[Number], highest: u64, given: &[u64]) -> Answer<()> {
    let mut closed = false;
    let mut earlier: Vec<FormulaVariable> = Vec::new();
    for number in numbers {
        if closed {
            return refuse_at(OUT_OF_PLACE, number.first_byte);
        }
        let Some(variable) = number.variable else {
            closed = true;
            continue;
        };
        if variable.0 > highest {
            return refuse_at(VARIABLE_OVER, number.first_byte);
        }
        if bit(given, variable) || earlier.contains(&variable) {
            return refuse_at(GIVEN_BEFORE, number.first_byte);
        }
        earlier.push(variable);
    }
    Ok(())
}

/// An output cut at LF: a last line without LF is a line, nothing behind a
/// last LF is none.
pub fn lines_of(output: &[u8]) -> Vec<&[u8]> {
    let mut lines: Vec<&[u8]> = output.split(|&byte| byte == b'\n').collect();
    if lines.last().is_some_and(|last| last.is_empty()) {
        lines.pop();
    }
    lines
}

/// How far a fold over lines came.
pub struct Fold {
    /// The state after the last line that was taken.
    pub state: ReadingState,
    pub lines_taken: usize,
    pub refusal: Option<Refusal>,
}

/// Reads line after line up to the first refused one. The lines before it
/// stay stored: each line is a call of its own, and no line is no call.
pub fn fold_lines(state: ReadingState, output: &[u8], rows: &mut Rows) -> Fold {
    let mut fold = Fold { state, lines_taken: 0, refusal: None };
    for line in lines_of(output) {
        match read_line(fold.state, line, rows) {
            Ok(next) => fold.state = next,
            Err(refusal) => {
                fold.refusal = Some(refusal);
                break;
            }
        }
        fold.lines_taken += 1;
    }
    fold
}

/// Reads a whole output, refusals 10 to 14: the rows are judged, then it is
/// the fold of its lines, so the lines before a refused one stay stored.
pub fn read_output(state: ReadingState, output: &[u8], rows: &mut Rows) -> Answer<ReadingState> {
    rows.judge(state.highest)?;
    let fold = fold_lines(state, output, rows);
    fold.refusal.map_or(Ok(fold.state), Err)
}
