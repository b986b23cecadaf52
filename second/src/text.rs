//! The formula as DIMACS text, a line or a run of lines at a time.

use crate::clauses::{formula, Counts};
use crate::numbering::Literal;
use crate::refusal::*;

#[derive(Clone, Copy, Debug, PartialEq, Eq)]
pub struct Filled {
    pub lines: usize,
    pub bytes: usize,
}

/// The header's line into lent room, refusals 1 to 8 and 10.
pub fn header_text(file: &[u8], horizon: u64, room: &mut [u8]) -> Answer<usize> {
    let line = header_line(formula(file, horizon)?.counts());
    store(room, &line)?;
    Ok(line.len())
}

/// A clause's line into lent room, refusals 1 to 10.
pub fn clause_text(file: &[u8], horizon: u64, number: u64, room: &mut [u8]) -> Answer<usize> {
    let line = clause_line(&formula(file, horizon)?.asked_clause(number)?);
    store(room, &line)?;
    Ok(line.len())
}

/// As many whole lines from a clause on as fit, refusals 1 to 10.
pub fn many_lines(file: &[u8], horizon: u64, first: u64, room: &mut [u8]) -> Answer<Filled> {
    let formula = formula(file, horizon)?;
    let mut line = clause_line(&formula.asked_clause(first)?);
    let mut filled = Filled { lines: 0, bytes: 0 };
    while store(&mut room[filled.bytes..], &line).is_ok() {
        filled.bytes += line.len();
        filled.lines += 1;
        match formula.clause(first + filled.lines as u64) {
            Some(clause) => line = clause_line(&clause),
            None => return Ok(filled),
        }
    }
    if filled.lines == 0 {
        return refuse(ROOM, NO_DETAIL);
    }
    Ok(filled)
}

pub fn header_line(counts: Counts) -> Vec<u8> {
    format!("p cnf {} {}\n", counts.variables, counts.clauses).into_bytes()
}

pub fn clause_line(clause: &[Literal]) -> Vec<u8> {
    let mut line = String::new();
    for literal in clause {
        line += &format!("{literal} ");
    }
    line += "0\n";
    line.into_bytes()
}
