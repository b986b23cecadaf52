//! The answer to a case: the call it names is made on its lent memory.

use crate::checker::end;
use crate::clauses::{clause, counts};
use crate::numbering::Literal;
use crate::programs::{clauses_program, model_program};
use crate::protocol::*;
use crate::refusal::{Answer, Refusal};
use crate::schedule::{walk, way_back};
use crate::solver_lines::*;
use crate::task_file::{body, judge, judge_contents};
use crate::text::{clause_text, header_text, many_lines};
use std::io::{self, Write};

/// The four numbers of an answer; 0 wherever a call has nothing to say.
#[derive(Clone, Copy, Debug, Default, PartialEq, Eq)]
pub struct Reply {
    pub number: u64,
    pub detail: u64,
    pub first: u64,
    pub second: u64,
}

const PHASES: [Phase; 5] =
    [Phase::NoStatus, Phase::SatisfiableOpen, Phase::Closed, Phase::Unsatisfiable, Phase::Unknown];

pub fn phase_number(phase: Phase) -> u64 {
    PHASES.iter().position(|&other| other == phase).map_or(0, |index| index as u64)
}

/// Any number is a phase: those not in use stand for no status.
pub fn phase_of(number: u64) -> Phase {
    let index = usize::try_from(number).unwrap_or(usize::MAX);
    PHASES.get(index).copied().unwrap_or(Phase::NoStatus)
}

/// Makes the call. The programs lend nothing and only print.
pub fn reply(case: &mut Case) -> Reply {
    match case.kind {
        Kind::Judge => {
            spoken(judge(&case.file), |task| (task.variables() as u64, task.actions.len() as u64))
        }
        Kind::Body => reply_body(case),
        Kind::Counts => {
            spoken(counts(&case.file, case.horizon), |counts| (counts.variables, counts.clauses))
        }
        Kind::Clause => reply_clause(case),
        Kind::HeaderText | Kind::ClauseText | Kind::ManyLines => reply_text(case),
        Kind::Start | Kind::Line | Kind::FoldLines | Kind::Output => reply_reading(case),
        Kind::End => reply_end(case),
        Kind::WayBack => reply_way_back(case),
        Kind::Walk => spoken(walk(&case.file, case.horizon, &case.entries), |_| (0, 0)),
        Kind::ClausesProgram | Kind::ModelProgram => Reply::default(),
    }
}

fn refused(refusal: Refusal) -> Reply {
    Reply { number: refusal.number, detail: refusal.detail, ..Reply::default() }
}

fn spoken<T>(answer: Answer<T>, numbers: impl Fn(T) -> (u64, u64)) -> Reply {
    match answer {
        Ok(found) => {
            let (first, second) = numbers(found);
            Reply { first, second, ..Reply::default() }
        }
        Err(refusal) => refused(refusal),
    }
}

/// Two questions in one case: the stretch stands beside the refusal.
fn reply_body(case: &Case) -> Reply {
    let stretch = body(&case.file, case.asked);
    let applies = spoken(judge_contents(&case.file), |()| (0, 0));
    Reply { first: stretch.start as u64, second: stretch.end as u64, ..applies }
}

fn reply_clause(case: &mut Case) -> Reply {
    let mut room: Vec<Literal> = case.literals.iter().map(|&word| word as Literal).collect();
    let length = clause(&case.file, case.horizon, case.asked, &mut room);
    case.literals = room.iter().map(|&literal| literal as u64).collect();
    spoken(length, |length| (length as u64, 0))
}

fn reply_text(case: &mut Case) -> Reply {
    let (file, horizon, room) = (&case.file, case.horizon, &mut case.room);
    let length = |length| (length as u64, 0);
    match case.kind {
        Kind::HeaderText => spoken(header_text(file, horizon, room), length),
        Kind::ClauseText => spoken(clause_text(file, horizon, case.asked, room), length),
        _ => spoken(many_lines(file, horizon, case.asked, room), |filled| {
            (filled.lines as u64, filled.bytes as u64)
        }),
    }
}

fn state_of(case: &Case) -> ReadingState {
    ReadingState { highest: case.highest, phase: phase_of(case.phase) }
}

fn reply_reading(case: &mut Case) -> Reply {
    let state = state_of(case);
    let mut rows = Rows { given: &mut case.given, truth: &mut case.truth };
    let next = match case.kind {
        Kind::Start => start(&case.file, case.horizon, &mut rows),
        Kind::Line => read_line(state, &case.text, &mut rows),
        Kind::FoldLines => return reply_fold(fold_lines(state, &case.text, &mut rows)),
        _ => read_output(state, &case.text, &mut rows),
    };
    spoken(next, |state| (state.highest, phase_number(state.phase)))
}

/// A fold says how far it came, refused or not.
fn reply_fold(fold: Fold) -> Reply {
    let outcome = fold.refusal.map_or(Reply::default(), refused);
    Reply { first: fold.lines_taken as u64, second: phase_number(fold.state.phase), ..outcome }
}

fn reply_end(case: &mut Case) -> Reply {
    let state = state_of(case);
    let rows = (&case.given[..], &case.truth[..]);
    spoken(end(&case.file, case.horizon, state, rows, &mut case.entries), |()| (0, 0))
}

fn reply_way_back(case: &mut Case) -> Reply {
    let mut rows = Rows { given: &mut case.given, truth: &mut case.truth };
    spoken(way_back(&case.file, case.horizon, &case.entries, &mut rows), |()| (0, 0))
}

/// Makes the call and writes its answer.
pub fn write_answer(case: &mut Case, out: &mut dyn Write) -> io::Result<()> {
    let reply = reply(case);
    for number in [reply.number, reply.detail, reply.first, reply.second] {
        write_number(out, number)?;
    }
    write_lent(out, case)?;
    write_printed(case, out)?;
    // No line is empty, since each has its LF: a length of 0 ends the lines.
    write_number(out, 0)
}

fn write_printed(case: &Case, out: &mut dyn Write) -> io::Result<()> {
    let mut outcome = Ok(());
    let mut print = |line: &[u8]| {
        if outcome.is_ok() {
            outcome = write_bytes(out, line);
        }
    };
    match case.kind {
        Kind::ClausesProgram => clauses_program(&case.text, &mut print),
        Kind::ModelProgram => model_program(&case.text, &mut print),
        _ => {}
    }
    outcome
}
