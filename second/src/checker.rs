//! The end of a reading: a closed model is checked, by its named literals
//! alone, and becomes a schedule.

use crate::clauses::{formula, Clause, Formula};
use crate::numbering::*;
use crate::refusal::*;
use crate::rows::*;
use crate::solver_lines::{Phase, ReadingState};

/// The entry of an empty step; action a has the entry a+1.
pub const EMPTY_STEP: u64 = 0;

/// Refusals 1 to 8 and 10, then 15, 18, 19, 15 and 17. The highest
/// variable is the task's; the one in the state is not asked.
pub fn end(
    file: &[u8],
    horizon: u64,
    state: ReadingState,
    (given, truth): (&[u64], &[u64]),
    entries: &mut [u64],
) -> Answer<()> {
    let formula = formula(file, horizon)?;
    let highest = formula.counts().variables;
    judge_row(given, highest)?;
    judge_row(truth, highest)?;
    if (entries.len() as u64) < horizon {
        return refuse(ROOM, NO_DETAIL);
    }
    judge_phase(state.phase)?;
    let value = |variable| bit(given, variable).then(|| bit(truth, variable));
    if let Some(number) = lowest_not_satisfied(&formula, value) {
        return refuse(NO_TRUE_LITERAL, number);
    }
    store(entries, &schedule_of(&formula, value))
}

fn judge_phase(phase: Phase) -> Answer<()> {
    match phase {
        Phase::NoStatus => refuse(NOT_FINISHED, NO_DETAIL),
        Phase::Unsatisfiable => refuse(SAYS_UNSATISFIABLE, NO_DETAIL),
        Phase::Unknown => refuse(SAYS_UNKNOWN, NO_DETAIL),
        Phase::SatisfiableOpen => refuse(NOT_FINISHED, NO_DETAIL),
        Phase::Closed => Ok(()),
    }
}

/// Neither literal of an unnamed variable, which has no value, is true.
fn lowest_not_satisfied(
    formula: &Formula,
    value: impl Fn(FormulaVariable) -> Option<bool>,
) -> Option<u64> {
    let holds = |literal: &Literal| {
        let (variable, wanted) = variable_of(*literal);
        value(variable) == Some(wanted)
    };
    let falls = |clause: Clause| !clause.iter().any(holds);
    formula.every_clause().position(falls).map(|number| number as u64)
}

/// The entries of a model, unnamed actions being false: family 8 leaves at
/// most one action to a step.
fn schedule_of(formula: &Formula, value: impl Fn(FormulaVariable) -> Option<bool>) -> Vec<u64> {
    let actions = formula.task.actions.len();
    let entry = |step| {
        let number = |a: usize| formula.numbering.action_at(ActionNumber(a), step);
        let moved = |&a: &usize| value(number(a)) == Some(true);
        (0..actions).find(moved).map_or(EMPTY_STEP, |a| a as u64 + 1)
    };
    (1..=formula.horizon).map(entry).collect()
}
