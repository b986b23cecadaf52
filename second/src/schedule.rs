//! A schedule is walked from the start, and a good one becomes a model.

use crate::checker::EMPTY_STEP;
use crate::clauses::{formula, Formula};
use crate::limits::MOST_VARIABLES;
use crate::numbering::*;
use crate::refusal::*;
use crate::rows::*;
use crate::solver_lines::Rows;
use crate::task_file::{Action, Task};

/// The state of a walk: one record, values from n on stay 0.
pub type Record = [usize; MOST_VARIABLES];

/// Walks a lent schedule, refusals 1 to 8, 10, and 20 to 22; the answer is
/// the record at the end.
pub fn walk(file: &[u8], horizon: u64, entries: &[u64]) -> Answer<Record> {
    let formula = formula(file, horizon)?;
    let moves = judge_entries(entries, horizon)?;
    let states = walk_states(&formula.task, moves)?;
    Ok(states[moves.len()])
}

/// From a good schedule to its model, refusals as for the walk. Every word
/// needed is written: all N given, the model's true ones true, the rest 0.
pub fn way_back(file: &[u8], horizon: u64, entries: &[u64], rows: &mut Rows) -> Answer<()> {
    let formula = formula(file, horizon)?;
    let highest = formula.counts().variables;
    let moves = judge_entries(entries, horizon)?;
    rows.judge(highest)?;
    let states = walk_states(&formula.task, moves)?;
    clear(rows.given, highest);
    clear(rows.truth, highest);
    for variable in 1..=highest {
        set_bit(rows.given, FormulaVariable(variable), true);
    }
    for variable in true_variables(&formula, &states, moves) {
        set_bit(rows.truth, variable, true);
    }
    Ok(())
}

/// The first k entries; those behind are not looked at.
fn judge_entries(entries: &[u64], horizon: u64) -> Answer<&[u64]> {
    match entries.get(..horizon as usize) {
        Some(moves) => Ok(moves),
        None => refuse(ROOM, NO_DETAIL),
    }
}

/// The records at steps 1 to k+1: 20 at any step, then 21, then 22.
fn walk_states(task: &Task, moves: &[u64]) -> Answer<Vec<Record>> {
    if let Some(over) = moves.iter().position(|&entry| entry > task.actions.len() as u64) {
        return refuse_at(ENTRY_OVER, over + 1);
    }
    let mut record = [0; MOST_VARIABLES];
    record[..task.variables()].copy_from_slice(&task.start);
    let mut states = vec![record];
    for (before, &entry) in moves.iter().enumerate() {
        if entry != EMPTY_STEP {
            let action = &task.actions[entry as usize - 1];
            if !applies(action, &record) {
                return refuse_at(NOT_APPLICABLE, before + 1);
            }
            apply(action, &mut record);
        }
        states.push(record);
    }
    match task.goal.iter().position(|&pair| !holds(pair, &record)) {
        Some(pair) => refuse_at(GOAL_UNMET, pair),
        None => Ok(states),
    }
}

fn holds(pair: Pair, record: &Record) -> bool {
    record[pair.variable.0] == pair.value
}

fn applies(action: &Action, record: &Record) -> bool {
    action.preconditions.iter().all(|&pair| holds(pair, record))
}

fn apply(action: &Action, record: &mut Record) {
    for effect in &action.effects {
        record[effect.variable.0] = effect.value;
    }
}

fn true_variables(formula: &Formula, states: &[Record], moves: &[u64]) -> Vec<FormulaVariable> {
    let mut variables = Vec::new();
    for (before, record) in states.iter().enumerate() {
        for (x, &value) in record[..formula.task.variables()].iter().enumerate() {
            let pair = Pair { variable: StateVariable(x), value };
            variables.push(formula.numbering.value_at(pair, before as u64 + 1));
        }
    }
    for (before, &entry) in moves.iter().enumerate() {
        if entry != EMPTY_STEP {
            let action = ActionNumber(entry as usize - 1);
            variables.push(formula.numbering.action_at(action, before as u64 + 1));
        }
    }
    variables
}
