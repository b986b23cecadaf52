//! The numbers of a text judged as a task, refusals 3 to 7, before any of
//! them becomes a byte; then the task file they make.

use super::reader::{Operator, TextPair, TextTask};
use crate::limits::*;
use crate::refusal::*;

/// An action's two lists in rising order.
struct SortedAction {
    preconditions: Vec<TextPair>,
    effects: Vec<TextPair>,
}

pub fn task_file(task: &TextTask) -> Answer<Vec<u8>> {
    judge_counts(task)?;
    judge_ranges(&task.ranges)?;
    judge_start(&task.start, &task.ranges)?;
    let goal = rising(task.goal.clone());
    if let Some(pair) = first_at_fault(&goal, &task.ranges) {
        return refuse_at(GOAL_PAIR, pair);
    }
    let actions: Vec<SortedAction> = task.operators.iter().map(sorted_action).collect();
    judge_actions(&actions, &task.ranges)?;
    Ok(file_bytes(&task.ranges, &task.start, &goal, &actions))
}

/// A text has as many start values as variables, and whole goal pairs.
fn judge_counts(task: &TextTask) -> Answer<()> {
    let variables_fit = (1..=MOST_VARIABLES).contains(&task.ranges.len());
    if variables_fit && task.goal.len() <= MOST_GOAL_PAIRS {
        return Ok(());
    }
    refuse(BODY_LENGTHS, NO_DETAIL)
}

fn judge_ranges(ranges: &[usize]) -> Answer<()> {
    for (variable, &range) in ranges.iter().enumerate() {
        if range == 0 || range > MOST_DOMAIN {
            return refuse_at(DOMAIN_SIZE, variable);
        }
    }
    let values: usize = ranges.iter().sum();
    if values > MOST_VALUES {
        return refuse_at(DOMAIN_SIZE, ranges.len());
    }
    Ok(())
}

fn judge_start(start: &[usize], ranges: &[usize]) -> Answer<()> {
    for (variable, (value, range)) in start.iter().zip(ranges).enumerate() {
        if value >= range {
            return refuse_at(START_VALUE, variable);
        }
    }
    Ok(())
}

/// Rising by variable, equal ones as they came: the standard sort is stable.
fn rising(mut pairs: Vec<TextPair>) -> Vec<TextPair> {
    pairs.sort_by_key(|pair| pair.variable);
    pairs
}

/// Where a sorted list has its first pair outside or not above the one before.
fn first_at_fault(pairs: &[TextPair], ranges: &[usize]) -> Option<usize> {
    (0..pairs.len()).find(|&number| {
        let pair = pairs[number];
        let inside = ranges.get(pair.variable).is_some_and(|&range| pair.value < range);
        let named_before = number > 0 && pairs[number - 1].variable == pair.variable;
        !inside || named_before
    })
}

/// Prevail conditions and old values are one list of preconditions.
fn sorted_action(operator: &Operator) -> SortedAction {
    let mut preconditions = operator.prevail.clone();
    let mut effects = Vec::new();
    for effect in &operator.effects {
        let variable = effect.variable;
        preconditions.extend(effect.old.map(|value| TextPair { variable, value }));
        effects.push(TextPair { variable, value: effect.new });
    }
    SortedAction { preconditions: rising(preconditions), effects: rising(effects) }
}

fn judge_actions(actions: &[SortedAction], ranges: &[usize]) -> Answer<()> {
    let in_order =
        |pairs: &[TextPair]| pairs.len() <= MOST_LIST && first_at_fault(pairs, ranges).is_none();
    for (number, action) in actions.iter().enumerate() {
        let allowed = number < MOST_ACTIONS;
        if !allowed || !in_order(&action.preconditions) || !in_order(&action.effects) {
            return refuse_at(ACTION, number);
        }
    }
    Ok(())
}

fn file_bytes(
    ranges: &[usize],
    start: &[usize],
    goal: &[TextPair],
    actions: &[SortedAction],
) -> Vec<u8> {
    let sizes: Vec<u8> = ranges.iter().copied().map(byte).collect();
    let start: Vec<u8> = start.iter().copied().map(byte).collect();
    let actions: Vec<u8> = actions.iter().flat_map(action_bytes).collect();
    let bodies = [sizes, start, pair_bytes(goal), actions];
    let mut file = Vec::new();
    let mut body_start = CONTENTS_BYTES;
    for body in &bodies {
        file.extend(two_bytes(body_start));
        file.extend(two_bytes(body.len()));
        body_start += body.len();
    }
    file.extend(bodies.concat());
    file
}

fn action_bytes(action: &SortedAction) -> Vec<u8> {
    let SortedAction { preconditions, effects } = action;
    let head = vec![byte(preconditions.len()), byte(effects.len())];
    [head, pair_bytes(preconditions), pair_bytes(effects)].concat()
}

fn pair_bytes(pairs: &[TextPair]) -> Vec<u8> {
    pairs.iter().flat_map(|pair| [byte(pair.variable), byte(pair.value)]).collect()
}

fn byte(number: usize) -> u8 {
    u8::try_from(number).expect("a judged number fits a byte")
}

/// Low byte first.
fn two_bytes(number: usize) -> [u8; 2] {
    u16::try_from(number).expect("a judged task's file is short").to_le_bytes()
}
