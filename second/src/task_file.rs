//! The task file: its contents, its bodies, and the task that is read from it.

use crate::limits::*;
use crate::numbering::{Pair, StateVariable};
use crate::refusal::*;
use std::ops::Range;

#[derive(Clone, Debug, PartialEq, Eq)]
pub struct Action {
    pub preconditions: Vec<Pair>,
    pub effects: Vec<Pair>,
}

#[derive(Clone, Debug, PartialEq, Eq)]
pub struct Task {
    pub domains: Vec<usize>,
    pub start: Vec<usize>,
    pub goal: Vec<Pair>,
    pub actions: Vec<Action>,
}

impl Task {
    pub fn variables(&self) -> usize {
        self.domains.len()
    }

    /// S, the sum of all domain sizes.
    pub fn values(&self) -> usize {
        self.domains.iter().sum()
    }
}

/// Judges a whole file, refusals 1 to 7.
pub fn judge(file: &[u8]) -> Answer<Task> {
    let [sizes, start, goal, actions] = contents(file)?.map(|stretch| &file[stretch]);
    judge_lengths(sizes, start, goal)?;
    let domains = read_domains(sizes)?;
    let start = read_start(start, &domains)?;
    let goal = match read_pairs(goal, &domains) {
        Ok(pairs) => pairs,
        Err(pair) => return refuse_at(GOAL_PAIR, pair),
    };
    let actions = read_actions(actions, &domains)?;
    Ok(Task { domains, start, goal, actions })
}

/// The question which of refusals 1 and 2 applies to the contents.
pub fn judge_contents(file: &[u8]) -> Answer<()> {
    contents(file).map(|_| ())
}

/// The stretch of a body by its number from 1; empty at 0 where there is none.
pub fn body(file: &[u8], number: u64) -> Range<usize> {
    let nothing = 0..0;
    let Ok(stretches) = contents(file) else {
        return nothing;
    };
    match number {
        1 => stretches[0].clone(),
        2 => stretches[1].clone(),
        3 => stretches[2].clone(),
        4 => stretches[3].clone(),
        _ => nothing,
    }
}

fn contents(file: &[u8]) -> Answer<[Range<usize>; BODIES]> {
    if file.len() < CONTENTS_BYTES || file.len() > LONGEST_FILE {
        return refuse(FILE_LENGTH, NO_DETAIL);
    }
    let mut stretches: [Range<usize>; BODIES] = Default::default();
    let mut expected = CONTENTS_BYTES;
    for (row, bytes) in file[..CONTENTS_BYTES].chunks(ROW_BYTES).enumerate() {
        let start = usize::from(u16::from_le_bytes([bytes[0], bytes[1]]));
        let length = usize::from(u16::from_le_bytes([bytes[2], bytes[3]]));
        if start != expected {
            return refuse_at(CONTENTS_ROW, row);
        }
        stretches[row] = start..start + length;
        expected = start + length;
    }
    // Only the last end is held against the file; it counts as the last row.
    if expected != file.len() {
        return refuse_at(CONTENTS_ROW, BODIES - 1);
    }
    Ok(stretches)
}

fn judge_lengths(sizes: &[u8], start: &[u8], goal: &[u8]) -> Answer<()> {
    let variables_fit = (1..=MOST_VARIABLES).contains(&sizes.len());
    let start_fits = start.len() == sizes.len();
    let goal_fits =
        goal.len().is_multiple_of(PAIR_BYTES) && goal.len() <= MOST_GOAL_PAIRS * PAIR_BYTES;
    if variables_fit && start_fits && goal_fits {
        Ok(())
    } else {
        refuse(BODY_LENGTHS, NO_DETAIL)
    }
}

fn read_domains(sizes: &[u8]) -> Answer<Vec<usize>> {
    let domains: Vec<usize> = sizes.iter().map(|&size| usize::from(size)).collect();
    let outside = |size: &usize| !(1..=MOST_DOMAIN).contains(size);
    if let Some(variable) = domains.iter().position(outside) {
        return refuse_at(DOMAIN_SIZE, variable);
    }
    if domains.iter().sum::<usize>() > MOST_VALUES {
        return refuse_at(DOMAIN_SIZE, domains.len());
    }
    Ok(domains)
}

fn read_start(values: &[u8], domains: &[usize]) -> Answer<Vec<usize>> {
    let start: Vec<usize> = values.iter().map(|&value| usize::from(value)).collect();
    match (0..domains.len()).find(|&x| start[x] >= domains[x]) {
        Some(variable) => refuse_at(START_VALUE, variable),
        None => Ok(start),
    }
}

/// The pairs of a list, or the number of the first pair at fault.
fn read_pairs(bytes: &[u8], domains: &[usize]) -> Result<Vec<Pair>, usize> {
    let mut pairs: Vec<Pair> = Vec::new();
    for (number, two) in bytes.chunks(PAIR_BYTES).enumerate() {
        let (variable, value) = (usize::from(two[0]), usize::from(two[1]));
        // The variable is tested before its domain is looked up.
        let inside = variable < domains.len() && value < domains[variable];
        let rising = pairs.last().is_none_or(|before| before.variable.0 < variable);
        if !inside || !rising {
            return Err(number);
        }
        pairs.push(Pair { variable: StateVariable(variable), value });
    }
    Ok(pairs)
}

fn read_actions(body: &[u8], domains: &[usize]) -> Answer<Vec<Action>> {
    let mut actions = Vec::new();
    let mut rest = body;
    while !rest.is_empty() {
        if actions.len() == MOST_ACTIONS {
            return refuse_at(ACTION, MOST_ACTIONS);
        }
        let Some((action, length)) = read_action(rest, domains) else {
            return refuse_at(ACTION, actions.len());
        };
        actions.push(action);
        rest = &rest[length..];
    }
    Ok(actions)
}

/// The action at the front of a part and its length; none if it is at fault.
fn read_action(part: &[u8], domains: &[usize]) -> Option<(Action, usize)> {
    let head = part.get(..ACTION_HEAD_BYTES)?;
    let (p, e) = (usize::from(head[0]), usize::from(head[1]));
    if p > MOST_LIST || e > MOST_LIST {
        return None;
    }
    let effects_from = ACTION_HEAD_BYTES + p * PAIR_BYTES;
    let length = effects_from + e * PAIR_BYTES;
    let whole = part.get(..length)?;
    let preconditions = read_pairs(&whole[ACTION_HEAD_BYTES..effects_from], domains).ok()?;
    let effects = read_pairs(&whole[effects_from..], domains).ok()?;
    Some((Action { preconditions, effects }, length))
}
