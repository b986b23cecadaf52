//! Drafts of tasks before they become files, and walks through them. A draft
//! is kept apart from the reader's task, so that the generator leans on no
//! code it is to test.

use crate::limits::*;
use crate::random::Random;

pub type DraftPair = (u8, u8);

#[derive(Clone, Debug, Default)]
pub struct DraftAction {
    pub preconditions: Vec<DraftPair>,
    pub effects: Vec<DraftPair>,
}

#[derive(Clone, Debug)]
pub struct Draft {
    pub domains: Vec<u8>,
    pub start: Vec<u8>,
    pub goal: Vec<DraftPair>,
    pub actions: Vec<DraftAction>,
}

/// A draft with a schedule that was walked through it to its goal.
pub struct Planned {
    pub draft: Draft,
    pub schedule: Vec<u64>,
    /// Empty steps, from 1, each with an action, from 0, that would change
    /// nothing there.
    pub needless: Vec<(u64, usize)>,
}

pub type Bodies = [Vec<u8>; BODIES];

impl Draft {
    pub fn bodies(&self) -> Bodies {
        let mut actions = Vec::new();
        for action in &self.actions {
            actions.push(action.preconditions.len() as u8);
            actions.push(action.effects.len() as u8);
            actions.extend(pair_bytes(&action.preconditions));
            actions.extend(pair_bytes(&action.effects));
        }
        [self.domains.clone(), self.start.clone(), pair_bytes(&self.goal), actions]
    }

    pub fn file(&self) -> Vec<u8> {
        file_of(&self.bodies())
    }
}

fn pair_bytes(pairs: &[DraftPair]) -> Vec<u8> {
    pairs.iter().flat_map(|&(variable, value)| [variable, value]).collect()
}

/// Contents that fit the bodies, then the bodies.
pub fn file_of(bodies: &Bodies) -> Vec<u8> {
    let mut file = Vec::new();
    let mut start = CONTENTS_BYTES;
    for body in bodies {
        file.extend(low_first(start));
        file.extend(low_first(body.len()));
        start += body.len();
    }
    file.extend(bodies.concat());
    file
}

/// A file too long for two bytes is refused by its length alone, so cutting
/// the number off here changes nothing.
fn low_first(number: usize) -> [u8; 2] {
    (number as u16).to_le_bytes()
}

#[derive(Clone, Copy, Debug, PartialEq, Eq)]
pub enum Size {
    /// Small enough for brute force.
    Tiny,
    Small,
    Medium,
    /// Anything up to the limits.
    Large,
    /// A file of the greatest length: every list full, S at its bound.
    Full,
    /// The most clauses: 16 variables of 64 values and full lists.
    Widest,
}

struct Measure {
    variables: (usize, usize),
    most_domain: usize,
    actions: (usize, usize),
    most_list: usize,
}

const WIDEST_VARIABLES: usize = MOST_VALUES / MOST_DOMAIN;

const TINY: Measure = Measure { variables: (1, 3), most_domain: 3, actions: (0, 3), most_list: 2 };
const SMALL: Measure =
    Measure { variables: (1, 8), most_domain: 6, actions: (0, 10), most_list: 4 };
const MEDIUM: Measure =
    Measure { variables: (1, 32), most_domain: 24, actions: (0, 80), most_list: MOST_LIST };
const LARGE: Measure = Measure {
    variables: (1, MOST_VARIABLES),
    most_domain: MOST_DOMAIN,
    actions: (0, MOST_ACTIONS),
    most_list: MOST_LIST,
};
const FULL: Measure = Measure {
    variables: (MOST_VARIABLES, MOST_VARIABLES),
    actions: (MOST_ACTIONS, MOST_ACTIONS),
    ..LARGE
};
const WIDEST: Measure = Measure { variables: (WIDEST_VARIABLES, WIDEST_VARIABLES), ..FULL };

fn measure(size: Size) -> Measure {
    match size {
        Size::Tiny => TINY,
        Size::Small => SMALL,
        Size::Medium => MEDIUM,
        Size::Large => LARGE,
        Size::Full => FULL,
        Size::Widest => WIDEST,
    }
}

fn is_filled(size: Size) -> bool {
    matches!(size, Size::Full | Size::Widest)
}

/// A valid draft. Most preconditions are taken from a state that a walk has
/// reached, so that schedules of more than one move exist.
pub fn draft(random: &mut Random, size: Size) -> Draft {
    const MOVE_ONCE_IN: usize = 8;
    const SHARED_ONCE_IN: usize = 6;
    let measure = measure(size);
    let domains = domains(random, size, &measure);
    let start: Vec<u8> = domains.iter().map(|&d| random.below(d.into()) as u8).collect();
    let mut state = start.clone();
    let mut actions = Vec::new();
    for _ in 0..random.between(measure.actions.0, measure.actions.1) {
        let lengths = list_lengths(random, size, measure.most_list, domains.len());
        let action = DraftAction {
            preconditions: likely_pairs(random, &domains, &state, lengths.0),
            effects: any_pairs(random, &domains, lengths.1),
        };
        if random.once_in(MOVE_ONCE_IN) && applies(&action, &state) {
            apply(&action, &mut state);
        }
        actions.push(action);
    }
    if random.once_in(SHARED_ONCE_IN) {
        share_effect(random, &domains, measure.most_list, &mut actions);
    }
    let goal_length = random.between(0, domains.len());
    let goal = any_pairs(random, &domains, goal_length);
    Draft { domains, start, goal, actions }
}

/// One effect in common, so that one clause lists every action.
fn share_effect(random: &mut Random, domains: &[u8], most: usize, actions: &mut [DraftAction]) {
    let pair = any_pairs(random, domains, 1)[0];
    for DraftAction { effects, .. } in actions {
        effects.retain(|other| other.0 != pair.0);
        effects.truncate(most - 1);
        effects.push(pair);
        effects.sort_unstable();
    }
}

fn domains(random: &mut Random, size: Size, measure: &Measure) -> Vec<u8> {
    let variables = random.between(measure.variables.0, measure.variables.1);
    let mut domains: Vec<u8> =
        (0..variables).map(|_| random.between(1, measure.most_domain) as u8).collect();
    let exactly = is_filled(size) || size == Size::Large && random.coin();
    loop {
        let sum: usize = domains.iter().map(|&d| usize::from(d)).sum();
        let x = random.below(variables);
        let too_small = exactly && sum < MOST_VALUES.min(variables * MOST_DOMAIN);
        if sum > MOST_VALUES && domains[x] > 1 {
            domains[x] -= 1;
        } else if too_small && usize::from(domains[x]) < MOST_DOMAIN {
            domains[x] += 1;
        } else if sum <= MOST_VALUES && !too_small {
            return domains;
        }
    }
}

fn list_lengths(random: &mut Random, size: Size, most: usize, variables: usize) -> (usize, usize) {
    let most = most.min(variables);
    if is_filled(size) {
        return (most, most);
    }
    (random.between(0, most), random.between(0, most))
}

/// So many different variables, rising.
fn some_variables(random: &mut Random, variables: usize, count: usize) -> Vec<usize> {
    let mut all: Vec<usize> = (0..variables).collect();
    random.shuffle(&mut all);
    all.truncate(count);
    all.sort_unstable();
    all
}

fn any_pairs(random: &mut Random, domains: &[u8], count: usize) -> Vec<DraftPair> {
    let variables = some_variables(random, domains.len(), count);
    variables.iter().map(|&x| (x as u8, random.below(domains[x].into()) as u8)).collect()
}

/// Pairs that hold in the state, now and then one that may not.
fn likely_pairs(random: &mut Random, domains: &[u8], state: &[u8], count: usize) -> Vec<DraftPair> {
    const OTHER_ONCE_IN: usize = 40;
    let mut pairs = any_pairs(random, domains, count);
    for pair in &mut pairs {
        if !random.once_in(OTHER_ONCE_IN) {
            pair.1 = state[usize::from(pair.0)];
        }
    }
    pairs
}

pub fn applies(action: &DraftAction, state: &[u8]) -> bool {
    action.preconditions.iter().all(|&(x, value)| state[usize::from(x)] == value)
}

pub fn apply(action: &DraftAction, state: &mut [u8]) {
    for &(x, value) in &action.effects {
        state[usize::from(x)] = value;
    }
}

/// A draft whose goal a random walk of so many steps has reached.
pub fn planned(random: &mut Random, size: Size, horizon: usize) -> Planned {
    const EMPTY_ONCE_IN: usize = 5;
    let mut draft = draft(random, size);
    let mut state = draft.start.clone();
    let mut schedule = Vec::new();
    let mut stays = Vec::new();
    for step in 1..=horizon as u64 {
        let open = |a: &usize| applies(&draft.actions[*a], &state);
        let open: Vec<usize> = (0..draft.actions.len()).filter(open).collect();
        if open.is_empty() || random.once_in(EMPTY_ONCE_IN) {
            schedule.push(0);
            stays.push((step, state.clone()));
            continue;
        }
        let a = random.pick(&open);
        apply(&draft.actions[a], &mut state);
        schedule.push(a as u64 + 1);
    }
    let variables = draft.domains.len();
    let count = if is_filled(size) { variables } else { random.between(0, variables) };
    let goal = some_variables(random, variables, count);
    draft.goal = goal.iter().map(|&x| (x as u8, state[x])).collect();
    if random.coin() {
        make_needless(random, &mut draft, &schedule, &stays);
    }
    let needless = needless(&draft, &stays);
    Planned { draft, schedule, needless }
}

/// An empty step and the state there.
type Stay = (u64, Vec<u8>);

/// One action that is no move gets the pairs of the state at an empty step.
fn make_needless(random: &mut Random, draft: &mut Draft, schedule: &[u64], stays: &[Stay]) {
    let no_move = |a: &usize| !schedule.contains(&(*a as u64 + 1));
    let spare: Vec<usize> = (0..draft.actions.len()).filter(no_move).collect();
    if spare.is_empty() || stays.is_empty() {
        return;
    }
    let DraftAction { preconditions, effects } = &mut draft.actions[random.pick(&spare)];
    let (_, state) = &stays[random.below(stays.len())];
    for pair in preconditions.iter_mut().chain(effects) {
        pair.1 = state[usize::from(pair.0)];
    }
}

fn needless(draft: &Draft, stays: &[Stay]) -> Vec<(u64, usize)> {
    let mut needless = Vec::new();
    for (step, state) in stays {
        let holds = |&(x, value): &DraftPair| state[usize::from(x)] == value;
        for (a, action) in draft.actions.iter().enumerate() {
            if applies(action, state) && action.effects.iter().all(holds) {
                needless.push((*step, a));
            }
        }
    }
    needless
}
