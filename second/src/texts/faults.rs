//! Numbers at the limits and beyond them, for refusals 3 to 7: lines stay in
//! order, and what is wrong is the task.

use super::draft::*;
use crate::limits::*;
use crate::random::Random;

type Fault = fn(&mut Random, &mut TextDraft);

const FAULTS: [(usize, Fault); 17] = [
    (3, variable_count),
    (3, wrong_range),
    (3, sum_of_ranges),
    (3, wrong_start),
    (3, goal_pair_outside),
    (4, goal_variable_twice),
    (2, goal_count),
    (6, operator_number_beyond),
    (4, old_value_beyond),
    (2, prevail_twice),
    (2, effect_twice),
    (3, prevail_and_old_value),
    (3, precondition_count),
    (3, effect_count),
    (1, list_of_hundreds),
    (2, operator_count),
    (1, range_behind_two_bytes),
];

/// Counts that only fit a text of megabytes.
const FAR_FAULTS: [(usize, Fault); 4] =
    [(1, far_variable_count), (1, far_range), (1, far_goal_count), (1, far_operator_count)];

/// What one byte or two bytes would cut off.
const BYTE_VALUES: usize = 1 << u8::BITS;
const TWO_BYTE_VALUES: usize = 1 << u16::BITS;

/// How many faults a draft gets; of several the earlier must be found.
const FAULT_COUNTS: [(usize, usize); 3] = [(5, 1), (2, 2), (1, 3)];

pub fn put_faults(random: &mut Random, draft: &mut TextDraft) {
    for _ in 0..random.weighted(&FAULT_COUNTS) {
        random.weighted(&FAULTS)(random, draft);
    }
}

pub fn put_far_fault(random: &mut Random, draft: &mut TextDraft) {
    random.weighted(&FAR_FAULTS)(random, draft);
}

/// A number not below the limit; some would pass for the good one if they
/// were cut off to bytes.
fn beyond(random: &mut Random, limit: usize, good: usize) -> usize {
    let next = limit + random.below(3);
    let (byte, two_bytes) = (BYTE_VALUES + good, TWO_BYTE_VALUES + good);
    let far = random.pick(&[BYTE_VALUES - 1, BYTE_VALUES, TWO_BYTE_VALUES, LARGEST]);
    random.weighted(&[(3, limit), (1, next), (4, byte), (1, two_bytes), (1, far)])
}

fn any_variable(random: &mut Random, draft: &TextDraft) -> Option<usize> {
    (!draft.ranges.is_empty()).then(|| random.below(draft.ranges.len()))
}

/// A pair inside, where there is a variable with values.
fn any_pair(random: &mut Random, draft: &TextDraft) -> NumberPair {
    let variable = any_variable(random, draft).unwrap_or(0);
    let range = draft.ranges.get(variable).copied().unwrap_or(0);
    (variable, random.below(range.max(1)))
}

fn pair_outside(random: &mut Random, draft: &TextDraft, pair: NumberPair) -> NumberPair {
    if random.coin() {
        return (beyond(random, draft.ranges.len(), pair.0), pair.1);
    }
    (pair.0, value_beyond(random, draft, pair))
}

fn value_beyond(random: &mut Random, draft: &TextDraft, pair: NumberPair) -> usize {
    let range = draft.ranges.get(pair.0).copied().unwrap_or(0);
    beyond(random, range, pair.1)
}

/// The same variable again, with the same value, another or one outside.
fn same_variable(random: &mut Random, draft: &TextDraft, pair: NumberPair) -> NumberPair {
    let outside = value_beyond(random, draft, pair);
    (pair.0, random.weighted(&[(2, pair.1), (1, 0), (2, pair.1 + 1), (1, outside)]))
}

fn insert_anywhere<T>(random: &mut Random, items: &mut Vec<T>, item: T) {
    let place = random.between(0, items.len());
    items.insert(place, item);
}

fn variable_count(random: &mut Random, draft: &mut TextDraft) {
    const COUNTS: [usize; 8] =
        [0, MOST_VARIABLES - 1, MOST_VARIABLES, MOST_VARIABLES + 1, 255, 256, 257, 352];
    let count = random.pick(&COUNTS);
    draft.grow(count);
    if count == 0 {
        draft.ranges.clear();
        draft.start.clear();
    }
}

fn wrong_range(random: &mut Random, draft: &mut TextDraft) {
    let Some(variable) = any_variable(random, draft) else {
        return;
    };
    let good = draft.ranges[variable];
    let ranges =
        [0, 0, MOST_DOMAIN, MOST_DOMAIN + 1, BYTE_VALUES - 1, BYTE_VALUES, BYTE_VALUES + good];
    draft.ranges[variable] = random.pick(&ranges);
}

fn range_behind_two_bytes(random: &mut Random, draft: &mut TextDraft) {
    if let Some(variable) = any_variable(random, draft) {
        draft.ranges[variable] += TWO_BYTE_VALUES;
    }
}

/// Every range in order and S at its bound or just above.
fn sum_of_ranges(random: &mut Random, draft: &mut TextDraft) {
    const FEWEST: usize = MOST_VALUES / MOST_DOMAIN + 1;
    const SUMS: [usize; 4] = [MOST_VALUES, MOST_VALUES, MOST_VALUES + 1, MOST_VALUES + 8];
    let variables = random.between(FEWEST, MOST_VARIABLES);
    let wanted = random.pick(&SUMS);
    draft.grow(variables);
    let mut sum: usize = draft.ranges.iter().sum();
    while sum < wanted {
        let open = |&variable: &usize| draft.ranges[variable] < MOST_DOMAIN;
        let open: Vec<usize> = (0..draft.ranges.len()).filter(open).collect();
        let variable = random.pick(&open);
        let more = random.between(1, (MOST_DOMAIN - draft.ranges[variable]).min(wanted - sum));
        draft.ranges[variable] += more;
        sum += more;
    }
}

fn wrong_start(random: &mut Random, draft: &mut TextDraft) {
    if let Some(variable) = any_variable(random, draft) {
        let good = draft.start[variable];
        draft.start[variable] = beyond(random, draft.ranges[variable], good);
    }
}

fn goal_pair_outside(random: &mut Random, draft: &mut TextDraft) {
    let good = any_pair(random, draft);
    let pair = pair_outside(random, draft, good);
    let named = |other: &NumberPair| other.0 == good.0;
    match draft.goal.iter().position(named) {
        Some(place) => draft.goal[place] = pair,
        None => insert_anywhere(random, &mut draft.goal, pair),
    }
}

fn goal_variable_twice(random: &mut Random, draft: &mut TextDraft) {
    if draft.goal.is_empty() || random.coin() {
        let pair = any_pair(random, draft);
        insert_anywhere(random, &mut draft.goal, pair);
    }
    let pair = random.pick(&draft.goal);
    let again = same_variable(random, draft, pair);
    insert_anywhere(random, &mut draft.goal, again);
}

/// As many pairs as wanted: each variable once, in any order, then again.
fn goal_count(random: &mut Random, draft: &mut TextDraft) {
    const COUNTS: [usize; 8] = [
        MOST_GOAL_PAIRS - 1,
        MOST_GOAL_PAIRS,
        MOST_GOAL_PAIRS,
        MOST_GOAL_PAIRS + 1,
        192,
        256,
        257,
        352,
    ];
    if random.coin() {
        draft.grow(MOST_VARIABLES);
    }
    let count = random.pick(&COUNTS);
    fill_goal(random, draft, count);
}

fn fill_goal(random: &mut Random, draft: &mut TextDraft, count: usize) {
    let mut variables: Vec<usize> = (0..draft.ranges.len().max(1)).collect();
    random.shuffle(&mut variables);
    draft.goal = variables.iter().cycle().take(count).map(|&variable| (variable, 0)).collect();
}

/// An operator to be damaged; an empty one is added where there is none.
fn any_operator(random: &mut Random, draft: &mut TextDraft) -> usize {
    if draft.operators.is_empty() {
        draft.operators.push(OperatorDraft::default());
    }
    random.below(draft.operators.len())
}

fn operator_number_beyond(random: &mut Random, draft: &mut TextDraft) {
    let number = any_operator(random, draft);
    number_beyond(random, draft, number);
}

/// One number of an operator beyond its limit, all others as they were.
fn number_beyond(random: &mut Random, draft: &mut TextDraft, number: usize) {
    let prevail = draft.operators[number].prevail.len();
    let place = random.below(prevail + 1);
    if place < prevail {
        let pair = draft.operators[number].prevail[place];
        draft.operators[number].prevail[place] = pair_outside(random, draft, pair);
        return;
    }
    let place = any_effect(random, draft, number);
    let effect = draft.operators[number].effects[place];
    let (variable, new) = pair_outside(random, draft, (effect.variable, effect.new));
    draft.operators[number].effects[place] = EffectDraft { variable, new, ..effect };
}

/// Old values that bytes could take for -1 or for one in the domain.
fn old_value_beyond(random: &mut Random, draft: &mut TextDraft) {
    const ALL_ONES: [usize; 2] = [BYTE_VALUES - 1, TWO_BYTE_VALUES - 1];
    let number = any_operator(random, draft);
    let place = any_effect(random, draft, number);
    let effect = draft.operators[number].effects[place];
    let old = value_beyond(random, draft, (effect.variable, effect.old.unwrap_or(0)));
    let old = random.pick(&[old, old, ALL_ONES[0], ALL_ONES[1]]);
    draft.operators[number].effects[place].old = Some(old);
}

fn prevail_twice(random: &mut Random, draft: &mut TextDraft) {
    let number = any_operator(random, draft);
    if draft.operators[number].prevail.is_empty() {
        let pair = any_pair(random, draft);
        draft.operators[number].prevail.push(pair);
    }
    let pair = random.pick(&draft.operators[number].prevail);
    let again = same_variable(random, draft, pair);
    insert_anywhere(random, &mut draft.operators[number].prevail, again);
}

/// An effect of the operator, made where there is none.
fn any_effect(random: &mut Random, draft: &mut TextDraft, number: usize) -> usize {
    if draft.operators[number].effects.is_empty() {
        let (variable, new) = any_pair(random, draft);
        draft.operators[number].effects.push(EffectDraft { variable, old: None, new });
    }
    random.below(draft.operators[number].effects.len())
}

fn effect_twice(random: &mut Random, draft: &mut TextDraft) {
    let number = any_operator(random, draft);
    let place = any_effect(random, draft, number);
    let effect = draft.operators[number].effects[place];
    let (variable, new) = same_variable(random, draft, (effect.variable, effect.new));
    let old = effect.old.filter(|_| random.coin());
    let again = EffectDraft { variable, old, new };
    insert_anywhere(random, &mut draft.operators[number].effects, again);
}

/// A prevail condition on a variable that an old value names too, or, which
/// is no fault, on one whose old value is -1.
fn prevail_and_old_value(random: &mut Random, draft: &mut TextDraft) {
    const NO_OLD_ONCE_IN: usize = 4;
    let number = any_operator(random, draft);
    let place = any_effect(random, draft, number);
    let effect = draft.operators[number].effects[place];
    let old = effect.old.unwrap_or(effect.new);
    let prevail = same_variable(random, draft, (effect.variable, old));
    let operator = &mut draft.operators[number];
    operator.effects[place].old = (!random.once_in(NO_OLD_ONCE_IN)).then_some(old);
    insert_anywhere(random, &mut operator.prevail, prevail);
}

/// So many different variables in any order, each with its first value.
fn different_pairs(random: &mut Random, draft: &mut TextDraft, count: usize) -> Vec<NumberPair> {
    draft.grow(count);
    let mut variables: Vec<usize> = (0..draft.ranges.len()).collect();
    random.shuffle(&mut variables);
    variables.iter().take(count).map(|&variable| (variable, 0)).collect()
}

/// 8 or 9 preconditions, some of them old values.
fn precondition_count(random: &mut Random, draft: &mut TextDraft) {
    let number = any_operator(random, draft);
    let count = random.pick(&[MOST_LIST, MOST_LIST, MOST_LIST + 1, MOST_LIST + 2]);
    let pairs = different_pairs(random, draft, count);
    let prevail = random.between(count.saturating_sub(MOST_LIST), count);
    let effect =
        |&(variable, value): &NumberPair| EffectDraft { variable, old: Some(value), new: 0 };
    let operator = &mut draft.operators[number];
    operator.prevail = pairs[..prevail].to_vec();
    operator.effects = pairs[prevail..].iter().map(effect).collect();
}

/// 8 or 9 effects, with old values or without.
fn effect_count(random: &mut Random, draft: &mut TextDraft) {
    let number = any_operator(random, draft);
    let count = random.pick(&[MOST_LIST, MOST_LIST, MOST_LIST + 1, MOST_LIST + 2]);
    let mut effects = Vec::new();
    for (variable, new) in different_pairs(random, draft, count) {
        effects.push(EffectDraft { variable, old: random.coin().then_some(0), new });
    }
    draft.operators[number] = OperatorDraft { effects, ..OperatorDraft::default() };
}

/// Lists whose length, cut off to a byte, would be in order.
fn list_of_hundreds(random: &mut Random, draft: &mut TextDraft) {
    const COUNTS: [usize; 4] = [BYTE_VALUES - 1, BYTE_VALUES, BYTE_VALUES + 1, BYTE_VALUES + 8];
    let number = any_operator(random, draft);
    let count = random.pick(&COUNTS);
    let operator = &mut draft.operators[number];
    if random.coin() {
        operator.prevail = (0..count).map(|variable| (variable, 0)).collect();
    } else {
        let effect = |variable| EffectDraft { variable, old: None, new: 0 };
        operator.effects = (0..count).map(effect).collect();
    }
}

/// About as many operators as are allowed, now and then one of them, or the
/// last, at fault.
fn operator_count(random: &mut Random, draft: &mut TextDraft) {
    const COUNTS: [usize; 6] =
        [MOST_ACTIONS - 1, MOST_ACTIONS, MOST_ACTIONS + 1, MOST_ACTIONS + 2, 600, 768];
    let count = random.pick(&COUNTS);
    draft.operators.resize(count, OperatorDraft::default());
    let any = random.below(count);
    let at_fault = random.weighted(&[(2, None), (1, Some(any)), (1, Some(count - 1))]);
    if let Some(number) = at_fault {
        number_beyond(random, draft, number);
    }
}

fn far_variable_count(random: &mut Random, draft: &mut TextDraft) {
    let good = random.between(1, MOST_VARIABLES);
    draft.grow(TWO_BYTE_VALUES + good);
}

fn far_range(random: &mut Random, draft: &mut TextDraft) {
    if let Some(variable) = any_variable(random, draft) {
        draft.ranges[variable] = random.pick(&[TWO_BYTE_VALUES + 1, LARGEST]);
    }
}

fn far_goal_count(random: &mut Random, draft: &mut TextDraft) {
    fill_goal(random, draft, TWO_BYTE_VALUES + 1);
}

fn far_operator_count(_: &mut Random, draft: &mut TextDraft) {
    draft.operators.resize(TWO_BYTE_VALUES + 1, OperatorDraft::default());
}
