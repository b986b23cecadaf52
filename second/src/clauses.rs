//! The eight families: their counts, a clause by its number, and all clauses
//! in order. The two ways to a clause share the shapes and nothing else, so
//! that a test can hold one order against the other.

use crate::limits::*;
use crate::numbering::*;
use crate::refusal::*;
use crate::task_file::{judge, Action, Task};

pub type Clause = Vec<Literal>;

/// A valid task at a horizon in range.
pub struct Formula {
    pub task: Task,
    pub horizon: u64,
    pub numbering: Numbering,
    /// For each place, the actions with that effect, rising.
    setters: Vec<Vec<ActionNumber>>,
}

#[derive(Clone, Copy, Debug, PartialEq, Eq)]
pub struct Counts {
    pub variables: u64,
    pub clauses: u64,
}

/// Refusals 1 to 8.
pub fn formula(file: &[u8], horizon: u64) -> Answer<Formula> {
    let task = judge(file)?;
    if horizon > MOST_HORIZON {
        return refuse(HORIZON, NO_DETAIL);
    }
    let numbering = Numbering::of(&task);
    let setters = setters(&task, &numbering);
    Ok(Formula { task, horizon, numbering, setters })
}

/// N and C, refusals 1 to 8.
pub fn counts(file: &[u8], horizon: u64) -> Answer<Counts> {
    formula(file, horizon).map(|formula| formula.counts())
}

/// Clause c into lent room, refusals 1 to 10; the answer is its length.
pub fn clause(file: &[u8], horizon: u64, number: u64, room: &mut [Literal]) -> Answer<usize> {
    let clause = formula(file, horizon)?.asked_clause(number)?;
    store(room, &clause)?;
    Ok(clause.len())
}

fn setters(task: &Task, numbering: &Numbering) -> Vec<Vec<ActionNumber>> {
    let mut setters = vec![Vec::new(); task.values()];
    for (a, action) in task.actions.iter().enumerate() {
        for &effect in &action.effects {
            setters[numbering.place(effect)].push(ActionNumber(a));
        }
    }
    setters
}

/// The number of pairs a<b below a bound.
fn pairs_below(bound: usize) -> u64 {
    (bound * bound.saturating_sub(1) / 2) as u64
}

/// All pairs a<b below a bound, in order.
fn every_pair_below(bound: usize) -> impl Iterator<Item = (usize, usize)> {
    (0..bound).flat_map(move |a| (a + 1..bound).map(move |b| (a, b)))
}

/// Pair number `index` of the pairs a<b below a bound.
fn pair_below(bound: usize, index: u64) -> (usize, usize) {
    let (a, rest) = find_part(index, (0..bound).map(|a| (bound - 1 - a) as u64));
    (a, a + 1 + rest as usize)
}

/// Of parts laid end to end, the part an index falls into, and where in it.
fn find_part(index: u64, sizes: impl Iterator<Item = u64>) -> (usize, u64) {
    let mut rest = index;
    for (part, size) in sizes.enumerate() {
        if rest < size {
            return (part, rest);
        }
        rest -= size;
    }
    unreachable!("an index below the sum of the sizes falls into a part")
}

/// The shapes of the clauses, family by family.
impl Formula {
    fn start_clause(&self, x: usize) -> Clause {
        let pair = Pair { variable: StateVariable(x), value: self.task.start[x] };
        vec![self.numbering.value_at(pair, 1).yes()]
    }

    fn goal_clause(&self, pair: Pair) -> Clause {
        vec![self.numbering.value_at(pair, self.horizon + 1).yes()]
    }

    fn some_value(&self, step: u64, x: usize) -> Clause {
        let literal = |value| self.value_literal(step, x, value).yes();
        (0..self.task.domains[x]).map(literal).collect()
    }

    fn not_both_values(&self, step: u64, x: usize, v: usize, w: usize) -> Clause {
        vec![self.value_literal(step, x, v).no(), self.value_literal(step, x, w).no()]
    }

    fn needs(&self, step: u64, a: usize, precondition: Pair) -> Clause {
        let action = self.numbering.action_at(ActionNumber(a), step);
        vec![action.no(), self.numbering.value_at(precondition, step).yes()]
    }

    fn sets(&self, step: u64, a: usize, effect: Pair) -> Clause {
        let action = self.numbering.action_at(ActionNumber(a), step);
        vec![action.no(), self.numbering.value_at(effect, step + 1).yes()]
    }

    /// Nothing changes without a move; stands for a value no action sets too.
    fn no_change_alone(&self, step: u64, pair: Pair) -> Clause {
        let after = self.numbering.value_at(pair, step + 1);
        let before = self.numbering.value_at(pair, step);
        let mut clause = vec![after.no(), before.yes()];
        for &action in &self.setters[self.numbering.place(pair)] {
            clause.push(self.numbering.action_at(action, step).yes());
        }
        clause
    }

    fn not_both_actions(&self, step: u64, a: usize, b: usize) -> Clause {
        let literal = |a| self.numbering.action_at(ActionNumber(a), step).no();
        vec![literal(a), literal(b)]
    }

    fn value_literal(&self, step: u64, x: usize, value: usize) -> FormulaVariable {
        self.numbering.value_at(Pair { variable: StateVariable(x), value }, step)
    }
}

/// Counts, and a clause by its number.
impl Formula {
    pub fn counts(&self) -> Counts {
        Counts {
            variables: self.numbering.highest(self.horizon),
            clauses: self.family_counts().iter().sum(),
        }
    }

    pub fn family_counts(&self) -> [u64; FAMILIES] {
        let (task, k) = (&self.task, self.horizon);
        let n = task.variables() as u64;
        [
            n,
            task.goal.len() as u64,
            (k + 1) * n,
            (k + 1) * self.value_pairs().sum::<u64>(),
            k * list_lengths(task, preconditions).sum::<u64>(),
            k * list_lengths(task, effects).sum::<u64>(),
            k * task.values() as u64,
            k * pairs_below(task.actions.len()),
        ]
    }

    /// Clause c, or refusal 9.
    pub fn asked_clause(&self, number: u64) -> Answer<Clause> {
        match self.clause(number) {
            Some(clause) => Ok(clause),
            None => refuse(CLAUSE_NUMBER, NO_DETAIL),
        }
    }

    pub fn clause(&self, number: u64) -> Option<Clause> {
        if number >= self.counts().clauses {
            return None;
        }
        let (family, index) = find_part(number, self.family_counts().into_iter());
        Some(match family + 1 {
            1 => self.start_clause(index as usize),
            2 => self.goal_clause(self.task.goal[index as usize]),
            3 => self.some_value_by_index(index),
            4 => self.not_both_values_by_index(index),
            5 => self.needs_by_index(index),
            6 => self.sets_by_index(index),
            7 => self.no_change_by_index(index),
            _ => self.not_both_actions_by_index(index),
        })
    }

    fn value_pairs(&self) -> impl Iterator<Item = u64> + '_ {
        self.task.domains.iter().map(|&size| pairs_below(size))
    }

    fn some_value_by_index(&self, index: u64) -> Clause {
        let (step, x) = step_and_rest(index, self.task.variables() as u64);
        self.some_value(step, x as usize)
    }

    fn not_both_values_by_index(&self, index: u64) -> Clause {
        let (step, rest) = step_and_rest(index, self.value_pairs().sum());
        let (x, rest) = find_part(rest, self.value_pairs());
        let (v, w) = pair_below(self.task.domains[x], rest);
        self.not_both_values(step, x, v, w)
    }

    fn needs_by_index(&self, index: u64) -> Clause {
        let (step, a, pair) = find_listed(&self.task, preconditions, index);
        self.needs(step, a, pair)
    }

    fn sets_by_index(&self, index: u64) -> Clause {
        let (step, a, pair) = find_listed(&self.task, effects, index);
        self.sets(step, a, pair)
    }

    fn no_change_by_index(&self, index: u64) -> Clause {
        let (step, place) = step_and_rest(index, self.task.values() as u64);
        self.no_change_alone(step, self.numbering.pair_at(place as usize))
    }

    fn not_both_actions_by_index(&self, index: u64) -> Clause {
        let actions = self.task.actions.len();
        let (step, rest) = step_and_rest(index, pairs_below(actions));
        let (a, b) = pair_below(actions, rest);
        self.not_both_actions(step, a, b)
    }
}

fn preconditions(action: &Action) -> &[Pair] {
    &action.preconditions
}

fn effects(action: &Action) -> &[Pair] {
    &action.effects
}

type List = fn(&Action) -> &[Pair];

fn list_lengths(task: &Task, list: List) -> impl Iterator<Item = u64> + '_ {
    task.actions.iter().map(move |action| list(action).len() as u64)
}

/// Steps count from 1 and each holds as many clauses as the others.
fn step_and_rest(index: u64, a_step: u64) -> (u64, u64) {
    (index / a_step + 1, index % a_step)
}

/// The step, action and pair of an index into a family over listed pairs.
fn find_listed(task: &Task, list: List, index: u64) -> (u64, usize, Pair) {
    let (step, rest) = step_and_rest(index, list_lengths(task, list).sum());
    let (a, pair) = find_part(rest, list_lengths(task, list));
    (step, a, list(&task.actions[a])[pair as usize])
}

/// All clauses by plain loops, in the table's order.
impl Formula {
    pub fn every_clause(&self) -> impl Iterator<Item = Clause> + '_ {
        let variables = 0..self.task.variables();
        let family_1 = variables.map(|x| self.start_clause(x));
        let family_2 = self.task.goal.iter().map(|&pair| self.goal_clause(pair));
        family_1
            .chain(family_2)
            .chain(self.every_some_value())
            .chain(self.every_not_both_values())
            .chain(self.every_listed(preconditions, Formula::needs))
            .chain(self.every_listed(effects, Formula::sets))
            .chain(self.every_no_change())
            .chain(self.every_not_both_actions())
    }

    fn every_some_value(&self) -> impl Iterator<Item = Clause> + '_ {
        let variables = self.task.variables();
        (1..=self.horizon + 1).flat_map(move |t| (0..variables).map(move |x| self.some_value(t, x)))
    }

    fn every_not_both_values(&self) -> impl Iterator<Item = Clause> + '_ {
        let at = move |t, x: usize| {
            let pairs = every_pair_below(self.task.domains[x]);
            pairs.map(move |(v, w)| self.not_both_values(t, x, v, w))
        };
        let variables = self.task.variables();
        (1..=self.horizon + 1).flat_map(move |t| (0..variables).flat_map(move |x| at(t, x)))
    }

    fn every_listed(
        &self,
        list: List,
        shape: fn(&Formula, u64, usize, Pair) -> Clause,
    ) -> impl Iterator<Item = Clause> + '_ {
        let of_action = move |t, a: usize| {
            let pairs = list(&self.task.actions[a]).iter();
            pairs.map(move |&pair| shape(self, t, a, pair))
        };
        let actions = self.task.actions.len();
        (1..=self.horizon).flat_map(move |t| (0..actions).flat_map(move |a| of_action(t, a)))
    }

    fn every_no_change(&self) -> impl Iterator<Item = Clause> + '_ {
        let of_variable = move |t, x: usize| {
            let pair = move |value| Pair { variable: StateVariable(x), value };
            (0..self.task.domains[x]).map(move |v| self.no_change_alone(t, pair(v)))
        };
        let variables = self.task.variables();
        (1..=self.horizon).flat_map(move |t| (0..variables).flat_map(move |x| of_variable(t, x)))
    }

    fn every_not_both_actions(&self) -> impl Iterator<Item = Clause> + '_ {
        let actions = self.task.actions.len();
        (1..=self.horizon).flat_map(move |t| {
            every_pair_below(actions).map(move |(a, b)| self.not_both_actions(t, a, b))
        })
    }
}
