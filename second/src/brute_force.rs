//! Brute force on small tasks: every assignment of the N variables against
//! every schedule, and every model that leaves variables out against its
//! completion. Goodness and the existence of plans are worked out here a
//! second time, on the task alone.

use crate::checker::end;
use crate::clauses::{counts, formula, Formula};
use crate::draft::{draft, planned, Size};
use crate::numbering::{variable_of, FormulaVariable, Pair};
use crate::random::Random;
use crate::refusal::*;
use crate::rows::bit;
use crate::schedule::way_back;
use crate::solver_lines::{Phase, ReadingState, Rows};
use crate::task_file::{Action, Task};
use std::collections::{BTreeMap, BTreeSet};

/// Assignments are counted through, so there must be few variables.
pub const MOST_FORMULA_VARIABLES: u64 = 20;
/// A variable that may also be left out has three ways to be, not two.
const MOST_TO_LEAVE_OUT: u64 = 10;

type Schedule = Vec<u64>;

/// What was found to pair off.
#[derive(Clone, Debug, PartialEq, Eq)]
pub struct Found {
    pub assignments: u64,
    /// Accepted models that leave variables out; not looked for, and 0, where
    /// there are many variables.
    pub partial: u64,
    pub schedules: BTreeSet<Schedule>,
}

struct Case<'a> {
    file: &'a [u8],
    formula: Formula,
    highest: u64,
    /// A row of one word with its N lowest bits set.
    all_named: u64,
    /// Of each clause, the variables it wants true and those it wants false.
    wishes: Vec<(u64, u64)>,
}

/// Holds every assignment against every schedule; the text says what differs.
pub fn pair_off(file: &[u8], horizon: u64) -> Result<Found, String> {
    let formula = formula(file, horizon).map_err(|refusal| format!("{refusal:?}"))?;
    let highest = formula.counts().variables;
    if highest > MOST_FORMULA_VARIABLES {
        return Err(format!("{highest} variables are too many"));
    }
    let wishes = wishes(&formula)?;
    let all_named = (1 << highest) - 1;
    let case = Case { file, formula, highest, all_named, wishes };
    let (assignments, read) = case.every_assignment()?;
    let schedules = case.every_schedule()?;
    if read != schedules {
        return Err(format!("read {read:?} but good are {schedules:?}"));
    }
    if assignments != schedules.len() as u64 {
        return Err(format!("{assignments} assignments share {} schedules", schedules.len()));
    }
    if plan_exists(&case.formula.task, horizon) == schedules.is_empty() {
        return Err("a plan exists exactly where no schedule is good".into());
    }
    let partial = case.every_partial_model()?;
    Ok(Found { assignments, partial, schedules })
}

/// A random task at a horizon that leaves so few variables, paired off.
pub fn pair_off_any(random: &mut Random, most_variables: u64) -> Result<Found, String> {
    const LONGEST: usize = 4;
    loop {
        let horizon = random.between(0, LONGEST);
        // A planned draft has a good schedule; another draft may have none.
        let file = match random.coin() {
            true => planned(random, Size::Tiny, horizon).draft.file(),
            false => draft(random, Size::Tiny).file(),
        };
        let counted = counts(&file, horizon as u64);
        if counted.is_ok_and(|counts| counts.variables <= most_variables) {
            return pair_off(&file, horizon as u64);
        }
    }
}

fn wishes(formula: &Formula) -> Result<Vec<(u64, u64)>, String> {
    let mut wishes = Vec::new();
    for number in 0..formula.counts().clauses {
        let clause = formula.clause(number).ok_or("a clause below C is missing")?;
        let (mut yes, mut no) = (0, 0);
        for (variable, wanted) in clause.into_iter().map(variable_of) {
            let place: u64 = 1 << (variable.0 - 1);
            *(if wanted { &mut yes } else { &mut no }) |= place;
        }
        wishes.push((yes, no));
    }
    Ok(wishes)
}

impl Case<'_> {
    /// How many assignments make every clause true, and their schedules.
    fn every_assignment(&self) -> Result<(u64, BTreeSet<Schedule>), String> {
        let mut count = 0;
        let mut schedules = BTreeSet::new();
        for assignment in 0..=self.all_named {
            let lowest_false = self.lowest_not_satisfied(self.all_named, assignment);
            match (lowest_false, self.read(self.all_named, assignment)) {
                (None, Ok(schedule)) => {
                    if self.model(&schedule) != Ok((self.all_named, assignment)) {
                        return Err(format!("{schedule:?} has not the model {assignment:b}"));
                    }
                    schedules.insert(schedule);
                    count += 1;
                }
                (Some(number), Err(Refusal { number: NO_TRUE_LITERAL, detail }))
                    if detail == number as u64 => {}
                (wanted, got) => {
                    return Err(format!("{assignment:b}: clause {wanted:?} against {got:?}"));
                }
            }
        }
        Ok((count, schedules))
    }

    /// The lowest clause without a true literal among those named.
    fn lowest_not_satisfied(&self, named: u64, truth: u64) -> Option<usize> {
        let holds = |&(yes, no): &(u64, u64)| named & (truth & yes | !truth & no) != 0;
        self.wishes.iter().position(|wish| !holds(wish))
    }

    /// How many models are accepted that leave variables out, which must be as
    /// many as the task alone allows.
    fn every_partial_model(&self) -> Result<u64, String> {
        if self.highest > MOST_TO_LEAVE_OUT {
            return Ok(0);
        }
        let mut accepted = 0;
        for named in 0..self.all_named {
            for truth in (0..=named).filter(|truth| truth & !named == 0) {
                accepted += u64::from(self.is_accepted(named, truth)?);
            }
        }
        let allowed = count_partial(&self.formula.task, self.formula.horizon);
        match accepted == allowed {
            true => Ok(accepted),
            false => Err(format!("{accepted} models leave variables out, {allowed} may")),
        }
    }

    /// Whether a model is accepted, which then has its completion's schedule.
    /// True bits of variables that are left out must not count.
    fn is_accepted(&self, named: u64, truth: u64) -> Result<bool, String> {
        let wanted = match self.lowest_not_satisfied(named, truth) {
            Some(number) => refuse_at(NO_TRUE_LITERAL, number),
            None => self.read(self.all_named, truth),
        };
        for row in [truth, truth | !named] {
            let got = self.read(named, row);
            if got != wanted {
                return Err(format!("{named:b}, {row:b}: {wanted:?} against {got:?}"));
            }
        }
        Ok(wanted.is_ok())
    }

    /// Every schedule that is good, each turned into a model and read back.
    fn every_schedule(&self) -> Result<BTreeSet<Schedule>, String> {
        let task = &self.formula.task;
        let mut good = BTreeSet::new();
        for schedule in all_schedules(task.actions.len() as u64, self.formula.horizon) {
            match (is_good(task, &schedule), self.model(&schedule)) {
                (true, Ok((_, model))) => {
                    if self.read(self.all_named, model).as_ref() != Ok(&schedule) {
                        return Err(format!("the model of {schedule:?} reads otherwise"));
                    }
                    good.insert(schedule);
                }
                (false, Err(_)) => {}
                (wanted, got) => {
                    return Err(format!("{schedule:?}: good is {wanted}, the way back {got:?}"));
                }
            }
        }
        Ok(good)
    }

    fn read(&self, named: u64, truth: u64) -> Answer<Schedule> {
        let state = ReadingState { highest: self.highest, phase: Phase::Closed };
        let rows = (&[named][..], &[truth][..]);
        let mut entries = vec![0; self.formula.horizon as usize];
        end(self.file, self.formula.horizon, state, rows, &mut entries)?;
        Ok(entries)
    }

    /// The given and the true row that the way back writes over old bits.
    fn model(&self, schedule: &[u64]) -> Answer<(u64, u64)> {
        let (mut given, mut truth) = ([u64::MAX], [u64::MAX]);
        let mut rows = Rows { given: &mut given, truth: &mut truth };
        way_back(self.file, self.formula.horizon, schedule, &mut rows)?;
        Ok((given[0], truth[0]))
    }
}

/// All (A+1)^k schedules, counted up like numbers.
pub fn all_schedules(actions: u64, horizon: u64) -> Vec<Schedule> {
    let mut schedules = vec![Vec::new()];
    for _ in 0..horizon {
        let longer = |schedule: &Schedule| {
            let schedule = schedule.clone();
            (0..=actions).map(move |entry| [schedule.clone(), vec![entry]].concat())
        };
        schedules = schedules.iter().flat_map(longer).collect();
    }
    schedules
}

fn all_hold(pairs: &[Pair], state: &[usize]) -> bool {
    pairs.iter().all(|pair| state[pair.variable.0] == pair.value)
}

fn after(action: &Action, state: &[usize]) -> Option<Vec<usize>> {
    if !all_hold(&action.preconditions, state) {
        return None;
    }
    let set = |x| action.effects.iter().find(|pair| pair.variable.0 == x);
    let value = |(x, &before)| set(x).map_or(before, |pair| pair.value);
    Some(state.iter().enumerate().map(value).collect())
}

/// The definition of a good schedule, read off the rules once more.
pub fn is_good(task: &Task, schedule: &[u64]) -> bool {
    let mut state = task.start.clone();
    for &entry in schedule {
        if entry == 0 {
            continue;
        }
        match after(&task.actions[entry as usize - 1], &state) {
            Some(next) => state = next,
            None => return false,
        }
    }
    all_hold(&task.goal, &state)
}

/// How many schedules are good.
pub fn count_good(task: &Task, horizon: u64) -> u64 {
    count_ways(task, horizon, |_| 1)
}

/// How many accepted models leave variables out: of the good schedules' models
/// those that leave out, at an empty step, one action that would change nothing.
pub fn count_partial(task: &Task, horizon: u64) -> u64 {
    let keeps = |state: &[usize]| {
        task.actions.iter().filter(|action| after(action, state).as_deref() == Some(state)).count()
    };
    count_ways(task, horizon, |state| 1 + keeps(state) as u64) - count_good(task, horizon)
}

/// In how many ways the goal is reached: those to each state, step by step, an
/// empty step counted in as many ways as its state has for it.
fn count_ways(task: &Task, horizon: u64, to_stay: impl Fn(&[usize]) -> u64) -> u64 {
    let mut ways = BTreeMap::from([(task.start.clone(), 1)]);
    for _ in 0..horizon {
        let mut next = ways.clone();
        next.iter_mut().for_each(|(state, count)| *count *= to_stay(state));
        for (state, count) in &ways {
            for reached in task.actions.iter().filter_map(|action| after(action, state)) {
                *next.entry(reached).or_default() += count;
            }
        }
        ways = next;
    }
    ways.iter().filter(|(state, _)| all_hold(&task.goal, state)).map(|(_, count)| count).sum()
}

/// Whether at most so many moves can reach the goal: states by layers.
pub fn plan_exists(task: &Task, moves: u64) -> bool {
    let mut reached = BTreeSet::from([task.start.clone()]);
    for _ in 0..moves {
        let next = |state: &Vec<usize>| {
            task.actions.iter().filter_map(|action| after(action, state)).collect::<Vec<_>>()
        };
        let further: Vec<Vec<usize>> = reached.iter().flat_map(next).collect();
        reached.extend(further);
    }
    reached.iter().any(|state| all_hold(&task.goal, state))
}

/// The formula variables an assignment makes true, for tables and messages.
pub fn true_numbers(truth: &[u64], highest: u64) -> Vec<u64> {
    (1..=highest).filter(|&v| bit(truth, FormulaVariable(v))).collect()
}
