//! State variables, actions and formula variables are three countings. Each
//! has its own type, and only the numbering rules here lead from one to another.

use crate::limits::WORD_BITS;
use crate::task_file::Task;

#[derive(Clone, Copy, Debug, PartialEq, Eq, PartialOrd, Ord)]
pub struct StateVariable(pub usize);

#[derive(Clone, Copy, Debug, PartialEq, Eq, PartialOrd, Ord)]
pub struct ActionNumber(pub usize);

/// Counted from 1, as the formula's text has it.
#[derive(Clone, Copy, Debug, PartialEq, Eq, PartialOrd, Ord)]
pub struct FormulaVariable(pub u64);

#[derive(Clone, Copy, Debug, PartialEq, Eq)]
pub struct Pair {
    pub variable: StateVariable,
    pub value: usize,
}

/// A formula variable, or its negation as the negative number.
pub type Literal = i64;

impl FormulaVariable {
    pub fn yes(self) -> Literal {
        self.0 as Literal
    }

    pub fn no(self) -> Literal {
        -(self.0 as Literal)
    }
}

/// The variable of a literal and whether the literal wants it true.
pub fn variable_of(literal: Literal) -> (FormulaVariable, bool) {
    (FormulaVariable(literal.unsigned_abs()), literal > 0)
}

pub struct Numbering {
    /// off(x): the sum of the domain sizes of earlier variables.
    offsets: Vec<usize>,
    values: u64,
    actions: u64,
}

impl Numbering {
    pub fn of(task: &Task) -> Numbering {
        let mut offsets = Vec::new();
        let mut sum = 0;
        for size in &task.domains {
            offsets.push(sum);
            sum += size;
        }
        Numbering { offsets, values: sum as u64, actions: task.actions.len() as u64 }
    }

    /// off(x) + v, which counts all values of all variables from 0.
    pub fn place(&self, pair: Pair) -> usize {
        self.offsets[pair.variable.0] + pair.value
    }

    /// The pair whose place this is.
    pub fn pair_at(&self, place: usize) -> Pair {
        let later = self.offsets.iter().position(|&offset| offset > place);
        let variable = later.unwrap_or(self.offsets.len()) - 1;
        Pair { variable: StateVariable(variable), value: place - self.offsets[variable] }
    }

    /// Value v of x at step t, t from 1 to k+1.
    pub fn value_at(&self, pair: Pair, step: u64) -> FormulaVariable {
        FormulaVariable(self.before(step) + self.place(pair) as u64 + 1)
    }

    /// Action a at step t, t from 1 to k.
    pub fn action_at(&self, action: ActionNumber, step: u64) -> FormulaVariable {
        FormulaVariable(self.before(step) + self.values + action.0 as u64 + 1)
    }

    /// N: the last step has values and no actions.
    pub fn highest(&self, horizon: u64) -> u64 {
        self.before(horizon + 1) + self.values
    }

    fn before(&self, step: u64) -> u64 {
        (step - 1) * (self.values + self.actions)
    }
}

/// N/64 rounded up; the division cannot pass the largest number.
pub fn words_needed(highest: u64) -> u64 {
    highest.div_ceil(WORD_BITS)
}
