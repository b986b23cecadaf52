//! What most cases begin with: a file, a horizon, and a schedule that was
//! good before any damage.

use super::Maker;
use crate::clauses::{formula, Formula};
use crate::damage::damaged_file;
use crate::draft::{planned, Draft, Planned, Size};
use crate::limits::MOST_HORIZON;
use crate::numbering::{words_needed, ActionNumber, FormulaVariable};
use crate::protocol::Case;
use crate::rows::bit;
use crate::schedule::way_back;
use crate::solver_lines::Rows;

pub struct Subject {
    pub file: Vec<u8>,
    pub horizon: u64,
    pub schedule: Vec<u64>,
    /// Steps and actions that a model may leave out.
    needless: Vec<(u64, usize)>,
    pub size: Size,
}

/// How many actions that do not matter, how many moves, and how many of all
/// variables are left out of a model.
const LEFT_OUT: [(usize, [usize; 3]); 7] = [
    (5, [0, 0, 0]),
    (4, [1, 0, 0]),
    (2, [3, 0, 0]),
    (1, [1, 0, 1]),
    (1, [0, 1, 0]),
    (1, [0, 0, 1]),
    (1, [0, 0, 3]),
];

/// In a hundred; the largest tasks cost the most and come least often.
const SIZES: [(usize, Size); 6] = [
    (38, Size::Tiny),
    (32, Size::Small),
    (20, Size::Medium),
    (8, Size::Large),
    (1, Size::Full),
    (1, Size::Widest),
];

impl Subject {
    /// N, where file and horizon are in order.
    pub fn highest(&self) -> Option<u64> {
        let formula = formula(&self.file, self.horizon).ok()?;
        Some(formula.counts().variables)
    }

    /// The rows of the model the schedule has, if the damage left it good.
    pub fn model_rows(&self) -> Option<(Vec<u64>, Vec<u64>)> {
        let words = words_needed(self.highest()?) as usize;
        let (mut given, mut truth) = (vec![0; words], vec![0; words]);
        let mut rows = Rows { given: &mut given, truth: &mut truth };
        way_back(&self.file, self.horizon, &self.schedule, &mut rows).ok()?;
        Some((given, truth))
    }

    /// The schedule's moves: steps from 1, and actions from 0.
    fn moves(&self) -> Vec<(u64, usize)> {
        let entries = (1..).zip(&self.schedule).filter(|&(_, &entry)| entry > 0);
        entries.map(|(step, &entry)| (step, entry as usize - 1)).collect()
    }
}

/// The formula variables of actions at steps, as far as a damage left them in
/// the formula.
fn action_variables(formula: &Formula, actions: &[(u64, usize)]) -> Vec<FormulaVariable> {
    let number = |&(step, a)| formula.numbering.action_at(ActionNumber(a), step);
    let highest = formula.counts().variables;
    actions.iter().map(number).filter(|variable| variable.0 <= highest).collect()
}

impl Maker {
    /// Variables to be left out of a subject's model.
    pub fn left_out(&mut self, subject: &Subject) -> Vec<FormulaVariable> {
        let Ok(formula) = formula(&subject.file, subject.horizon) else {
            return Vec::new();
        };
        let needless = action_variables(&formula, &subject.needless);
        let moves = action_variables(&formula, &subject.moves());
        let all = (1..=formula.counts().variables).map(FormulaVariable).collect();
        let counts = self.random.weighted(&LEFT_OUT);
        let mut left_out = Vec::new();
        for (variables, count) in [needless, moves, all].iter().zip(counts) {
            if !variables.is_empty() {
                left_out.extend((0..count).map(|_| self.random.pick(variables)));
            }
        }
        left_out
    }

    /// The model of a subject, if it has one, some variables left out: the
    /// value of each variable that is named.
    pub fn model(&mut self, subject: &Subject) -> Option<Vec<Option<bool>>> {
        let (_, truth) = subject.model_rows()?;
        let value = |variable| Some(bit(&truth, FormulaVariable(variable)));
        let mut model: Vec<_> = (1..=subject.highest()?).map(value).collect();
        for variable in self.left_out(subject) {
            model[variable.0 as usize - 1] = None;
        }
        Some(model)
    }

    pub fn size(&mut self) -> Size {
        self.random.weighted(&SIZES)
    }

    fn good_horizon(&mut self) -> usize {
        const SHORT: usize = 6;
        const LONGEST: usize = MOST_HORIZON as usize;
        let ranges = [(5, (0, SHORT)), (4, (0, LONGEST)), (1, (LONGEST, LONGEST))];
        let (shortest, longest) = self.random.weighted(&ranges);
        self.random.between(shortest, longest)
    }

    fn odd_horizon(&mut self, good: u64) -> u64 {
        let byte = u64::from(self.random.byte());
        let (disguised, wide) = (self.disguised(good), self.wide());
        self.random.pick(&[MOST_HORIZON + 1, MOST_HORIZON, byte, byte, disguised, wide])
    }

    pub fn subject(&mut self) -> Subject {
        let size = self.size();
        self.subject_of(size)
    }

    /// A subject, its goal, file or horizon changed now and then.
    pub fn subject_of(&mut self, size: Size) -> Subject {
        const DAMAGED_ONCE_IN: usize = 6;
        const OTHER_GOAL_ONCE_IN: usize = 8;
        let good = self.good_horizon();
        let Planned { mut draft, schedule, needless } = planned(&mut self.random, size, good);
        if self.random.once_in(OTHER_GOAL_ONCE_IN) {
            self.change_goal(&mut draft);
        }
        let file = match self.random.once_in(DAMAGED_ONCE_IN) {
            true => damaged_file(&mut self.random, &draft),
            false => draft.file(),
        };
        let horizon = match self.random.once_in(DAMAGED_ONCE_IN) {
            true => self.odd_horizon(good as u64),
            false => good as u64,
        };
        Subject { file, horizon, schedule, needless, size }
    }

    /// Another value for one goal pair, which the schedule may not reach.
    fn change_goal(&mut self, draft: &mut Draft) {
        if draft.goal.is_empty() {
            return;
        }
        let index = self.random.below(draft.goal.len());
        let pair = &mut draft.goal[index];
        let size = draft.domains[usize::from(pair.0)];
        pair.1 = self.random.below(size.into()) as u8;
    }

    pub fn put_subject(&mut self, case: &mut Case) -> Option<Formula> {
        let subject = self.subject();
        case.file = subject.file;
        case.horizon = subject.horizon;
        formula(&case.file, case.horizon).ok()
    }
}
