//! Drafts of texts: a task in numbers of any size and lists in any order,
//! kept apart from what the reader makes of a text.

use crate::draft::{Draft, DraftAction, DraftPair};
use crate::limits::*;
use crate::random::Random;

/// A variable and a value.
pub type NumberPair = (usize, usize);

#[derive(Clone, Copy, Debug)]
pub struct EffectDraft {
    pub variable: usize,
    /// None is written as -1.
    pub old: Option<usize>,
    pub new: usize,
}

#[derive(Clone, Debug, Default)]
pub struct OperatorDraft {
    pub prevail: Vec<NumberPair>,
    pub effects: Vec<EffectDraft>,
    pub cost: usize,
}

#[derive(Clone, Debug)]
pub struct TextDraft {
    pub metric: usize,
    pub ranges: Vec<usize>,
    pub mutex_groups: Vec<Vec<NumberPair>>,
    pub start: Vec<usize>,
    pub goal: Vec<NumberPair>,
    pub operators: Vec<OperatorDraft>,
}

/// The largest number of six digits.
pub const LARGEST: usize = 999_999;

impl TextDraft {
    /// A text's draft that states the task of another draft, its lists in a
    /// new order.
    pub fn of(random: &mut Random, draft: &Draft) -> TextDraft {
        let mut goal = wide(&draft.goal);
        random.shuffle(&mut goal);
        TextDraft {
            metric: random.below(2),
            ranges: draft.domains.iter().map(|&size| usize::from(size)).collect(),
            mutex_groups: mutex_groups(random),
            start: draft.start.iter().map(|&value| usize::from(value)).collect(),
            goal,
            operators: draft.actions.iter().map(|action| operator(random, action)).collect(),
        }
    }

    /// How long the file is, if the draft is a task.
    pub fn file_length(&self) -> usize {
        let pairs = |operator: &OperatorDraft| {
            let old_values = operator.effects.iter().filter(|effect| effect.old.is_some()).count();
            operator.prevail.len() + old_values + operator.effects.len()
        };
        let actions: usize =
            self.operators.iter().map(|each| ACTION_HEAD_BYTES + pairs(each) * PAIR_BYTES).sum();
        CONTENTS_BYTES
            + self.ranges.len()
            + self.start.len()
            + self.goal.len() * PAIR_BYTES
            + actions
    }

    /// At least so many variables; new ones have one value.
    pub fn grow(&mut self, variables: usize) {
        let variables = variables.max(self.ranges.len());
        self.ranges.resize(variables, 1);
        self.start.resize(variables, 0);
    }
}

fn wide(pairs: &[DraftPair]) -> Vec<NumberPair> {
    pairs.iter().map(|&(variable, value)| (variable.into(), value.into())).collect()
}

/// A precondition on a variable that the action sets may be written as an old
/// value or as a prevail condition.
fn operator(random: &mut Random, action: &DraftAction) -> OperatorDraft {
    const PREVAIL_ONCE_IN: usize = 4;
    let mut prevail = wide(&action.preconditions);
    let mut effects = Vec::new();
    for (variable, new) in wide(&action.effects) {
        let place = prevail.iter().position(|pair| pair.0 == variable);
        let place = place.filter(|_| !random.once_in(PREVAIL_ONCE_IN));
        let old = place.map(|place| prevail.remove(place).1);
        effects.push(EffectDraft { variable, old, new });
    }
    random.shuffle(&mut prevail);
    random.shuffle(&mut effects);
    OperatorDraft { prevail, effects, cost: cost(random) }
}

fn cost(random: &mut Random) -> usize {
    random.pick(&[0, 1, 1, 10, LARGEST])
}

/// Groups are held against nothing, so their pairs are any numbers and there
/// may be many.
fn mutex_groups(random: &mut Random) -> Vec<Vec<NumberPair>> {
    const FEW_GROUPS: usize = 3;
    const FEW_PAIRS: usize = 4;
    const MANY: [usize; 4] = [97, 256, 257, 600];
    const MANY_ONCE_IN: usize = 40;
    let mut groups = random.between(0, FEW_GROUPS);
    let mut most_pairs = FEW_PAIRS;
    if random.once_in(MANY_ONCE_IN) {
        let many = random.pick(&MANY);
        *(if random.coin() { &mut groups } else { &mut most_pairs }) = many;
    }
    (0..groups).map(|_| mutex_group(random, most_pairs)).collect()
}

fn mutex_group(random: &mut Random, most_pairs: usize) -> Vec<NumberPair> {
    const NUMBERS: [usize; 6] = [0, 1, 2, 63, 256, LARGEST];
    let pairs = random.between(0, most_pairs);
    (0..pairs).map(|_| (random.pick(&NUMBERS), random.pick(&NUMBERS))).collect()
}
