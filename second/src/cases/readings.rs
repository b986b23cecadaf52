//! Cases about readings: their start, their lines and their end.

use super::lent::fitted;
use super::subjects::Subject;
use super::*;
use crate::limits::*;
use crate::numbering::{words_needed, FormulaVariable};
use crate::outputs::*;
use crate::rows::{bit, set_bit};

/// The lowest N for which six digits are not too many, and others as great.
const GREAT: [u64; 7] = [99_328, 131_072, 999_998, 999_999, 1_000_000, 1_000_001, u64::MAX];
/// N at the ends of words.
const NEAR_WORDS: [u64; 8] = [0, 1, 63, 64, 65, 127, 128, 129];
const ANY_PHASE: [u64; 5] = [NO_STATUS, SATISFIABLE_OPEN, CLOSED, UNSATISFIABLE, UNKNOWN];

type Spoil = fn(&mut Maker, &mut Case, FormulaVariable);

/// A reading that is not finished, leaves a variable out, or is not a model.
const SPOILS: [(usize, Spoil); 8] = [
    (2, Maker::other_phase),
    (4, Maker::take_variable),
    (6, Maker::turn_variable),
    (6, Maker::swap_neighbours),
    (4, Maker::mark_unused),
    (1, Maker::other_highest),
    (1, Maker::shorten_given),
    (1, Maker::shorten_truth),
];

impl Maker {
    pub fn fill_start(&mut self, case: &mut Case) {
        let formula = self.put_subject(case);
        let highest = formula.map_or(SOME_HIGHEST, |formula| formula.counts().variables);
        case.given = self.stale_row(highest);
        case.truth = self.stale_row(highest);
    }

    fn any_highest(&mut self) -> u64 {
        const GREAT_ONCE_IN: usize = 40;
        const SEVERAL_WORDS: usize = 500;
        let number = if self.random.once_in(GREAT_ONCE_IN) {
            let great = self.random.pick(&GREAT);
            let numbers = [(4, great), (1, self.disguised(SOME_HIGHEST)), (1, self.wide())];
            self.random.weighted(&numbers)
        } else {
            let any = self.random.below(SEVERAL_WORDS) as u64;
            let near = self.random.pick(&NEAR_WORDS);
            self.random.pick(&[SOME_HIGHEST, near, near, any])
        };
        fitted(number, self.options.number_bits)
    }

    /// A state that a caller made up, mostly open, since only then numbers
    /// are read. Few bits are given, so that some lines get through.
    fn put_state(&mut self, case: &mut Case) {
        const OTHER_ONCE_IN: usize = 4;
        const GIVEN_ONCE_IN: usize = 3;
        case.highest = self.any_highest();
        case.phase = SATISFIABLE_OPEN;
        if self.random.once_in(OTHER_ONCE_IN) {
            case.phase = self.random.pick(&ANY_PHASE);
        }
        case.given = self.stale_row(case.highest);
        case.truth = self.stale_row(case.highest);
        for word in &mut case.given {
            let few = self.random.next_word() & self.random.next_word() & self.random.next_word();
            *word &= if self.random.once_in(GIVEN_ONCE_IN) { few } else { 0 };
        }
    }

    pub fn fill_line(&mut self, case: &mut Case) {
        const FIRST_ONCE_IN: usize = 4;
        const ANYWHERE_ONCE_IN: usize = 4;
        self.put_state(case);
        if self.random.once_in(FIRST_ONCE_IN) {
            case.phase = NO_STATUS;
        }
        let anywhere = self.random.once_in(ANYWHERE_ONCE_IN);
        case.text = match case.phase {
            NO_STATUS if !anywhere => first_line(&mut self.random, case.highest),
            SATISFIABLE_OPEN if !anywhere => open_line(&mut self.random, case.highest),
            _ => any_line(&mut self.random, case.highest),
        };
    }

    pub fn fill_output(&mut self, case: &mut Case) {
        const SECOND_STATUS_ONCE_IN: usize = 12;
        if case.kind == Kind::Output {
            case.asked = self.piece_bytes();
        }
        let subject = self.subject();
        match self.model(&subject) {
            Some(model) if self.random.coin() => {
                case.highest = model.len() as u64;
                case.given = vec![0; words_needed(case.highest) as usize];
                case.truth = self.stale_row(case.highest);
                let faults = self.random.coin();
                case.text = output(&mut self.random, &model, faults);
            }
            _ => {
                self.put_state(case);
                let status = case.phase == NO_STATUS || self.random.once_in(SECOND_STATUS_ONCE_IN);
                case.text = loose_output(&mut self.random, status, case.highest);
            }
        }
    }

    /// How many bytes of an output are fed at a time; 0 is all at once.
    fn piece_bytes(&mut self) -> u64 {
        const FEW: usize = 100;
        const WHOLE_LINE: u64 = LONGEST_LINE as u64;
        let few = self.random.between(2, FEW) as u64;
        let wide = self.wide();
        self.random.pick(&[0, 1, few, few, WHOLE_LINE, WHOLE_LINE + 1, wide])
    }

    pub fn fill_end(&mut self, case: &mut Case) {
        const MOST_SPOILS: usize = 2;
        const BEHIND: usize = 2;
        let subject = self.subject();
        case.horizon = subject.horizon;
        case.highest = subject.highest().unwrap_or(SOME_HIGHEST);
        case.phase = CLOSED;
        self.put_model(case, &subject);
        case.file = subject.file;
        let steps = subject.schedule.len();
        let other = self.room_length(steps).min(MOST_ENTRIES);
        let length = self.random.weighted(&[(2, steps), (1, steps + BEHIND), (1, other)]);
        case.entries = self.entries(length);
        for _ in 0..self.random.between(0, MOST_SPOILS) {
            let reach =
                (case.given.len().min(case.truth.len()) as u64 * WORD_BITS).min(case.highest);
            if reach > 0 {
                let variable = FormulaVariable(self.random.next_word() % reach + 1);
                self.random.weighted(&SPOILS)(self, case, variable);
            }
        }
    }

    /// Rows of the subject's model, some variables left out.
    fn put_model(&mut self, case: &mut Case, subject: &Subject) {
        let Some((given, truth)) = subject.model_rows() else {
            case.given = self.stale_row(case.highest);
            case.truth = self.stale_row(case.highest);
            return;
        };
        (case.given, case.truth) = (given, truth);
        for variable in self.left_out(subject) {
            self.take_variable(case, variable);
        }
    }

    fn other_phase(&mut self, case: &mut Case, _: FormulaVariable) {
        case.phase = self.random.pick(&ANY_PHASE);
    }

    /// What stands in the true row then must not count.
    fn take_variable(&mut self, case: &mut Case, variable: FormulaVariable) {
        set_bit(&mut case.given, variable, false);
        set_bit(&mut case.truth, variable, self.random.coin());
    }

    fn turn_variable(&mut self, case: &mut Case, variable: FormulaVariable) {
        let value = bit(&case.truth, variable);
        set_bit(&mut case.truth, variable, !value);
    }

    /// Mostly another value of a state variable, or another action at a step.
    fn swap_neighbours(&mut self, case: &mut Case, variable: FormulaVariable) {
        let below = FormulaVariable(variable.0.max(2) - 1);
        let above = FormulaVariable(below.0 + 1);
        if above.0 <= case.truth.len() as u64 * WORD_BITS {
            let (low, high) = (bit(&case.truth, below), bit(&case.truth, above));
            set_bit(&mut case.truth, below, high);
            set_bit(&mut case.truth, above, low);
        }
    }

    /// Bits behind the last variable and words behind the last word.
    fn mark_unused(&mut self, case: &mut Case, _: FormulaVariable) {
        let used = case.highest % WORD_BITS;
        for row in [&mut case.given, &mut case.truth] {
            if let (true, Some(last)) = (used > 0, row.last_mut()) {
                *last |= self.random.next_word() << used;
            }
            row.push(self.random.next_word());
        }
    }

    fn other_highest(&mut self, case: &mut Case, _: FormulaVariable) {
        case.highest = self.any_highest();
    }

    fn shorten_given(&mut self, case: &mut Case, _: FormulaVariable) {
        case.given.pop();
    }

    fn shorten_truth(&mut self, case: &mut Case, _: FormulaVariable) {
        case.truth.pop();
    }
}
