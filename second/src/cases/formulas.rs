//! Cases about files, clauses and text.

use super::lent::fitted;
use super::Maker;
use crate::clauses::{Clause, Formula};
use crate::damage::damaged_file;
use crate::draft::draft;
use crate::limits::*;
use crate::protocol::Case;
use crate::text::{clause_line, header_line};

/// Room where nothing says how much is needed.
const SOME_ROOM: usize = 12;

impl Maker {
    pub fn fill_judge(&mut self, case: &mut Case) {
        const GOOD_ONCE_IN: usize = 5;
        let size = self.size();
        let draft = draft(&mut self.random, size);
        case.file = match self.random.once_in(GOOD_ONCE_IN) {
            true => draft.file(),
            false => damaged_file(&mut self.random, &draft),
        };
    }

    pub fn fill_body(&mut self, case: &mut Case) {
        self.fill_judge(case);
        let number = self.random.below(BODIES + 2) as u64;
        let numbers = [(3, number), (1, self.wide()), (1, self.disguised(number))];
        case.asked = self.random.weighted(&numbers);
    }

    /// The longest clause of the family that lists actions, at some step.
    fn longest_clause(&mut self, formula: &Formula) -> Option<u64> {
        const LISTING_ACTIONS: usize = 6;
        let counts = formula.family_counts();
        let before: u64 = counts[..LISTING_ACTIONS].iter().sum();
        let at_a_step = counts[LISTING_ACTIONS].checked_div(formula.horizon)?;
        let step = self.random.next_word() % formula.horizon;
        let first = before + step * at_a_step;
        let length = |&number: &u64| formula.clause(number).map(|clause| clause.len());
        (first..first + at_a_step).max_by_key(length)
    }

    /// Any clause, those at the edges of the families, the longest, and those
    /// behind C.
    fn clause_number(&mut self, formula: Option<&Formula>) -> u64 {
        const LONGEST_ONCE_IN: usize = 8;
        let wide = self.wide();
        let Some(formula) = formula else {
            return self.random.pick(&[0, 1, wide]);
        };
        if self.random.once_in(LONGEST_ONCE_IN) {
            return self.longest_clause(formula).unwrap_or(0);
        }
        let total = formula.counts().clauses;
        let families = self.random.below(FAMILIES + 1);
        let edge: u64 = formula.family_counts()[..families].iter().sum();
        let below = self.random.next_word() % total;
        let disguised = self.disguised(below);
        let behind = self.random.pick(&[total, total + 1, disguised, wide]);
        let numbers =
            [(3, below), (1, edge), (1, edge.saturating_sub(1)), (1, total - 1), (1, behind)];
        fitted(self.random.weighted(&numbers), self.options.number_bits)
    }

    fn put_clause(&mut self, case: &mut Case) -> Option<Clause> {
        let formula = self.put_subject(case);
        case.asked = self.clause_number(formula.as_ref());
        formula?.clause(case.asked)
    }

    pub fn fill_clause(&mut self, case: &mut Case) {
        let clause = self.put_clause(case);
        case.literals = self.literal_room(clause.map_or(SOME_ROOM, |clause| clause.len()));
    }

    pub fn fill_header_text(&mut self, case: &mut Case) {
        let line = self.put_subject(case).map(|formula| header_line(formula.counts()));
        case.room = self.byte_room(line.map_or(SOME_ROOM, |line| line.len()));
    }

    pub fn fill_clause_text(&mut self, case: &mut Case) {
        let line = self.put_clause(case).map(|clause| clause_line(&clause));
        case.room = self.byte_room(line.map_or(SOME_ROOM, |line| line.len()));
    }

    /// The room for a few lines from the asked clause on, and around it.
    pub fn fill_many_lines(&mut self, case: &mut Case) {
        const MOST_LINES: [usize; 4] = [1, 2, 5, 200];
        let formula = self.put_subject(case);
        case.asked = self.clause_number(formula.as_ref());
        let most = self.random.pick(&MOST_LINES);
        let lines = self.random.between(1, most) as u64;
        let asked = case.asked..case.asked.saturating_add(lines);
        let clause = |number| formula.as_ref().and_then(|formula| formula.clause(number));
        let needed = asked.map_while(clause).map(|clause| clause_line(&clause).len()).sum();
        case.room = self.byte_room(needed);
    }
}
