//! Cases about schedules: the walk and the way back.

use super::lent::fitted;
use super::*;
use crate::task_file::judge;

type Spoil = fn(&mut Maker, &mut Case, usize);

const SPOILS: [(usize, Spoil); 7] = [
    (2, Maker::one_over),
    (1, Maker::disguise_entry),
    (1, Maker::widen_entry),
    (3, Maker::empty_step),
    (6, Maker::swap_steps),
    (1, Maker::cut_schedule),
    (7, Maker::other_action),
];

impl Maker {
    pub fn fill_schedule(&mut self, case: &mut Case) {
        const MOST_SPOILS: usize = 2;
        const MOST_BEHIND: usize = 3;
        let subject = self.subject();
        let highest = subject.highest().unwrap_or(SOME_HIGHEST);
        case.file = subject.file;
        case.horizon = subject.horizon;
        case.entries = subject.schedule;
        for _ in 0..self.random.between(0, MOST_SPOILS) {
            if !case.entries.is_empty() {
                let step = self.random.below(case.entries.len());
                self.random.weighted(&SPOILS)(self, case, step);
            }
        }
        if self.random.coin() {
            let behind = self.random.between(0, MOST_BEHIND);
            let marks = self.entries(behind);
            case.entries.extend(marks);
        }
        if case.kind == Kind::WayBack {
            case.given = self.stale_row(highest);
            case.truth = self.stale_row(highest);
        }
    }

    fn put_entry(&mut self, case: &mut Case, step: usize, entry: u64) {
        case.entries[step] = fitted(entry, self.options.entry_bits);
    }

    fn one_over(&mut self, case: &mut Case, step: usize) {
        self.put_entry(case, step, actions(case) + 1);
    }

    fn disguise_entry(&mut self, case: &mut Case, step: usize) {
        let entry = self.disguised(case.entries[step]);
        self.put_entry(case, step, entry);
    }

    fn widen_entry(&mut self, case: &mut Case, step: usize) {
        let entry = self.wide();
        self.put_entry(case, step, entry);
    }

    fn empty_step(&mut self, case: &mut Case, step: usize) {
        case.entries[step] = 0;
    }

    fn swap_steps(&mut self, case: &mut Case, step: usize) {
        let other = self.random.below(case.entries.len());
        case.entries.swap(step, other);
    }

    fn cut_schedule(&mut self, case: &mut Case, step: usize) {
        case.entries.truncate(step);
    }

    fn other_action(&mut self, case: &mut Case, step: usize) {
        let entry = self.random.next_word() % (actions(case) + 1);
        self.put_entry(case, step, entry);
    }
}

fn actions(case: &Case) -> u64 {
    judge(&case.file).map_or(0, |task| task.actions.len() as u64)
}
