//! The inputs of the two programs.

use super::subjects::Subject;
use super::*;
use crate::clauses::counts;
use crate::draft::Size;
use crate::limits::LONGEST_FILE;
use crate::outputs::*;

impl Maker {
    pub fn fill_clauses_program(&mut self, case: &mut Case) {
        let mut subject = self.subject();
        while !self.is_printable(&subject) {
            let size = if subject.size == Size::Small { Size::Tiny } else { Size::Small };
            subject = self.subject_of(size);
        }
        case.text = vec![subject.horizon as u8];
        case.text.extend(subject.file);
        self.cut(case);
    }

    /// The program takes a byte of the horizon.
    fn is_printable(&self, subject: &Subject) -> bool {
        let counts = counts(&subject.file, u64::from(subject.horizon as u8));
        counts.map_or(true, |counts| counts.clauses <= self.options.printed_clauses)
    }

    pub fn fill_model_program(&mut self, case: &mut Case) {
        let subject = self.subject();
        let output = match self.model(&subject) {
            Some(model) => {
                let faults = self.random.coin();
                output(&mut self.random, &model, faults)
            }
            None => loose_output(&mut self.random, true, SOME_HIGHEST),
        };
        case.text = vec![subject.horizon as u8];
        case.text.extend(self.stated_length(subject.file.len() as u16).to_le_bytes());
        case.text.extend(subject.file);
        case.text.extend(output);
        self.cut(case);
    }

    /// The file's length, now and then another.
    fn stated_length(&mut self, length: u16) -> u16 {
        const OTHER_ONCE_IN: usize = 12;
        const OVER: u16 = LONGEST_FILE as u16 + 1;
        if !self.random.once_in(OTHER_ONCE_IN) {
            return length;
        }
        self.random.pick(&[length.wrapping_add(1), length.wrapping_sub(1), u16::MAX, OVER, 0])
    }

    fn cut(&mut self, case: &mut Case) {
        const CUT_ONCE_IN: usize = 16;
        const FRONT: usize = 24;
        if self.random.once_in(CUT_ONCE_IN) {
            let front = if self.random.coin() { FRONT } else { case.text.len() };
            let length = self.random.below(front.min(case.text.len()) + 1);
            case.text.truncate(length);
        }
    }
}
