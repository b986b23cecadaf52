//! The seeded stream of translator's texts: good ones, tasks at and beyond
//! the limits, and lines damaged in every way.

pub mod damage;
pub mod draft;
pub mod faults;
pub mod sheet;
pub mod stream;
pub mod sweep;
mod telling;

use crate::draft::Size;
use crate::random::Random;
use damage::{cut, damage};
use draft::TextDraft;
use faults::{put_far_fault, put_faults};
use sheet::Sheet;
use stream::*;

/// In a hundred; long texts cost the most and come least often.
const SIZES: [(usize, Size); 5] =
    [(48, Size::Tiny), (38, Size::Small), (11, Size::Medium), (2, Size::Large), (1, Size::Full)];

#[derive(Clone, Copy, PartialEq, Eq)]
enum Shape {
    Good,
    /// The numbers make no task.
    Faulty,
    /// Lines are against the format.
    Damaged,
    FaultyAndDamaged,
    Cut,
}

const SHAPES: [(usize, Shape); 5] = [
    (25, Shape::Good),
    (30, Shape::Faulty),
    (34, Shape::Damaged),
    (6, Shape::FaultyAndDamaged),
    (5, Shape::Cut),
];

pub struct TextMaker {
    random: Random,
    longest: usize,
}

impl TextMaker {
    /// A maker of texts of at most so many bytes.
    pub fn new(seed: u64, longest: usize) -> TextMaker {
        TextMaker { random: Random::new(seed), longest }
    }

    /// The next case of the stream.
    pub fn case(&mut self) -> TextCase {
        loop {
            let case = self.any_case();
            if case.text.len() <= self.longest {
                return case;
            }
        }
    }

    fn any_case(&mut self) -> TextCase {
        const WITHOUT_LF_ONCE_IN: usize = 5;
        let shape = self.random.weighted(&SHAPES);
        let draft = self.draft(shape);
        let sheet = self.sheet(shape, &draft);
        let mut text = sheet.text(!self.random.once_in(WITHOUT_LF_ONCE_IN));
        if shape == Shape::Cut {
            cut(&mut self.random, &mut text);
        }
        let room = self.room(draft.file_length());
        let piece = self.piece(text.len());
        TextCase { room, piece, text }
    }

    fn draft(&mut self, shape: Shape) -> TextDraft {
        const FAR_ONCE_IN: usize = 2;
        let size = self.random.weighted(&SIZES);
        let task = crate::draft::draft(&mut self.random, size);
        let mut draft = TextDraft::of(&mut self.random, &task);
        if matches!(shape, Shape::Faulty | Shape::FaultyAndDamaged) {
            put_faults(&mut self.random, &mut draft);
            if self.for_program() && self.random.once_in(FAR_ONCE_IN) {
                put_far_fault(&mut self.random, &mut draft);
            }
        }
        draft
    }

    fn sheet(&mut self, shape: Shape, draft: &TextDraft) -> Sheet {
        const LONG_NAME_ONCE_IN: usize = 12;
        const LONGEST_NAME: usize = 8_192;
        const TWICE_ONCE_IN: usize = 4;
        let mut sheet = Sheet::of(&mut self.random, draft);
        if self.random.once_in(LONG_NAME_ONCE_IN) {
            let length = self.random.between(0, LONGEST_NAME);
            sheet.lengthen_name(&mut self.random, length);
        }
        if matches!(shape, Shape::Damaged | Shape::FaultyAndDamaged) {
            damage(&mut self.random, &mut sheet);
            if self.random.once_in(TWICE_ONCE_IN) {
                damage(&mut self.random, &mut sheet);
            }
        }
        sheet
    }

    /// Texts beyond the stream's bound are for the program, which always has
    /// room.
    fn for_program(&self) -> bool {
        self.longest > MOST_STREAM_TEXT
    }

    /// The file's length, one less, more, or none.
    fn room(&mut self, needed: usize) -> usize {
        const MOST_BEHIND: usize = 20;
        let most = MOST_TEXT_ROOM;
        if self.for_program() {
            return most;
        }
        let more = needed + self.random.between(1, MOST_BEHIND);
        let less = self.random.below(needed + 1);
        let rooms =
            [(6, needed), (4, more), (4, needed.saturating_sub(1)), (1, less), (2, 0), (1, most)];
        self.random.weighted(&rooms).min(most)
    }

    fn piece(&mut self, length: usize) -> usize {
        const SHORT: usize = 40;
        const LONG: usize = 5_000;
        let (short, long) = (self.random.between(1, SHORT), self.random.between(SHORT, LONG));
        let pieces = [(3, 0), (2, 1), (3, short), (2, long), (1, length), (1, length + 1)];
        self.random.weighted(&pieces)
    }
}
