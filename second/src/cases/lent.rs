//! Wide numbers and lent memory, with marks in it and now and then too short.

use super::Maker;
use crate::numbering::words_needed;
use crate::protocol::*;

/// Numbers that fill a type, or pass one by one.
const EDGES: [u64; 7] =
    [u64::MAX, u32::MAX as u64, 1 << 32, 1 << 63, u16::MAX as u64, 1 << 16, u8::MAX as u64];
/// What a type of 8, 16, 32 or 63 bits would cut off.
const CUT_OFF: [u64; 4] = [1 << 8, 1 << 16, 1 << 32, 1 << 63];

pub fn fitted(number: u64, bits: u32) -> u64 {
    number & (u64::MAX >> (u64::BITS - bits))
}

impl Maker {
    /// A number that a careless reader might cut off to a good one.
    pub fn disguised(&mut self, number: u64) -> u64 {
        let more = self.random.pick(&CUT_OFF);
        fitted(number.wrapping_add(more), self.options.number_bits)
    }

    pub fn wide(&mut self) -> u64 {
        let any = self.random.next_word();
        let edge = self.random.pick(&EDGES);
        fitted(self.random.pick(&[edge, edge, any]), self.options.number_bits)
    }

    /// The needed length, one less, more, or none.
    pub fn room_length(&mut self, needed: usize) -> usize {
        const MOST_BEHIND: usize = 20;
        let more = needed + self.random.between(1, MOST_BEHIND);
        let anything = self.random.below(needed + 1);
        let lengths =
            [(3, needed), (3, more), (2, needed.saturating_sub(1)), (1, anything), (1, 0)];
        self.random.weighted(&lengths)
    }

    fn words(&mut self, length: usize) -> Vec<u64> {
        (0..length).map(|_| self.random.next_word()).collect()
    }

    /// Marked entries of a schedule.
    pub fn entries(&mut self, length: usize) -> Vec<u64> {
        let bits = self.options.entry_bits;
        self.words(length).iter().map(|&word| fitted(word, bits)).collect()
    }

    /// A room for literals with marks in it that also fit 32 bits.
    pub fn literal_room(&mut self, needed: usize) -> Vec<u64> {
        let length = self.room_length(needed).min(MOST_LITERALS);
        let mark = |word: &u64| i64::from(*word as i32) as u64;
        self.words(length).iter().map(mark).collect()
    }

    pub fn byte_room(&mut self, needed: usize) -> Vec<u8> {
        let length = self.room_length(needed).min(MOST_ROOM);
        self.random.bytes(length)
    }

    /// A row with old bits in it, rarely too short.
    pub fn stale_row(&mut self, highest: u64) -> Vec<u64> {
        const SHORT_ONCE_IN: usize = 12;
        const BEHIND: [usize; 4] = [0, 0, 1, 3];
        let needed = words_needed(highest).min(self.options.row_words as u64) as usize;
        let length = if self.random.once_in(SHORT_ONCE_IN) {
            self.room_length(needed)
        } else {
            needed + self.random.pick(&BEHIND)
        };
        let length = length.min(self.options.row_words);
        let marks = self.words(length);
        let rows = [(1, vec![0; length]), (1, vec![u64::MAX; length]), (1, marks)];
        self.random.weighted(&rows)
    }
}
