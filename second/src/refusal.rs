//! Refusals: their numbers and how one is given.

#[derive(Clone, Copy, Debug, PartialEq, Eq)]
pub struct Refusal {
    pub number: u64,
    pub detail: u64,
}

pub type Answer<T> = Result<T, Refusal>;

/// The detail of every refusal that has nothing to point at.
pub const NO_DETAIL: u64 = 0;

pub const FILE_LENGTH: u64 = 1;
pub const CONTENTS_ROW: u64 = 2;
pub const BODY_LENGTHS: u64 = 3;
pub const DOMAIN_SIZE: u64 = 4;
pub const START_VALUE: u64 = 5;
pub const GOAL_PAIR: u64 = 6;
pub const ACTION: u64 = 7;
pub const HORIZON: u64 = 8;
pub const CLAUSE_NUMBER: u64 = 9;
pub const ROOM: u64 = 10;
pub const LINE_GRAMMAR: u64 = 11;
pub const OUT_OF_PLACE: u64 = 12;
pub const VARIABLE_OVER: u64 = 13;
pub const GIVEN_BEFORE: u64 = 14;
pub const NOT_FINISHED: u64 = 15;
/// A clause without a true literal among those named; 16 is never given.
pub const NO_TRUE_LITERAL: u64 = 17;
pub const SAYS_UNSATISFIABLE: u64 = 18;
pub const SAYS_UNKNOWN: u64 = 19;
pub const ENTRY_OVER: u64 = 20;
pub const NOT_APPLICABLE: u64 = 21;
pub const GOAL_UNMET: u64 = 22;
pub const AGAINST_FORMAT: u64 = 30;
/// An axiom layer, axioms or conditions, which are not taken.
pub const NOT_TAKEN: u64 = 31;
pub const OTHER_VERSION: u64 = 32;

pub fn refuse<T>(number: u64, detail: u64) -> Answer<T> {
    Err(Refusal { number, detail })
}

/// The same for a detail that is a position.
pub fn refuse_at<T>(number: u64, position: usize) -> Answer<T> {
    refuse(number, position as u64)
}

/// Copies items to the front of lent room, or refuses the room untouched.
pub fn store<T: Copy>(room: &mut [T], items: &[T]) -> Answer<()> {
    let Some(front) = room.get_mut(..items.len()) else {
        return refuse(ROOM, NO_DETAIL);
    };
    front.copy_from_slice(items);
    Ok(())
}
