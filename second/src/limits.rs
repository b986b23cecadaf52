//! Every bound of the rules under its own name.

pub const MOST_VARIABLES: usize = 96;
pub const MOST_DOMAIN: usize = 64;
/// The bound on S, the sum of all domain sizes.
pub const MOST_VALUES: usize = 1_024;
pub const MOST_GOAL_PAIRS: usize = 96;
pub const MOST_ACTIONS: usize = 512;
/// The bound on the preconditions and on the effects of one action.
pub const MOST_LIST: usize = 8;
pub const MOST_HORIZON: u64 = 64;

pub const BODIES: usize = 4;
/// A start and a length, two bytes each.
pub const ROW_BYTES: usize = 4;
pub const CONTENTS_BYTES: usize = BODIES * ROW_BYTES;
pub const PAIR_BYTES: usize = 2;
/// The two bytes p and e before an action's pairs.
pub const ACTION_HEAD_BYTES: usize = 2;
pub const LONGEST_FILE: usize = 17_808;

pub const FAMILIES: usize = 8;
pub const LONGEST_LINE: usize = 4_096;
/// A first digit 1 to 9 and at most five more.
pub const MOST_DIGITS: usize = 6;
pub const WORD_BITS: u64 = 64;
