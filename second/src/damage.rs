//! Files damaged at many places, for every refusal from 1 to 7.

use crate::draft::*;
use crate::limits::*;
use crate::random::Random;

const SIZES: usize = 0;
const START: usize = 1;
const GOAL: usize = 2;
const ACTIONS: usize = 3;

type BodyDamage = fn(&mut Random, &mut Bodies);
type FileDamage = fn(&mut Random, &mut Vec<u8>);

const BODY_DAMAGES: [(usize, BodyDamage); 14] = [
    (2, wrong_size),
    (3, wrong_start),
    (3, wrong_goal_pair),
    (2, swapped_goal_pairs),
    (1, longer_or_shorter_body),
    (1, no_variables),
    (1, too_many_variables),
    (1, long_goal),
    (2, too_many_values),
    (2, cut_actions),
    (2, longer_list),
    (4, any_action_byte),
    (2, more_actions_than_allowed),
    (1, appended_action_bytes),
];

const FILE_DAMAGES: [(usize, FileDamage); 5] =
    [(1, cut_file), (1, extended_file), (2, wrong_row), (1, any_byte), (1, other_bytes)];

/// How many faults a file gets in its bodies and how many as a whole; of
/// several the earlier must be found.
const FAULTS: [(usize, (usize, usize)); 4] = [(3, (1, 0)), (2, (2, 0)), (1, (1, 1)), (1, (0, 1))];

pub fn damaged_file(random: &mut Random, draft: &Draft) -> Vec<u8> {
    let (in_bodies, in_file) = random.weighted(&FAULTS);
    let mut bodies = draft.bodies();
    for _ in 0..in_bodies {
        random.weighted(&BODY_DAMAGES)(random, &mut bodies);
    }
    let mut file = file_of(&bodies);
    for _ in 0..in_file {
        random.weighted(&FILE_DAMAGES)(random, &mut file);
    }
    file
}

fn set_any(random: &mut Random, body: &mut [u8], values: &[u8]) {
    if !body.is_empty() {
        body[random.below(body.len())] = random.pick(values);
    }
}

fn wrong_size(random: &mut Random, bodies: &mut Bodies) {
    const OVER: u8 = MOST_DOMAIN as u8 + 1;
    const SIZES_AT_THE_EDGE: [u8; 6] = [0, 0, OVER - 1, OVER, OVER, u8::MAX];
    set_any(random, &mut bodies[SIZES], &SIZES_AT_THE_EDGE);
}

fn wrong_start(random: &mut Random, bodies: &mut Bodies) {
    if let Some(x) = any_index(random, &bodies[START]) {
        let size = bodies[SIZES].get(x).copied().unwrap_or(0);
        bodies[START][x] = random.pick(&[size, size, size.wrapping_sub(1), u8::MAX]);
    }
}

fn any_index(random: &mut Random, bytes: &[u8]) -> Option<usize> {
    (!bytes.is_empty()).then(|| random.below(bytes.len()))
}

/// A variable or a value of the goal just outside, or any other.
fn wrong_goal_pair(random: &mut Random, bodies: &mut Bodies) {
    let Some(index) = any_index(random, &bodies[GOAL]) else {
        return;
    };
    let pair = index - index % PAIR_BYTES;
    let variable = usize::from(bodies[GOAL][pair]);
    let outside = if index == pair {
        bodies[SIZES].len() as u8
    } else {
        bodies[SIZES].get(variable).copied().unwrap_or(0)
    };
    bodies[GOAL][index] = random.pick(&[outside, outside, outside, u8::MAX, 0]);
}

/// Two pairs in each other's place, or one twice.
fn swapped_goal_pairs(random: &mut Random, bodies: &mut Bodies) {
    let pairs = bodies[GOAL].len() / PAIR_BYTES;
    if pairs < 2 {
        return;
    }
    let later = random.between(1, pairs - 1) * PAIR_BYTES;
    let earlier = random.below(later / PAIR_BYTES) * PAIR_BYTES;
    for byte in 0..PAIR_BYTES {
        bodies[GOAL].swap(earlier + byte, later + byte);
    }
    if random.coin() {
        bodies[GOAL].copy_within(later..later + PAIR_BYTES, earlier);
    }
}

fn longer_or_shorter_body(random: &mut Random, bodies: &mut Bodies) {
    let body = random.below(ACTIONS);
    if random.coin() {
        bodies[body].push(0);
    } else {
        bodies[body].pop();
    }
}

fn no_variables(random: &mut Random, bodies: &mut Bodies) {
    bodies[SIZES].clear();
    if random.coin() {
        bodies[START].clear();
    }
}

fn too_many_variables(random: &mut Random, bodies: &mut Bodies) {
    const COUNTS: [usize; 5] = [MOST_VARIABLES, MOST_VARIABLES + 1, 255, 256, 300];
    let variables = random.pick(&COUNTS);
    bodies[SIZES].resize(variables, 1);
    bodies[START].resize(variables, 0);
}

fn long_goal(random: &mut Random, bodies: &mut Bodies) {
    let bytes = MOST_GOAL_PAIRS * PAIR_BYTES;
    let length = random.pick(&[bytes, bytes + 1, bytes + PAIR_BYTES, 2 * bytes]);
    bodies[GOAL].resize(length, 0);
}

/// Every size in range and S at its bound or just above.
fn too_many_values(random: &mut Random, bodies: &mut Bodies) {
    let variables = random.between(MOST_VALUES / MOST_DOMAIN + 1, MOST_VARIABLES);
    const SUMS: [usize; 4] = [MOST_VALUES, MOST_VALUES + 1, MOST_VALUES + 1, MOST_VALUES + 8];
    let sum = random.pick(&SUMS);
    let mut sizes = vec![1; variables];
    let mut left = sum - variables;
    while left > 0 {
        let x = random.below(variables);
        if sizes[x] < MOST_DOMAIN as u8 {
            sizes[x] += 1;
            left -= 1;
        }
    }
    bodies[SIZES] = sizes;
    bodies[START].resize(variables, 0);
}

fn cut_actions(random: &mut Random, bodies: &mut Bodies) {
    if let Some(length) = any_index(random, &bodies[ACTIONS]) {
        bodies[ACTIONS].truncate(length);
    }
}

/// Where each action begins; the draft's lists say so.
fn action_starts(actions: &[u8]) -> Vec<usize> {
    let mut starts = Vec::new();
    let mut position = 0;
    while position + 1 < actions.len() {
        starts.push(position);
        let pairs = usize::from(actions[position]) + usize::from(actions[position + 1]);
        position += ACTION_HEAD_BYTES + pairs * PAIR_BYTES;
    }
    starts
}

/// One of an action's two list lengths is made longer, with or without pairs.
fn longer_list(random: &mut Random, bodies: &mut Bodies) {
    let starts = action_starts(&bodies[ACTIONS]);
    if starts.is_empty() {
        return;
    }
    let head = random.pick(&starts) + random.below(ACTION_HEAD_BYTES);
    let over = MOST_LIST as u8 + 1;
    let one_more = bodies[ACTIONS][head].wrapping_add(1);
    bodies[ACTIONS][head] = random.pick(&[over, over, one_more, u8::MAX]);
    if random.coin() {
        let filling = vec![0; usize::from(over) * PAIR_BYTES];
        bodies[ACTIONS].splice(head + 1..head + 1, filling);
    }
}

fn any_action_byte(random: &mut Random, bodies: &mut Bodies) {
    let other = random.byte();
    let variables = bodies[SIZES].len() as u8;
    set_any(random, &mut bodies[ACTIONS], &[variables, 0, 1, 2, other]);
}

/// Exactly 512 actions in order, then nothing, a byte, or more actions.
fn more_actions_than_allowed(random: &mut Random, bodies: &mut Bodies) {
    let present = action_starts(&bodies[ACTIONS]).len();
    let missing = MOST_ACTIONS.saturating_sub(present);
    const TAILS: [usize; 4] = [0, 1, ACTION_HEAD_BYTES, 2 * ACTION_HEAD_BYTES + 1];
    let tail = random.pick(&TAILS);
    let length = bodies[ACTIONS].len() + missing * ACTION_HEAD_BYTES + tail;
    bodies[ACTIONS].resize(length, 0);
}

fn appended_action_bytes(random: &mut Random, bodies: &mut Bodies) {
    const MOST: usize = 6;
    let count = random.between(1, MOST);
    let bytes = random.bytes(count);
    bodies[ACTIONS].extend(bytes);
}

fn cut_file(random: &mut Random, file: &mut Vec<u8>) {
    const FRONT: usize = CONTENTS_BYTES + 2;
    let most = if random.coin() { FRONT.min(file.len()) } else { file.len() };
    file.truncate(random.between(0, most));
}

fn extended_file(random: &mut Random, file: &mut Vec<u8>) {
    const MOST: usize = 4;
    const FAR: usize = LONGEST_FILE + 500;
    let longer = file.len() + random.between(1, MOST);
    let length = random.pick(&[longer, longer, LONGEST_FILE, LONGEST_FILE + 1, FAR]);
    file.resize(length.max(file.len()), 0);
}

/// A new number at one of the contents' two-byte places.
fn wrong_row(random: &mut Random, file: &mut Vec<u8>) {
    const NUMBER_BYTES: usize = 2;
    const HIGH_BYTE: u16 = 0x100;
    let position = random.below(CONTENTS_BYTES / NUMBER_BYTES) * NUMBER_BYTES;
    let Some(place) = file.get_mut(position..position + NUMBER_BYTES) else {
        return;
    };
    let number = u16::from_le_bytes([place[0], place[1]]);
    let other = random.next_word() as u16;
    let near = [number.wrapping_add(1), number.wrapping_sub(1), number ^ HIGH_BYTE];
    let near = random.pick(&near);
    let number = random.weighted(&[(3, near), (1, 0), (1, u16::MAX), (1, other)]);
    place.copy_from_slice(&number.to_le_bytes());
}

fn any_byte(random: &mut Random, file: &mut Vec<u8>) {
    const MOST: usize = 3;
    for _ in 0..random.between(1, MOST) {
        if let Some(index) = any_index(random, file) {
            file[index] = random.byte();
        }
    }
}

fn other_bytes(random: &mut Random, file: &mut Vec<u8>) {
    const LONGEST: usize = 80;
    let length = random.between(0, LONGEST);
    *file = random.bytes(length);
}
