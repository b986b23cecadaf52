//! Solver lines and whole outputs: true ones, spoiled ones, odd ones.

use crate::limits::*;
use crate::random::Random;

/// Bytes next to those the grammar knows, and those it knows out of place.
const ODD_BYTES: &[u8] = b" -0159/:+xcsv\t\r\n\0\x0b\x1f\x21\x7f\xa0\xff";
const STATUS: [&[u8]; 3] = [b"s SATISFIABLE", b"s UNSATISFIABLE", b"s UNKNOWN"];

/// Makes a line for a reading up to a highest variable.
type LineMaker = fn(&mut Random, u64) -> Vec<u8>;

const ANY_LINES: [(usize, LineMaker); 9] = [
    (1, comment_line),
    (1, spoiled_comment),
    (1, status_line),
    (1, spoiled_status),
    (1, long_line),
    (1, random_line),
    (1, odd_numbers_line),
    (2, spoiled_value_line),
    (3, value_line),
];
const FIRST_LINES: [(usize, LineMaker); 4] =
    [(1, comment_line), (1, long_line), (3, status_line), (3, spoiled_status)];
const OPEN_LINES: [(usize, LineMaker); 5] = [
    (1, comment_line),
    (1, long_line),
    (2, odd_numbers_line),
    (1, spoiled_value_line),
    (4, value_line),
];
const LOOSE_LINES: [(usize, LineMaker); 3] = [(1, any_line), (2, open_line), (9, value_line)];

/// One line that may or may not be in place and in order.
pub fn any_line(random: &mut Random, highest: u64) -> Vec<u8> {
    random.weighted(&ANY_LINES)(random, highest)
}

/// A line that is in place before a status.
pub fn first_line(random: &mut Random, highest: u64) -> Vec<u8> {
    random.weighted(&FIRST_LINES)(random, highest)
}

/// A line that is in place while a model is open.
pub fn open_line(random: &mut Random, highest: u64) -> Vec<u8> {
    random.weighted(&OPEN_LINES)(random, highest)
}

fn spoiled_comment(random: &mut Random, highest: u64) -> Vec<u8> {
    let line = comment_line(random, highest);
    spoil_bytes(random, line)
}

fn spoiled_status(random: &mut Random, highest: u64) -> Vec<u8> {
    let line = status_line(random, highest);
    spoil_bytes(random, line)
}

fn spoiled_value_line(random: &mut Random, highest: u64) -> Vec<u8> {
    let line = value_line(random, highest);
    spoil_bytes(random, line)
}

/// One byte put in, taken out or changed, or the end cut off.
fn spoil_bytes(random: &mut Random, mut bytes: Vec<u8>) -> Vec<u8> {
    const WAYS: usize = 4;
    let index = random.below(bytes.len() + 1);
    let odd = random.pick(ODD_BYTES);
    let behind = (index + 1).min(bytes.len());
    match random.below(WAYS) {
        0 => bytes.insert(index, odd),
        1 => drop(bytes.splice(index..behind, [odd])),
        2 => drop(bytes.drain(index..behind)),
        _ => bytes.truncate(index),
    }
    bytes
}

fn comment_line(random: &mut Random, _: u64) -> Vec<u8> {
    const TEXTS: [&[u8]; 6] = [b"c", b"c ", b"c  v 1 0", b"c\tx", b"cx", b"c s SATISFIABLE"];
    const LONGEST: usize = 12;
    if random.coin() {
        return random.pick(&TEXTS).to_vec();
    }
    let length = random.between(0, LONGEST);
    [b"c ".to_vec(), random.bytes(length)].concat()
}

fn status_line(random: &mut Random, _: u64) -> Vec<u8> {
    random.pick(&STATUS).to_vec()
}

fn random_line(random: &mut Random, _: u64) -> Vec<u8> {
    const FIRST: &[u8] = b"csvcsvx ";
    const LONGEST: usize = 20;
    let mut line = Vec::new();
    for position in 0..random.between(0, LONGEST) {
        line.push(random.pick(if position == 0 { FIRST } else { ODD_BYTES }));
    }
    line
}

/// Numbers on the edge of the grammar.
fn odd_numbers_line(random: &mut Random, _: u64) -> Vec<u8> {
    const ODD: [&str; 20] = [
        "0", "00", "-0", "-", "--1", "+1", "01", "1-", "-1-", "1", "-1", "999999", "1000000",
        "-999999", "-1000000", "123456", "1234567", "x", "0x", "10",
    ];
    const MOST: usize = 3;
    let mut line = b"v".to_vec();
    for _ in 0..random.between(1, MOST) {
        line.extend(spaces(random, 1));
        line.extend(random.pick(&ODD).as_bytes());
    }
    line.extend(spaces(random, 0));
    line
}

fn spaces(random: &mut Random, least: usize) -> Vec<u8> {
    const MORE: [(usize, usize); 4] = [(12, 0), (1, 1), (1, 2), (1, 3)];
    vec![b' '; least + random.weighted(&MORE)]
}

/// A "v" line of numbers, most of them variables up to the highest.
fn value_line(random: &mut Random, highest: u64) -> Vec<u8> {
    const MOST: usize = 11;
    let mut line = b"v".to_vec();
    for _ in 0..random.between(0, MOST) {
        line.extend(spaces(random, 1));
        line.extend(any_number(random, highest).to_string().bytes());
    }
    line.extend(spaces(random, 0));
    line
}

fn any_number(random: &mut Random, highest: u64) -> i64 {
    const LARGEST: u64 = 999_999;
    const WORD_ENDS: [u64; 4] = [WORD_BITS - 1, WORD_BITS, WORD_BITS + 1, 2 * WORD_BITS];
    let highest = highest.min(LARGEST);
    let any = random.next_word() % highest.max(1) + 1;
    let word_end = random.pick(&WORD_ENDS);
    let over = random.pick(&[highest + 1, highest + 2, LARGEST]);
    let numbers = [(40, any), (1, highest), (1, over), (1, word_end), (2, 0)];
    let number = random.weighted(&numbers) as i64;
    random.pick(&[number, -number])
}

/// A line around the greatest length, with a tail that may break off.
fn long_line(random: &mut Random, _: u64) -> Vec<u8> {
    const TAILS: [&[u8]; 8] = [b"-", b" 1", b" -12", b" 0", b" 0 1", b"x", b" ", b"1"];
    const HEADS: [&[u8]; 5] = [b"v", b"c ", b"s SATISFIABLE", b"x", b"v 0"];
    const AROUND: usize = 3;
    let length = random.between(LONGEST_LINE - AROUND, LONGEST_LINE + AROUND);
    let tail = random.pick(&TAILS);
    let mut line = random.pick(&HEADS).to_vec();
    line.resize(length - tail.len(), b' ');
    line.extend(tail);
    line
}

/// The whole output for a model, number i being variable i+1's value if it is
/// named. Faults may be put into the numbers, the lines and the bytes.
pub fn output(random: &mut Random, model: &[Option<bool>], faults: bool) -> Vec<u8> {
    const SPOILED_BYTES_ONCE_IN: usize = 3;
    let number = |(value, variable): (&Option<bool>, i64)| {
        value.map(|value| if value { variable } else { -variable })
    };
    let mut numbers: Vec<i64> = model.iter().zip(1..).filter_map(number).collect();
    if random.coin() {
        random.shuffle(&mut numbers);
    }
    if faults && random.coin() && !numbers.is_empty() {
        spoil_numbers(random, &mut numbers, model.len() as i64);
    }
    let mut lines = lines_of_numbers(random, &numbers);
    if faults && random.coin() {
        spoil_lines(random, &mut lines, model.len() as u64);
    }
    let output = join(random, &lines);
    match faults && random.once_in(SPOILED_BYTES_ONCE_IN) {
        true => spoil_bytes(random, output),
        false => output,
    }
}

/// A number turned round, left out, doubled, raised above the highest, or the
/// last numbers left out.
fn spoil_numbers(random: &mut Random, numbers: &mut Vec<i64>, highest: i64) {
    const WAYS: usize = 5;
    let over = highest + 1;
    let index = random.below(numbers.len());
    let number = numbers[index];
    match random.below(WAYS) {
        0 => numbers[index] = -number,
        1 => drop(numbers.drain(index..=index)),
        2 => numbers.push(random.pick(&[number, -number])),
        3 => numbers[index] = random.pick(&[over, -over]),
        _ => numbers.truncate(index),
    }
}

fn lines_of_numbers(random: &mut Random, numbers: &[i64]) -> Vec<Vec<u8>> {
    const WIDTHS: [usize; 4] = [20, 70, 78, LONGEST_LINE];
    let width = random.pick(&WIDTHS);
    let mut lines = vec![b"c an output".to_vec(), STATUS[0].to_vec()];
    let mut line = b"v".to_vec();
    for number in numbers.iter().chain(&[0]) {
        let word = format!(" {number}");
        if line.len() + word.len() > width {
            lines.push(std::mem::replace(&mut line, b"v".to_vec()));
        }
        line.extend(word.bytes());
    }
    lines.push(line);
    lines
}

/// A line left out, doubled, moved or put in, the end left out, all lines
/// shuffled or doubled, or another status.
fn spoil_lines(random: &mut Random, lines: &mut Vec<Vec<u8>>, highest: u64) {
    const WAYS: usize = 8;
    let index = random.below(lines.len());
    let other = random.below(lines.len());
    match random.below(WAYS) {
        0 => drop(lines.remove(index)),
        1 => lines.push(lines[index].clone()),
        2 => lines.swap(index, other),
        3 => lines.insert(index, any_line(random, highest)),
        4 => lines.truncate(index),
        5 => random.shuffle(lines),
        6 => lines.extend(lines.clone()),
        _ => replace_status(random, lines),
    }
}

fn replace_status(random: &mut Random, lines: &mut Vec<Vec<u8>>) {
    lines.retain(|line| line.first() == Some(&b'c'));
    lines.push(random.pick(&STATUS).to_vec());
}

fn join(random: &mut Random, lines: &[Vec<u8>]) -> Vec<u8> {
    const RETURN_ONCE_IN: usize = 60;
    let ending: &[u8] = if random.once_in(RETURN_ONCE_IN) { b"\r\n" } else { b"\n" };
    let mut output = lines.join(ending);
    if random.coin() {
        output.extend(ending);
    }
    output
}

/// A few lines without a model, behind the status SATISFIABLE or none.
pub fn loose_output(random: &mut Random, status: bool, highest: u64) -> Vec<u8> {
    const MOST: usize = 5;
    let mut lines = Vec::new();
    if status {
        lines.push(STATUS[0].to_vec());
    }
    for _ in 0..random.between(0, MOST) {
        lines.push(random.weighted(&LOOSE_LINES)(random, highest));
    }
    join(random, &lines)
}
