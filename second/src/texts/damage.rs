//! Lines damaged in every way the format forbids, and in some it allows.

use super::draft::LARGEST;
use super::sheet::Sheet;
use super::telling::{has_telling_lines, telling_line};
use crate::random::Random;
use crate::translator::{LineKind, LINE_KINDS};

/// What becomes of one line's bytes.
pub type LineDamage = fn(&mut Random, LineKind, &[u8]) -> Vec<u8>;
/// What becomes of a sheet at one of its lines.
type SheetDamage = fn(&mut Random, &mut Sheet, usize);

/// A line stays one line under each of these.
pub const LINE_DAMAGES: [LineDamage; 17] = [
    telling_line,
    wrong_keyword,
    carriage_return,
    tab,
    leading_space,
    trailing_space,
    double_space,
    leading_zero,
    seven_digits,
    sign,
    minus_one,
    other_number,
    no_number,
    missing_word,
    extra_word,
    empty_line,
    any_byte,
];

const SHEET_DAMAGES: [SheetDamage; 6] =
    [missing_line, line_twice, inserted_line, joined_lines, line_cut_in_two, swapped_lines];

/// Bytes next to those the format knows, and those it knows out of place.
const ODD_BYTES: &[u8] = b" -0159/:+.xbeg_\t\r\0\x0b\x0c\x1f\x21\x7f\x85\xa0\xb2\xff";

/// One damage at a line of any kind; the many lines of one kind come no more
/// often than the one line of another.
pub fn damage(random: &mut Random, sheet: &mut Sheet) {
    const SHEET_ONCE_IN: usize = 4;
    let kind = any_kind(random, sheet);
    let of_kind = |&index: &usize| sheet.lines[index].0 == kind;
    let lines: Vec<usize> = (0..sheet.lines.len()).filter(of_kind).collect();
    if lines.is_empty() {
        return lines_behind(random, sheet);
    }
    let index = random.pick(&lines);
    if random.once_in(SHEET_ONCE_IN) {
        return random.pick(&SHEET_DAMAGES)(random, sheet, index);
    }
    let telling = has_telling_lines(kind) && random.coin();
    let change = if telling { telling_line } else { random.pick(&LINE_DAMAGES) };
    let line = &mut sheet.lines[index].1;
    *line = change(random, kind, line);
}

/// A kind that the sheet has, or the end; those that 31 and 32 speak of come
/// more often, and the one of four words most often.
fn any_kind(random: &mut Random, sheet: &Sheet) -> LineKind {
    const TELLING_TIMES: usize = 3;
    const EFFECT_TIMES: usize = 6;
    let present = |kind: &LineKind| sheet.lines.iter().any(|(other, _)| other == kind);
    let times = |kind| match kind {
        LineKind::Effect => EFFECT_TIMES,
        _ if has_telling_lines(kind) => TELLING_TIMES,
        _ => 1,
    };
    let mut kinds: Vec<(usize, LineKind)> =
        LINE_KINDS.into_iter().filter(present).map(|kind| (times(kind), kind)).collect();
    kinds.push((1, LineKind::Behind));
    random.weighted(&kinds)
}

/// The text stops at any byte, or at the end of any line.
pub fn cut(random: &mut Random, text: &mut Vec<u8>) {
    let mut length = random.below(text.len() + 1);
    if random.coin() {
        length = text[..length].iter().rposition(|&byte| byte == b'\n').map_or(0, |lf| lf + 1);
    }
    text.truncate(length);
}

/// A keyword cut short, lengthened, in other letters, or another one.
fn wrong_keyword(random: &mut Random, _: LineKind, line: &[u8]) -> Vec<u8> {
    let cut = line[..line.len().saturating_sub(1)].to_vec();
    let behind = line.get(1..).unwrap_or(&[]).to_vec();
    let longer = [line, b"s"].concat();
    let other = random.pick(&LINE_KINDS).keyword().unwrap_or("begin_axiom").into();
    let partner = [b"end", line.get(5..).unwrap_or(&[])].concat();
    let dashed = line.iter().map(|&byte| if byte == b'_' { b'-' } else { byte }).collect();
    let forms = [cut, behind, longer, other, partner, dashed, line.to_ascii_uppercase()];
    forms[random.below(forms.len())].clone()
}

fn around(random: &mut Random, line: &[u8], byte: u8) -> Vec<u8> {
    match random.coin() {
        true => [line, &[byte]].concat(),
        false => [&[byte], line].concat(),
    }
}

fn carriage_return(random: &mut Random, _: LineKind, line: &[u8]) -> Vec<u8> {
    const FIRST_ONCE_IN: usize = 5;
    if random.once_in(FIRST_ONCE_IN) {
        return around(random, line, b'\r');
    }
    [line, b"\r"].concat()
}

/// A tab before, behind, or for a space.
fn tab(random: &mut Random, _: LineKind, line: &[u8]) -> Vec<u8> {
    match space_in(random, line) {
        Some(space) => [&line[..space], b"\t", &line[space + 1..]].concat(),
        None => around(random, line, b'\t'),
    }
}

fn space_in(random: &mut Random, line: &[u8]) -> Option<usize> {
    let spaces: Vec<usize> = (0..line.len()).filter(|&index| line[index] == b' ').collect();
    (!spaces.is_empty()).then(|| random.pick(&spaces))
}

fn leading_space(_: &mut Random, _: LineKind, line: &[u8]) -> Vec<u8> {
    [b" ", line].concat()
}

fn trailing_space(_: &mut Random, _: LineKind, line: &[u8]) -> Vec<u8> {
    [line, b" "].concat()
}

fn double_space(random: &mut Random, _: LineKind, line: &[u8]) -> Vec<u8> {
    let place = space_in(random, line).unwrap_or(line.len());
    [&line[..place], b" ", &line[place..]].concat()
}

fn empty_line(_: &mut Random, _: LineKind, _: &[u8]) -> Vec<u8> {
    Vec::new()
}

fn any_byte(random: &mut Random, _: LineKind, line: &[u8]) -> Vec<u8> {
    let byte = random.pick(ODD_BYTES);
    let place = random.between(0, line.len());
    let behind = place + usize::from(place < line.len() && random.coin());
    [&line[..place], &[byte], &line[behind..]].concat()
}

/// The line with one of its words changed.
fn with_word(
    random: &mut Random,
    line: &[u8],
    change: impl Fn(&mut Random, &[u8]) -> Vec<u8>,
) -> Vec<u8> {
    let mut words: Vec<Vec<u8>> = line.split(|&byte| byte == b' ').map(<[u8]>::to_vec).collect();
    let place = random.below(words.len());
    words[place] = change(random, &words[place]);
    words.join(&b' ')
}

fn leading_zero(random: &mut Random, _: LineKind, line: &[u8]) -> Vec<u8> {
    with_word(random, line, |_, word| [b"0", word].concat())
}

fn seven_digits(random: &mut Random, _: LineKind, line: &[u8]) -> Vec<u8> {
    const DIGITS: usize = 7;
    with_word(random, line, |random, word| {
        let mut padded = word.to_vec();
        padded.resize(DIGITS.max(word.len()), b'0');
        let numbers: [&[u8]; 5] =
            [b"1000000", b"9999999", b"0000000", b"18446744073709551616", &padded];
        random.pick(&numbers).to_vec()
    })
}

fn sign(random: &mut Random, _: LineKind, line: &[u8]) -> Vec<u8> {
    with_word(random, line, |random, word| {
        let (plus, minus) = ([b"+", word].concat(), [b"-", word].concat());
        let words: [&[u8]; 5] = [&plus, &minus, b"-2", b"-0", b"-"];
        random.pick(&words).to_vec()
    })
}

fn minus_one(random: &mut Random, _: LineKind, line: &[u8]) -> Vec<u8> {
    with_word(random, line, |_, _| b"-1".to_vec())
}

/// A number in order, which as a count may leave the text too short or too
/// long.
fn other_number(random: &mut Random, _: LineKind, line: &[u8]) -> Vec<u8> {
    const NUMBERS: [usize; 14] = [0, 1, 2, 3, 8, 9, 64, 65, 96, 97, 255, 256, 100_000, LARGEST];
    with_word(random, line, |random, word| {
        let near = std::str::from_utf8(word).ok().and_then(|word| word.parse::<usize>().ok());
        let near = near.map_or(0, |number| number.saturating_add_signed(random.pick(&[-1, 1])));
        let any = random.pick(&NUMBERS);
        random.pick(&[near, near, any]).to_string().into_bytes()
    })
}

fn no_number(random: &mut Random, _: LineKind, line: &[u8]) -> Vec<u8> {
    const WORDS: [&[u8]; 10] =
        [b"x", b"0x1", b"1e3", b"1.0", b"/", b":", b"\0", b"\xc2\xb2", b"1_0", b"one"];
    const BEHIND: [&[u8]; 5] = [b"x", b"\t", b"\r", b"\0", b"."];
    with_word(random, line, |random, word| match random.coin() {
        true => random.pick(&WORDS).to_vec(),
        false => [word, random.pick(&BEHIND)].concat(),
    })
}

fn missing_word(random: &mut Random, _: LineKind, line: &[u8]) -> Vec<u8> {
    let mut words: Vec<&[u8]> = line.split(|&byte| byte == b' ').collect();
    words.remove(random.below(words.len()));
    words.join(&b' ')
}

fn extra_word(random: &mut Random, _: LineKind, line: &[u8]) -> Vec<u8> {
    const WORDS: [&[u8]; 5] = [b"0", b"1", b"-1", b"x", b"0 0"];
    let mut words: Vec<&[u8]> = line.split(|&byte| byte == b' ').collect();
    words.insert(random.between(0, words.len()), random.pick(&WORDS));
    words.join(&b' ')
}

fn missing_line(_: &mut Random, sheet: &mut Sheet, index: usize) {
    sheet.lines.remove(index);
}

fn line_twice(_: &mut Random, sheet: &mut Sheet, index: usize) {
    sheet.lines.insert(index, sheet.lines[index].clone());
}

fn inserted_line(random: &mut Random, sheet: &mut Sheet, index: usize) {
    const LINES: [&[u8]; 5] = [b"", b"", b"0", b"x", b"0 0"];
    let place = index + random.below(2);
    let line = random.pick(&LINES).to_vec();
    sheet.lines.insert(place, (sheet.lines[index].0, line));
}

fn joined_lines(_: &mut Random, sheet: &mut Sheet, index: usize) {
    if index + 1 == sheet.lines.len() {
        return;
    }
    let (_, next) = sheet.lines.remove(index + 1);
    let line = &mut sheet.lines[index].1;
    *line = [&line[..], &next].join(&b' ');
}

fn line_cut_in_two(random: &mut Random, sheet: &mut Sheet, index: usize) {
    let (kind, line) = &mut sheet.lines[index];
    let kind = *kind;
    let behind = line.split_off(random.between(0, line.len()));
    sheet.lines.insert(index + 1, (kind, behind));
}

fn swapped_lines(_: &mut Random, sheet: &mut Sheet, index: usize) {
    let other = (index + 1) % sheet.lines.len();
    sheet.lines.swap(index, other);
}

/// Behind the count of axioms nothing may follow, an empty line neither.
fn lines_behind(random: &mut Random, sheet: &mut Sheet) {
    const LINES: [&[u8]; 7] = [b"", b"", b" ", b"0", b"x", b"begin_rule", b"begin_version"];
    const MOST: usize = 3;
    for _ in 0..random.between(1, MOST) {
        let line = random.pick(&LINES).to_vec();
        sheet.lines.push((LineKind::Behind, line));
    }
}
