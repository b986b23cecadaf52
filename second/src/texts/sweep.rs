//! One small text changed at every line in every way, and cut at every byte:
//! what a random stream would only meet now and then.

use super::draft::{EffectDraft, OperatorDraft, TextDraft};
use super::sheet::Sheet;
use super::stream::TextCase;
use super::telling::own_lines;
use crate::random::Random;
use crate::translator::LineKind;

/// Words in place of one word: numbers in order and not.
const WORDS: [&str; 25] = [
    "", "0", "1", "2", "3", "255", "256", "65536", "100000", "999999", "1000000", "9999999", "00",
    "01", "-0", "-1", "-01", "-2", "-", "+1", "x", "1x", "0\r", "0\t", "\u{b2}",
];

/// What may stand before and behind a line.
const AROUND: [&str; 8] = [" ", "  ", "\t", "\r", "\0", "x", "0", " 0"];

/// Lines in place of a whole line.
const LINES: [&str; 6] = ["", "0", "0 0", "0 0 -1 0", "begin_rule", "end_variable"];

/// The folder example; every kind of line stands in it.
fn example() -> Sheet {
    let take = EffectDraft { variable: 0, old: Some(0), new: 1 };
    let run = EffectDraft { variable: 1, old: Some(0), new: 1 };
    let free = EffectDraft { variable: 0, old: None, new: 0 };
    let take = OperatorDraft { prevail: Vec::new(), effects: vec![take], cost: 1 };
    let run = OperatorDraft { prevail: vec![(0, 1)], effects: vec![run, free], cost: 1 };
    let draft = TextDraft {
        metric: 0,
        ranges: vec![2, 2],
        mutex_groups: vec![vec![(0, 0), (0, 1)]],
        start: vec![0, 0],
        goal: vec![(1, 1)],
        operators: vec![take, run],
    };
    Sheet::of(&mut Random::new(0), &draft)
}

/// A line changed in every way that leaves it one line.
pub fn line_variants(kind: LineKind, line: &[u8]) -> Vec<Vec<u8>> {
    let mut variants = vec![line.to_ascii_uppercase()];
    variants.extend(own_lines(kind).into_iter().chain(LINES).map(Vec::from));
    for around in AROUND {
        variants.push([line, around.as_bytes()].concat());
        variants.push([around.as_bytes(), line].concat());
    }
    for place in 0..line.len() {
        variants.push([&line[..place], &line[place + 1..]].concat());
    }
    variants.extend(word_variants(line));
    variants
}

/// Each word changed, left out, and parted from the next by a tab or by two
/// spaces.
fn word_variants(line: &[u8]) -> Vec<Vec<u8>> {
    let words: Vec<&[u8]> = line.split(|&byte| byte == b' ').collect();
    let mut variants = Vec::new();
    for place in 0..words.len() {
        let (before, behind) = (&words[..place], &words[place + 1..]);
        variants.push([before, behind].concat().join(&b' '));
        for word in WORDS {
            variants.push([before, &[word.as_bytes()], behind].concat().join(&b' '));
        }
        for gap in ["\t", "  "] {
            let (front, back) = (words[..=place].join(&b' '), behind.join(&b' '));
            variants.push([front, gap.into(), back].concat());
        }
    }
    variants
}

fn texts_of_lines(sheet: &Sheet) -> Vec<Vec<u8>> {
    let mut texts = Vec::new();
    for (index, (kind, line)) in sheet.lines.iter().enumerate() {
        let mut changed = sheet.clone();
        for variant in line_variants(*kind, line) {
            changed.lines[index].1 = variant;
            texts.push(changed.text(true));
        }
        let (before, behind) = sheet.lines.split_at(index);
        for inserted in LINES {
            let inserted = (*kind, inserted.into());
            let lines = [before, &[inserted], behind].concat();
            texts.push(Sheet { lines }.text(true));
        }
        let lines = [before, &behind[1..]].concat();
        texts.push(Sheet { lines }.text(true));
        let lines = [before, &behind[..1], behind].concat();
        texts.push(Sheet { lines }.text(true));
    }
    texts
}

/// Cut at every byte, then with a byte or a line behind the end.
fn texts_of_ends(text: &[u8]) -> Vec<Vec<u8>> {
    let cut = (0..=text.len()).map(|length| text[..length].to_vec());
    let behind = AROUND.into_iter().chain(LINES).chain(["\n", "\n\n"]);
    cut.chain(behind.map(|end| [text, end.as_bytes()].concat())).collect()
}

/// The texts with the rooms and pieces that a file of this length is worth.
pub fn sweep() -> impl Iterator<Item = TextCase> {
    const FILE: usize = 38;
    const ROOMS: [usize; 5] = [FILE, FILE + 7, FILE - 1, 2 * FILE, 0];
    const PIECES: [usize; 4] = [0, 1, 10, 64];
    let sheet = example();
    let texts = [texts_of_lines(&sheet), texts_of_ends(&sheet.text(true))].concat();
    texts.into_iter().enumerate().map(|(index, text)| TextCase {
        room: ROOMS[index % ROOMS.len()],
        piece: PIECES[index % PIECES.len()],
        text,
    })
}
