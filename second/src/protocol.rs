//! The stream of cases and the stream of answers. Every number is a u64, low
//! byte first; every field is its length and then its contents.

use std::io::{self, ErrorKind, Read, Write};

#[derive(Clone, Copy, Debug, PartialEq, Eq)]
pub enum Kind {
    Judge,
    Body,
    Counts,
    Clause,
    HeaderText,
    ClauseText,
    ManyLines,
    Start,
    Line,
    FoldLines,
    Output,
    End,
    WayBack,
    Walk,
    ClausesProgram,
    ModelProgram,
}

/// In the order of their numbers, which count from 1.
pub const KINDS: [Kind; 16] = [
    Kind::Judge,
    Kind::Body,
    Kind::Counts,
    Kind::Clause,
    Kind::HeaderText,
    Kind::ClauseText,
    Kind::ManyLines,
    Kind::Start,
    Kind::Line,
    Kind::FoldLines,
    Kind::Output,
    Kind::End,
    Kind::WayBack,
    Kind::Walk,
    Kind::ClausesProgram,
    Kind::ModelProgram,
];

pub const MOST_FILE: usize = 32_768;
pub const MOST_TEXT: usize = 1_114_112;
pub const MOST_ROOM: usize = 65_536;
pub const MOST_LITERALS: usize = 1_024;
pub const MOST_ROW_WORDS: usize = 16_384;
pub const MOST_ENTRIES: usize = 128;

/// One call: a kind, the numbers and the memory it may ask for.
#[derive(Clone, Debug, PartialEq, Eq)]
pub struct Case {
    pub kind: Kind,
    pub horizon: u64,
    /// The number of a body or of a clause.
    pub asked: u64,
    /// N and the phase of a reading state.
    pub highest: u64,
    pub phase: u64,
    pub file: Vec<u8>,
    /// A line, an output or a program's input.
    pub text: Vec<u8>,
    pub room: Vec<u8>,
    pub literals: Vec<u64>,
    pub given: Vec<u64>,
    pub truth: Vec<u64>,
    pub entries: Vec<u64>,
}

impl Case {
    pub fn new(kind: Kind) -> Case {
        Case {
            kind,
            horizon: 0,
            asked: 0,
            highest: 0,
            phase: 0,
            file: Vec::new(),
            text: Vec::new(),
            room: Vec::new(),
            literals: Vec::new(),
            given: Vec::new(),
            truth: Vec::new(),
            entries: Vec::new(),
        }
    }

    pub fn kind_number(&self) -> u64 {
        kind_number(self.kind)
    }
}

pub fn kind_number(kind: Kind) -> u64 {
    KINDS.iter().position(|&other| other == kind).map_or(0, |index| index as u64 + 1)
}

pub fn kind_of(number: u64) -> io::Result<Kind> {
    let index = number.checked_sub(1).and_then(|index| usize::try_from(index).ok());
    let kind = index.and_then(|index| KINDS.get(index));
    kind.copied().ok_or_else(|| wrong("no such kind"))
}

fn wrong(text: &str) -> io::Error {
    io::Error::new(ErrorKind::InvalidData, text)
}

pub fn write_number(out: &mut dyn Write, number: u64) -> io::Result<()> {
    out.write_all(&number.to_le_bytes())
}

pub fn write_bytes(out: &mut dyn Write, bytes: &[u8]) -> io::Result<()> {
    write_number(out, bytes.len() as u64)?;
    out.write_all(bytes)
}

pub fn write_words(out: &mut dyn Write, words: &[u64]) -> io::Result<()> {
    write_number(out, words.len() as u64)?;
    words.iter().try_for_each(|&word| write_number(out, word))
}

pub fn write_case(out: &mut dyn Write, case: &Case) -> io::Result<()> {
    for number in [case.kind_number(), case.horizon, case.asked, case.highest, case.phase] {
        write_number(out, number)?;
    }
    write_bytes(out, &case.file)?;
    write_bytes(out, &case.text)?;
    write_lent(out, case)
}

/// The lent memory, the same in a case and in its answer.
pub fn write_lent(out: &mut dyn Write, case: &Case) -> io::Result<()> {
    write_bytes(out, &case.room)?;
    for words in [&case.literals, &case.given, &case.truth, &case.entries] {
        write_words(out, words)?;
    }
    Ok(())
}

fn read_number(from: &mut dyn Read) -> io::Result<u64> {
    let mut bytes = [0; size_of::<u64>()];
    from.read_exact(&mut bytes)?;
    Ok(u64::from_le_bytes(bytes))
}

fn read_length(from: &mut dyn Read, most: usize) -> io::Result<usize> {
    match usize::try_from(read_number(from)?) {
        Ok(length) if length <= most => Ok(length),
        _ => Err(wrong("a field is longer than its bound")),
    }
}

fn read_bytes(from: &mut dyn Read, most: usize) -> io::Result<Vec<u8>> {
    let mut bytes = vec![0; read_length(from, most)?];
    from.read_exact(&mut bytes)?;
    Ok(bytes)
}

fn read_words(from: &mut dyn Read, most: usize) -> io::Result<Vec<u64>> {
    (0..read_length(from, most)?).map(|_| read_number(from)).collect()
}

/// The next case, or none where the stream ends between two cases.
pub fn read_case(from: &mut dyn Read) -> io::Result<Option<Case>> {
    let mut first = [0; 1];
    if from.read(&mut first)? == 0 {
        return Ok(None);
    }
    let mut whole = (&first[..]).chain(from);
    let mut case = Case::new(kind_of(read_number(&mut whole)?)?);
    case.horizon = read_number(&mut whole)?;
    case.asked = read_number(&mut whole)?;
    case.highest = read_number(&mut whole)?;
    case.phase = read_number(&mut whole)?;
    case.file = read_bytes(&mut whole, MOST_FILE)?;
    case.text = read_bytes(&mut whole, MOST_TEXT)?;
    case.room = read_bytes(&mut whole, MOST_ROOM)?;
    case.literals = read_words(&mut whole, MOST_LITERALS)?;
    case.given = read_words(&mut whole, MOST_ROW_WORDS)?;
    case.truth = read_words(&mut whole, MOST_ROW_WORDS)?;
    case.entries = read_words(&mut whole, MOST_ENTRIES)?;
    Ok(Some(case))
}
