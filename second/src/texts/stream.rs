//! The stream of texts and the stream of answers to them. Lengths have four
//! bytes, low byte first; an answer's room needs no length, its case has it.

use crate::refusal::Refusal;
use crate::translator::translate_into;
use std::io::{self, ErrorKind, Read, Write};

/// The bounds of a stream for the program that answers texts.
pub const MOST_TEXT_ROOM: usize = 20_000;
pub const MOST_STREAM_TEXT: usize = 262_144;
/// The longest text that is ever written, for the program that takes a text
/// of any length.
pub const LONGEST_TEXT: usize = 4_194_304;

/// What the room is full of before the call.
pub const ROOM_MARK: u8 = 0xA5;

/// One call: a text, the length of the room, and how the text is fed.
#[derive(Clone, Debug, PartialEq, Eq)]
pub struct TextCase {
    pub room: usize,
    /// How many bytes are fed at a time, 0 for all at once; no answer depends
    /// on it.
    pub piece: usize,
    pub text: Vec<u8>,
}

pub struct TextAnswer {
    pub number: u64,
    pub detail: u64,
    pub room: Vec<u8>,
}

impl TextCase {
    pub fn answer(&self) -> TextAnswer {
        let mut room = vec![ROOM_MARK; self.room];
        let (number, detail) = match translate_into(&self.text, &mut room) {
            Ok(_) => (0, 0),
            Err(Refusal { number, detail }) => (number, detail),
        };
        TextAnswer { number, detail, room }
    }
}

fn write_length(out: &mut dyn Write, length: usize) -> io::Result<()> {
    let length = u32::try_from(length).map_err(|_| io::Error::from(ErrorKind::InvalidInput))?;
    out.write_all(&length.to_le_bytes())
}

pub fn write_text_case(out: &mut dyn Write, case: &TextCase) -> io::Result<()> {
    for length in [case.room, case.piece, case.text.len()] {
        write_length(out, length)?;
    }
    out.write_all(&case.text)
}

fn read_length(from: &mut dyn Read, most: usize) -> io::Result<usize> {
    let mut bytes = [0; size_of::<u32>()];
    from.read_exact(&mut bytes)?;
    match usize::try_from(u32::from_le_bytes(bytes)) {
        Ok(length) if length <= most => Ok(length),
        _ => Err(io::Error::new(ErrorKind::InvalidData, "a length is over its bound")),
    }
}

/// The next case, or none where the stream ends between two cases.
pub fn read_text_case(from: &mut dyn Read) -> io::Result<Option<TextCase>> {
    let mut first = [0; 1];
    if from.read(&mut first)? == 0 {
        return Ok(None);
    }
    let mut whole = (&first[..]).chain(from);
    let room = read_length(&mut whole, MOST_TEXT_ROOM)?;
    let piece = read_length(&mut whole, u32::MAX as usize)?;
    let mut text = vec![0; read_length(&mut whole, LONGEST_TEXT)?];
    whole.read_exact(&mut text)?;
    Ok(Some(TextCase { room, piece, text }))
}

/// A byte for the number, eight for the detail, then the room.
pub fn write_text_answer(out: &mut dyn Write, answer: &TextAnswer) -> io::Result<()> {
    out.write_all(&[answer.number as u8])?;
    out.write_all(&answer.detail.to_le_bytes())?;
    out.write_all(&answer.room)
}
