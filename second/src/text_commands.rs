//! The commands over streams of translator's texts.

use crate::streams::*;
use second::programs::translate_program;
use second::texts::stream::*;
use second::texts::sweep::sweep;
use second::texts::TextMaker;
use second::translator::{read_text, LineKind, LINE_KINDS};
use std::collections::{BTreeMap, BTreeSet};
use std::error::Error;
use std::io::{self, BufWriter, Read, Write};

impl Streamed for TextCase {
    fn read(from: &mut dyn Read) -> io::Result<Option<TextCase>> {
        read_text_case(from)
    }

    fn write(&self, out: &mut dyn Write) -> io::Result<()> {
        write_text_case(out, self)
    }

    fn write_answer(&mut self, out: &mut dyn Write) -> io::Result<()> {
        write_text_answer(out, &self.answer())
    }

    fn name(&self) -> String {
        format!("text of {} bytes, room {}, piece {}", self.text.len(), self.room, self.piece)
    }

    fn text(&self) -> &[u8] {
        &self.text
    }

    fn numbers(answer: &[u8]) -> Vec<u64> {
        let (number, behind) = answer.split_at(answer.len().min(1));
        let detail = behind.first_chunk().map(|bytes| u64::from_le_bytes(*bytes));
        number.iter().map(|&number| u64::from(number)).chain(detail).collect()
    }
}

pub fn texts(seed: u64, count: u64, options: &[&str]) -> Outcome {
    let mut maker = TextMaker::new(seed, longest_text(options)?);
    write_texts((0..count).map(|_| maker.case()))
}

/// One small text changed in every way.
pub fn swept() -> Outcome {
    write_texts(sweep())
}

fn write_texts(cases: impl Iterator<Item = TextCase>) -> Outcome {
    let mut out = BufWriter::new(io::stdout().lock());
    for case in cases {
        write_text_case(&mut out, &case)?;
    }
    Ok(out.flush()?)
}

fn longest_text(options: &[&str]) -> Result<usize, Box<dyn Error>> {
    let mut longest = MOST_STREAM_TEXT;
    for option in options {
        let value = option.strip_prefix("text_bytes=").ok_or("the one option is text_bytes=")?;
        longest = value.parse()?;
    }
    match longest <= LONGEST_TEXT {
        true => Ok(longest),
        false => Err(format!("a text has at most {LONGEST_TEXT} bytes").into()),
    }
}

pub fn compare_translations(cases: &str, translate: &str) -> Outcome {
    compare_runs(cases, |_: &TextCase| Ok((translate, translate_program)))
}

/// Answers counted by number, and refusals of lines by what each line should
/// have been.
#[derive(Default)]
struct Tally {
    details: BTreeMap<u64, Vec<u64>>,
    lines: BTreeMap<LineKind, BTreeMap<u64, usize>>,
    missing: BTreeMap<LineKind, usize>,
}

impl Tally {
    fn add(&mut self, case: &TextCase) {
        let answer = case.answer();
        self.details.entry(answer.number).or_default().push(answer.detail);
        let Err(fault) = read_text(&case.text) else {
            return;
        };
        if fault.missing {
            *self.missing.entry(fault.wanted).or_default() += 1;
        } else {
            let numbers = self.lines.entry(fault.wanted).or_default();
            *numbers.entry(fault.refusal.number).or_default() += 1;
        }
    }

    fn print_kind(&self, kind: LineKind) {
        print!("{kind:?}");
        for (number, count) in self.lines.get(&kind).into_iter().flatten() {
            print!(" {number}:{count}");
        }
        println!(" missing:{}", self.missing.get(&kind).copied().unwrap_or(0));
    }

    fn print_numbers(&self) {
        print!("Texts");
        for (number, details) in &self.details {
            let different: BTreeSet<&u64> = details.iter().collect();
            print!(" {number}:{}/{}", details.len(), different.len());
        }
        println!();
    }
}

/// For each kind of line how often a line of it was refused, and how often
/// the text stopped before it; at last each number, with how many details.
pub fn tally() -> Outcome {
    let mut tally = Tally::default();
    each_case(io::stdin().lock(), |_, case: TextCase| {
        tally.add(&case);
        Ok(())
    })?;
    LINE_KINDS.into_iter().for_each(|kind| tally.print_kind(kind));
    tally.print_numbers();
    Ok(())
}

pub fn show() -> Outcome {
    each_case(io::stdin().lock(), |index, case: TextCase| {
        println!("case {index}: {}", case.name());
        let text = case.text.escape_ascii().to_string();
        println!("{}", text.replace("\\n", "\\n\n"));
        let answer = case.answer();
        println!("answer: {} {}", answer.number, answer.detail);
        println!("room: {}", answer.room.escape_ascii());
        if let Err(fault) = read_text(&case.text) {
            println!("wanted: {:?}", fault.wanted);
        }
        Ok(())
    })
}
