//! What the commands do with a stream of cases and with a program's runs,
//! whatever a case is.

use std::error::Error;
use std::fs::File;
use std::io::{self, BufReader, BufWriter, Read, Write};
use std::process::{Command, Stdio};
use std::thread;

pub type Outcome = Result<(), Box<dyn Error>>;

/// A program prints to the function it is given.
pub type Program = fn(&[u8], &mut dyn FnMut(&[u8]));

/// A case that stands in a stream.
pub trait Streamed: Sized {
    fn read(from: &mut dyn Read) -> io::Result<Option<Self>>;
    fn write(&self, out: &mut dyn Write) -> io::Result<()>;
    /// Makes the call and writes its answer.
    fn write_answer(&mut self, out: &mut dyn Write) -> io::Result<()>;
    /// The call's name in messages.
    fn name(&self) -> String;
    /// The bare text, to be fed to a program itself.
    fn text(&self) -> &[u8];
    /// The numbers that an answer begins with.
    fn numbers(answer: &[u8]) -> Vec<u64>;
}

/// Calls the action on every case of a stream, with its number from 0.
pub fn each_case<C: Streamed>(
    from: impl Read,
    mut action: impl FnMut(u64, C) -> Outcome,
) -> Outcome {
    let mut from = BufReader::new(from);
    let mut index = 0;
    while let Some(case) = C::read(&mut from)? {
        action(index, case)?;
        index += 1;
    }
    Ok(())
}

pub fn answer<C: Streamed>() -> Outcome {
    let mut out = BufWriter::new(io::stdout().lock());
    each_case(io::stdin().lock(), |_, mut case: C| Ok(case.write_answer(&mut out)?))?;
    Ok(out.flush()?)
}

/// Holds a stream of answers against this program's, up to the first that
/// differs: behind it the other stream may be out of step.
pub fn compare<C: Streamed>(cases: &str, answers: &str) -> Outcome {
    let mut others = BufReader::new(File::open(answers)?);
    let mut count = 0;
    each_case(File::open(cases)?, |index, mut case: C| {
        let mut own = Vec::new();
        case.write_answer(&mut own)?;
        let mut other = Vec::new();
        others.by_ref().take(own.len() as u64).read_to_end(&mut other)?;
        if own != other {
            return Err(difference(index, &case, &own, &other).into());
        }
        count += 1;
        Ok(())
    })?;
    if others.read(&mut [0])? != 0 {
        return Err("answers are left over behind the last case".into());
    }
    println!("{count} cases, no difference");
    Ok(())
}

fn difference<C: Streamed>(index: u64, case: &C, own: &[u8], other: &[u8]) -> String {
    let first = own.iter().zip(other).take_while(|(a, b)| a == b).count();
    let (here, there) = (C::numbers(own), C::numbers(other));
    let name = case.name();
    if first == other.len() {
        return format!("case {index}, {name}: the other answers end; here {here:?}");
    }
    format!("case {index}, {name}: differs at byte {first}; here {here:?}, there {there:?}")
}

/// Runs a program itself on each case's text, given as a command and as the
/// program of the same name here, and holds what the two print together.
pub fn compare_runs<'a, C: Streamed>(
    cases: &str,
    program_of: impl Fn(&C) -> Result<(&'a str, Program), Box<dyn Error>>,
) -> Outcome {
    let mut count = 0;
    each_case(File::open(cases)?, |index, case: C| {
        let name = case.name();
        let (command, program) =
            program_of(&case).map_err(|error| format!("case {index}, {name}: {error}"))?;
        if output_of(command, case.text().to_vec())? != printed(program, case.text()) {
            return Err(format!("case {index}, {name}: {command} prints something else").into());
        }
        count += 1;
        Ok(())
    })?;
    println!("{count} runs, no difference");
    Ok(())
}

fn printed(program: Program, input: &[u8]) -> Vec<u8> {
    let mut text = Vec::new();
    program(input, &mut |line| text.extend_from_slice(line));
    text
}

/// What a command prints for an input. A program that stops reading early may
/// print all the same, so an input that it does not take is no fault here.
fn output_of(command: &str, input: Vec<u8>) -> Result<Vec<u8>, Box<dyn Error>> {
    let mut child = Command::new(command).stdin(Stdio::piped()).stdout(Stdio::piped()).spawn()?;
    let mut stdin = child.stdin.take().ok_or("no standard input")?;
    let writer = thread::spawn(move || drop(stdin.write_all(&input)));
    let output = child.wait_with_output()?;
    writer.join().map_err(|_| "the input's thread broke off")?;
    match output.status.success() {
        true => Ok(output.stdout),
        false => Err(format!("{command} ends with {}", output.status).into()),
    }
}

pub fn pick<C: Streamed>(wanted: u64) -> Outcome {
    let mut out = io::stdout().lock();
    each_case(io::stdin().lock(), |index, case: C| match index == wanted {
        true => Ok(case.write(&mut out)?),
        false => Ok(()),
    })
}

/// The bare text of each case, to be fed to a program itself.
pub fn input<C: Streamed>() -> Outcome {
    let mut out = io::stdout().lock();
    each_case(io::stdin().lock(), |_, case: C| Ok(out.write_all(case.text())?))
}
