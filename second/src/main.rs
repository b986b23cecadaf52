//! The second program's commands; the folder's README says how to use them.

mod streams;
mod text_commands;

use second::answers::{reply, write_answer};
use second::brute_force::{count_good, pair_off_any, MOST_FORMULA_VARIABLES};
use second::cases::{Maker, Options};
use second::draft::{planned, Size};
use second::programs::{clauses_program, model_program, translate_program};
use second::protocol::*;
use second::random::Random;
use second::task_file::judge;
use second::texts::stream::TextCase;
use std::collections::{BTreeMap, BTreeSet};
use std::error::Error;
use std::io::{self, BufWriter, Read, Write};
use std::process::ExitCode;
use streams::*;

const USAGE: &str = "clauses | model | translate | cases SEED COUNT [NAME=VALUE ..] | answer | \
    compare CASES ANSWERS | programs CASES CLAUSES MODEL | tally | pick INDEX | show | input | \
    texts SEED COUNT [text_bytes=VALUE] | texts-sweep | texts-answer | texts-compare CASES ANSWERS | \
    texts-programs CASES TRANSLATE | texts-tally | texts-pick INDEX | texts-show | texts-input | \
    brute SEED COUNT | task SEED STEPS | good HORIZON";

fn main() -> ExitCode {
    let words: Vec<String> = std::env::args().skip(1).collect();
    let words: Vec<&str> = words.iter().map(String::as_str).collect();
    match command(&words) {
        Ok(()) => ExitCode::SUCCESS,
        Err(error) => {
            eprintln!("{error}");
            ExitCode::FAILURE
        }
    }
}

fn command(words: &[&str]) -> Outcome {
    match words {
        ["clauses"] => run_program(clauses_program),
        ["model"] => run_program(model_program),
        ["translate"] => run_program(translate_program),
        ["cases", seed, count, options @ ..] => cases(seed.parse()?, count.parse()?, options),
        ["answer"] => answer::<Case>(),
        ["compare", cases, answers] => compare::<Case>(cases, answers),
        ["programs", cases, clauses, model] => compare_programs(cases, clauses, model),
        ["tally"] => tally(),
        ["pick", index] => pick::<Case>(index.parse()?),
        ["show"] => show(),
        ["input"] => input::<Case>(),
        [name, words @ ..] if name.starts_with(TEXTS) => texts_command(name, words),
        ["brute", seed, count] => brute(seed.parse()?, count.parse()?),
        ["task", seed, steps] => task(seed.parse()?, steps.parse()?),
        ["good", horizon] => good(horizon.parse()?),
        _ => Err(USAGE.into()),
    }
}

/// The first word of every command over a stream of texts.
const TEXTS: &str = "texts";

fn texts_command(name: &str, words: &[&str]) -> Outcome {
    match (name, words) {
        ("texts", [seed, count, options @ ..]) => {
            text_commands::texts(seed.parse()?, count.parse()?, options)
        }
        ("texts-sweep", []) => text_commands::swept(),
        ("texts-answer", []) => answer::<TextCase>(),
        ("texts-compare", [cases, answers]) => compare::<TextCase>(cases, answers),
        ("texts-programs", [cases, translate]) => {
            text_commands::compare_translations(cases, translate)
        }
        ("texts-tally", []) => text_commands::tally(),
        ("texts-pick", [index]) => pick::<TextCase>(index.parse()?),
        ("texts-show", []) => text_commands::show(),
        ("texts-input", []) => input::<TextCase>(),
        _ => Err(USAGE.into()),
    }
}

impl Streamed for Case {
    fn read(from: &mut dyn Read) -> io::Result<Option<Case>> {
        read_case(from)
    }

    fn write(&self, out: &mut dyn Write) -> io::Result<()> {
        write_case(out, self)
    }

    fn write_answer(&mut self, out: &mut dyn Write) -> io::Result<()> {
        write_answer(self, out)
    }

    fn name(&self) -> String {
        format!("{:?}", self.kind)
    }

    fn text(&self) -> &[u8] {
        &self.text
    }

    fn numbers(answer: &[u8]) -> Vec<u64> {
        const REPLY_NUMBERS: usize = 4;
        let words = answer.chunks_exact(size_of::<u64>()).take(REPLY_NUMBERS);
        words.filter_map(|word| word.try_into().ok().map(u64::from_le_bytes)).collect()
    }
}

fn run_program(program: Program) -> Outcome {
    let mut input = Vec::new();
    io::stdin().read_to_end(&mut input)?;
    let mut out = BufWriter::new(io::stdout().lock());
    let mut written = Ok(());
    program(&input, &mut |line| {
        if written.is_ok() {
            written = out.write_all(line);
        }
    });
    written?;
    Ok(out.flush()?)
}

fn options(words: &[&str]) -> Result<Options, Box<dyn Error>> {
    let mut options = Options::default();
    for word in words {
        let (name, value) = word.split_once('=').ok_or("an option is NAME=VALUE")?;
        match name {
            "number_bits" => options.number_bits = value.parse()?,
            "entry_bits" => options.entry_bits = value.parse()?,
            "row_words" => options.row_words = value.parse()?,
            "text_bytes" => options.text_bytes = value.parse()?,
            "printed_clauses" => options.printed_clauses = value.parse()?,
            "kinds" => options.kinds = kinds(value)?,
            _ => return Err(format!("no option {name}").into()),
        }
    }
    Ok(options)
}

fn kinds(list: &str) -> Result<Vec<Kind>, Box<dyn Error>> {
    list.split(',').map(|number| Ok(kind_of(number.parse()?)?)).collect()
}

fn cases(seed: u64, count: u64, words: &[&str]) -> Outcome {
    let mut maker = Maker::new(seed, options(words)?);
    let mut out = BufWriter::new(io::stdout().lock());
    for _ in 0..count {
        write_case(&mut out, &maker.case())?;
    }
    Ok(out.flush()?)
}

/// Runs the two programs themselves, given as commands, on the cases of their
/// kinds and holds what they print against what is printed here.
fn compare_programs(cases: &str, clauses: &str, model: &str) -> Outcome {
    compare_runs(cases, |case: &Case| match case.kind {
        Kind::ClausesProgram => Ok((clauses, clauses_program)),
        Kind::ModelProgram => Ok((model, model_program)),
        _ => Err("no case of a program".into()),
    })
}

/// How often each kind gets each answer number, and with how many details; at
/// last how often each number comes at all.
fn tally() -> Outcome {
    let mut found: BTreeMap<(u64, u64), Vec<u64>> = BTreeMap::new();
    each_case(io::stdin().lock(), |_, mut case: Case| {
        let (number, detail) = judged(&mut case);
        found.entry((case.kind_number(), number)).or_default().push(detail);
        Ok(())
    })?;
    for kind in KINDS {
        let of_kind = |((number, _), _): &(&(u64, u64), &Vec<u64>)| *number == kind_number(kind);
        if !found.iter().any(|entry| of_kind(&entry)) {
            continue;
        }
        print!("{kind:?}");
        for ((_, number), details) in found.iter().filter(of_kind) {
            let different: BTreeSet<&u64> = details.iter().collect();
            print!(" {number}:{}/{}", details.len(), different.len());
        }
        println!();
    }
    print!("All");
    let mut all: BTreeMap<u64, usize> = BTreeMap::new();
    for ((_, number), details) in &found {
        *all.entry(*number).or_default() += details.len();
    }
    all.iter().for_each(|(number, cases)| print!(" {number}:{cases}"));
    println!();
    Ok(())
}

/// A case's number and detail; of a program, those in its refusal's line.
fn judged(case: &mut Case) -> (u64, u64) {
    let program: Program = match case.kind {
        Kind::ClausesProgram => clauses_program,
        Kind::ModelProgram => model_program,
        _ => {
            let reply = reply(case);
            return (reply.number, reply.detail);
        }
    };
    let mut first = None;
    program(&case.text, &mut |line| {
        first.get_or_insert_with(|| String::from_utf8_lossy(line).into_owned());
    });
    let line = first.unwrap_or_default();
    let mut numbers = line.split_whitespace().filter_map(|word| word.parse().ok());
    match (line.starts_with("refused"), numbers.next(), numbers.next()) {
        (true, Some(number), Some(detail)) => (number, detail),
        _ => (0, 0),
    }
}

fn show() -> Outcome {
    each_case(io::stdin().lock(), |index, mut case: Case| {
        println!("case {index}: {case:?}");
        println!("text: {}", case.text.escape_ascii());
        let reply = reply(&mut case);
        println!("answer: {reply:?}, memory after the call: {case:?}");
        Ok(())
    })
}

fn brute(seed: u64, count: u64) -> Outcome {
    let mut random = Random::new(seed);
    let (mut satisfiable, mut schedules, mut partial) = (0, 0, 0);
    for _ in 0..count {
        let found = pair_off_any(&mut random, MOST_FORMULA_VARIABLES)?;
        satisfiable += u64::from(found.assignments > 0);
        schedules += found.assignments;
        partial += found.partial;
    }
    println!("{count} formulas pair off, {satisfiable} satisfiable, {schedules} schedules");
    println!("{partial} accepted models that leave variables out");
    Ok(())
}

/// A small task file whose goal a walk of so many steps has reached.
fn task(seed: u64, steps: usize) -> Outcome {
    let file = planned(&mut Random::new(seed), Size::Small, steps).draft.file();
    Ok(io::stdout().lock().write_all(&file)?)
}

/// How many schedules of the task file on standard input are good.
fn good(horizon: u64) -> Outcome {
    let mut file = Vec::new();
    io::stdin().read_to_end(&mut file)?;
    let task = judge(&file).map_err(|refusal| format!("{refusal:?}"))?;
    println!("{}", count_good(&task, horizon));
    Ok(())
}
