//! The seeded stream of cases: calls on good and damaged inputs of all sizes.

mod formulas;
mod lent;
mod program_inputs;
mod readings;
mod schedules;
mod subjects;

use crate::protocol::*;
use crate::random::Random;

/// How wide the numbers and how long the fields of a stream may get. The
/// bounds of the protocol stand; a narrower reader asks for less.
pub struct Options {
    pub number_bits: u32,
    pub entry_bits: u32,
    pub row_words: usize,
    pub text_bytes: usize,
    /// The most clauses the clause program is asked to print.
    pub printed_clauses: u64,
    pub kinds: Vec<Kind>,
}

/// Whole formulas of the larger tasks would fill the stream.
const FEW_CLAUSES: u64 = 30_000;

impl Default for Options {
    fn default() -> Options {
        Options {
            number_bits: u64::BITS,
            entry_bits: u64::BITS,
            row_words: MOST_ROW_WORDS,
            text_bytes: MOST_TEXT,
            printed_clauses: FEW_CLAUSES,
            kinds: KINDS.to_vec(),
        }
    }
}

/// Phases by their numbers in a case.
const NO_STATUS: u64 = 0;
const SATISFIABLE_OPEN: u64 = 1;
const CLOSED: u64 = 2;
const UNSATISFIABLE: u64 = 3;
const UNKNOWN: u64 = 4;

/// N of the folder example at k = 1, for cases whose file has none.
const SOME_HIGHEST: u64 = 10;

pub struct Maker {
    random: Random,
    options: Options,
}

impl Maker {
    pub fn new(seed: u64, options: Options) -> Maker {
        Maker { random: Random::new(seed), options }
    }

    /// The next case of the stream.
    pub fn case(&mut self) -> Case {
        let kind = self.random.pick(&self.options.kinds);
        let mut case = Case::new(kind);
        match kind {
            Kind::Judge => self.fill_judge(&mut case),
            Kind::Body => self.fill_body(&mut case),
            Kind::Counts => drop(self.put_subject(&mut case)),
            Kind::Clause => self.fill_clause(&mut case),
            Kind::HeaderText => self.fill_header_text(&mut case),
            Kind::ClauseText => self.fill_clause_text(&mut case),
            Kind::ManyLines => self.fill_many_lines(&mut case),
            Kind::Start => self.fill_start(&mut case),
            Kind::Line => self.fill_line(&mut case),
            Kind::FoldLines | Kind::Output => self.fill_output(&mut case),
            Kind::End => self.fill_end(&mut case),
            Kind::WayBack | Kind::Walk => self.fill_schedule(&mut case),
            Kind::ClausesProgram => self.fill_clauses_program(&mut case),
            Kind::ModelProgram => self.fill_model_program(&mut case),
        }
        case.text.truncate(self.options.text_bytes);
        case
    }
}
