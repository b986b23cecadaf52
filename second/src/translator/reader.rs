//! The translator's text, line by line from the first: refusals 30 to 32, or
//! the numbers that were read, whatever their size.

use super::line_kind::LineKind;
use crate::limits::MOST_DIGITS;
use crate::refusal::*;
use crate::solver_lines::lines_of;

const OUR_VERSION: usize = 3;
/// Whether the text has action costs; either is passed over.
const METRICS: [usize; 2] = [0, 1];
/// The layer of a variable that no axiom sets, and the old value that is no
/// precondition.
const MINUS_ONE: &[u8] = b"-1";

/// A variable and a value as they were read.
#[derive(Clone, Copy, Debug, PartialEq, Eq)]
pub struct TextPair {
    pub variable: usize,
    pub value: usize,
}

#[derive(Clone, Copy, Debug, PartialEq, Eq)]
pub struct TextEffect {
    pub variable: usize,
    /// None for -1.
    pub old: Option<usize>,
    pub new: usize,
}

#[derive(Clone, Debug, PartialEq, Eq)]
pub struct Operator {
    pub prevail: Vec<TextPair>,
    pub effects: Vec<TextEffect>,
}

/// What a text says of its task; lists stand as they came.
#[derive(Clone, Debug, PartialEq, Eq)]
pub struct TextTask {
    pub ranges: Vec<usize>,
    pub start: Vec<usize>,
    pub goal: Vec<TextPair>,
    pub operators: Vec<Operator>,
}

/// The first line at fault, and what it should have been.
#[derive(Clone, Copy, Debug, PartialEq, Eq)]
pub struct LineFault {
    pub refusal: Refusal,
    pub wanted: LineKind,
    /// The text stops before this line.
    pub missing: bool,
}

type Reading<T> = Result<T, LineFault>;

pub fn read_text(text: &[u8]) -> Reading<TextTask> {
    let mut reader = Reader { lines: lines_of(text), taken: 0 };
    reader.version()?;
    reader.metric()?;
    let ranges = reader.variables()?;
    reader.mutex_groups()?;
    let start = reader.start(ranges.len())?;
    let goal = reader.goal()?;
    let operators = reader.operators()?;
    reader.axioms()?;
    reader.end()?;
    Ok(TextTask { ranges, start, goal, operators })
}

/// 0, or a digit 1 to 9 and at most five more.
fn plain_number(word: &[u8]) -> Option<usize> {
    let leading_zero = word.len() > 1 && word[0] == b'0';
    if word.is_empty() || word.len() > MOST_DIGITS || leading_zero {
        return None;
    }
    if !word.iter().all(u8::is_ascii_digit) {
        return None;
    }
    std::str::from_utf8(word).ok()?.parse().ok()
}

/// Words are parted by one space; two spaces, and one at either end, leave an
/// empty word, which is no number.
fn words_of(line: &[u8]) -> Vec<&[u8]> {
    line.split(|&byte| byte == b' ').collect()
}

struct Reader<'a> {
    lines: Vec<&'a [u8]>,
    taken: usize,
}

impl<'a> Reader<'a> {
    /// A refusal of the line that was taken last.
    fn fault<T>(&self, number: u64, wanted: LineKind) -> Reading<T> {
        let missing = self.taken > self.lines.len();
        let refusal = Refusal { number, detail: self.taken as u64 };
        Err(LineFault { refusal, wanted, missing })
    }

    fn line(&mut self, wanted: LineKind) -> Reading<&'a [u8]> {
        self.taken += 1;
        match self.lines.get(self.taken - 1) {
            Some(line) => Ok(line),
            None => self.fault(AGAINST_FORMAT, wanted),
        }
    }

    fn keyword(&mut self, wanted: LineKind) -> Reading<()> {
        let line = self.line(wanted)?;
        match wanted.keyword() {
            Some(keyword) if line == keyword.as_bytes() => Ok(()),
            _ => self.fault(AGAINST_FORMAT, wanted),
        }
    }

    fn name(&mut self, wanted: LineKind) -> Reading<()> {
        self.line(wanted).map(|_| ())
    }

    fn number(&mut self, wanted: LineKind) -> Reading<usize> {
        let line = self.line(wanted)?;
        match plain_number(line) {
            Some(number) => Ok(number),
            None => self.fault(AGAINST_FORMAT, wanted),
        }
    }

    fn pair(&mut self, wanted: LineKind) -> Reading<TextPair> {
        let line = self.line(wanted)?;
        let numbers: Option<Vec<usize>> = words_of(line).into_iter().map(plain_number).collect();
        match numbers.as_deref() {
            Some(&[variable, value]) => Ok(TextPair { variable, value }),
            _ => self.fault(AGAINST_FORMAT, wanted),
        }
    }

    /// A count and that many pairs.
    fn pairs(&mut self, count: LineKind, each: LineKind) -> Reading<Vec<TextPair>> {
        let count = self.number(count)?;
        (0..count).map(|_| self.pair(each)).collect()
    }

    fn version(&mut self) -> Reading<()> {
        self.keyword(LineKind::BeginVersion)?;
        if self.number(LineKind::Version)? != OUR_VERSION {
            return self.fault(OTHER_VERSION, LineKind::Version);
        }
        self.keyword(LineKind::EndVersion)
    }

    fn metric(&mut self) -> Reading<()> {
        self.keyword(LineKind::BeginMetric)?;
        let metric = self.number(LineKind::Metric)?;
        if !METRICS.contains(&metric) {
            return self.fault(AGAINST_FORMAT, LineKind::Metric);
        }
        self.keyword(LineKind::EndMetric)
    }

    fn variables(&mut self) -> Reading<Vec<usize>> {
        let count = self.number(LineKind::VariableCount)?;
        (0..count).map(|_| self.variable()).collect()
    }

    /// One variable's range.
    fn variable(&mut self) -> Reading<usize> {
        self.keyword(LineKind::BeginVariable)?;
        self.name(LineKind::VariableName)?;
        self.axiom_layer()?;
        let range = self.number(LineKind::Range)?;
        for _ in 0..range {
            self.name(LineKind::AtomName)?;
        }
        self.keyword(LineKind::EndVariable)?;
        Ok(range)
    }

    /// The first word is judged first: a layer that is no -1 leaves the rest
    /// of its line unread.
    fn axiom_layer(&mut self) -> Reading<()> {
        let words = words_of(self.line(LineKind::AxiomLayer)?);
        if words == [MINUS_ONE] {
            return Ok(());
        }
        match plain_number(words[0]) {
            Some(_) => self.fault(NOT_TAKEN, LineKind::AxiomLayer),
            None => self.fault(AGAINST_FORMAT, LineKind::AxiomLayer),
        }
    }

    fn mutex_groups(&mut self) -> Reading<()> {
        let count = self.number(LineKind::MutexGroupCount)?;
        for _ in 0..count {
            self.keyword(LineKind::BeginMutexGroup)?;
            self.pairs(LineKind::MutexPairCount, LineKind::MutexPair)?;
            self.keyword(LineKind::EndMutexGroup)?;
        }
        Ok(())
    }

    fn start(&mut self, variables: usize) -> Reading<Vec<usize>> {
        self.keyword(LineKind::BeginState)?;
        let values: Reading<Vec<usize>> =
            (0..variables).map(|_| self.number(LineKind::StartValue)).collect();
        let values = values?;
        self.keyword(LineKind::EndState)?;
        Ok(values)
    }

    fn goal(&mut self) -> Reading<Vec<TextPair>> {
        self.keyword(LineKind::BeginGoal)?;
        let pairs = self.pairs(LineKind::GoalCount, LineKind::GoalPair)?;
        self.keyword(LineKind::EndGoal)?;
        Ok(pairs)
    }

    fn operators(&mut self) -> Reading<Vec<Operator>> {
        let count = self.number(LineKind::OperatorCount)?;
        (0..count).map(|_| self.operator()).collect()
    }

    fn operator(&mut self) -> Reading<Operator> {
        self.keyword(LineKind::BeginOperator)?;
        self.name(LineKind::OperatorName)?;
        let prevail = self.pairs(LineKind::PrevailCount, LineKind::PrevailPair)?;
        let count = self.number(LineKind::EffectCount)?;
        let effects: Reading<Vec<TextEffect>> = (0..count).map(|_| self.effect()).collect();
        let effects = effects?;
        self.number(LineKind::Cost)?;
        self.keyword(LineKind::EndOperator)?;
        Ok(Operator { prevail, effects })
    }

    /// Conditions, variable, old value and new value; the conditions are
    /// judged before the rest of the line.
    fn effect(&mut self) -> Reading<TextEffect> {
        let words = words_of(self.line(LineKind::Effect)?);
        match plain_number(words[0]) {
            Some(0) => {}
            Some(_) => return self.fault(NOT_TAKEN, LineKind::Effect),
            None => return self.fault(AGAINST_FORMAT, LineKind::Effect),
        }
        match unconditional_effect(&words[1..]) {
            Some(effect) => Ok(effect),
            None => self.fault(AGAINST_FORMAT, LineKind::Effect),
        }
    }

    fn axioms(&mut self) -> Reading<()> {
        let words = words_of(self.line(LineKind::AxiomCount)?);
        match plain_number(words[0]) {
            Some(0) if words.len() == 1 => Ok(()),
            Some(0) | None => self.fault(AGAINST_FORMAT, LineKind::AxiomCount),
            Some(_) => self.fault(NOT_TAKEN, LineKind::AxiomCount),
        }
    }

    fn end(&mut self) -> Reading<()> {
        if self.taken == self.lines.len() {
            return Ok(());
        }
        self.taken += 1;
        self.fault(AGAINST_FORMAT, LineKind::Behind)
    }
}

fn unconditional_effect(words: &[&[u8]]) -> Option<TextEffect> {
    let &[variable, old, new] = words else {
        return None;
    };
    let old = if old == MINUS_ONE { None } else { Some(plain_number(old)?) };
    Some(TextEffect { variable: plain_number(variable)?, old, new: plain_number(new)? })
}
