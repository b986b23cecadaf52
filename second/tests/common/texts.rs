//! The folder example as a translator's text, and short ways to change it.

use second::refusal::Answer;
use second::translator::{translate, LineKind};

/// Lists in no order, a precondition once as a prevail condition and once as
/// an old value; each kind of line stands in it.
pub const FOLDER_TEXT: &str = "begin_version\n3\nend_version\nbegin_metric\n0\nend_metric\n2\n\
    begin_variable\nfolder\n-1\n2\nAtom free(folder)\nAtom held(folder)\nend_variable\n\
    begin_variable\nrun\n-1\n2\nAtom waiting(run)\nAtom done(run)\nend_variable\n\
    1\nbegin_mutex_group\n2\n0 0\n0 1\nend_mutex_group\n\
    begin_state\n0\n0\nend_state\nbegin_goal\n1\n1 1\nend_goal\n2\n\
    begin_operator\ntake\n0\n1\n0 0 0 1\n1\nend_operator\n\
    begin_operator\nrun\n1\n0 1\n2\n0 1 0 1\n0 0 -1 0\n1\nend_operator\n0\n";

pub const FOLDER_LINES: usize = 53;

/// Lines of the folder's text by their numbers from 1.
pub const VERSION: usize = 2;
pub const METRIC: usize = 5;
pub const VARIABLE_COUNT: usize = 7;
pub const FIRST_LAYER: usize = 10;
pub const SECOND_LAYER: usize = 17;
pub const MUTEX_PAIR: usize = 25;
pub const EFFECT: usize = 41;
pub const COST: usize = 42;
pub const PREVAIL_COUNT: usize = 46;
pub const AXIOM_COUNT: usize = 53;

/// What each of the folder's lines is.
pub const FOLDER_KINDS: [LineKind; FOLDER_LINES] = {
    use LineKind::*;
    [
        BeginVersion,
        Version,
        EndVersion,
        BeginMetric,
        Metric,
        EndMetric,
        VariableCount,
        BeginVariable,
        VariableName,
        AxiomLayer,
        Range,
        AtomName,
        AtomName,
        EndVariable,
        BeginVariable,
        VariableName,
        AxiomLayer,
        Range,
        AtomName,
        AtomName,
        EndVariable,
        MutexGroupCount,
        BeginMutexGroup,
        MutexPairCount,
        MutexPair,
        MutexPair,
        EndMutexGroup,
        BeginState,
        StartValue,
        StartValue,
        EndState,
        BeginGoal,
        GoalCount,
        GoalPair,
        EndGoal,
        OperatorCount,
        BeginOperator,
        OperatorName,
        PrevailCount,
        EffectCount,
        Effect,
        Cost,
        EndOperator,
        BeginOperator,
        OperatorName,
        PrevailCount,
        PrevailPair,
        EffectCount,
        Effect,
        Effect,
        Cost,
        EndOperator,
        AxiomCount,
    ]
};

pub fn folder_lines() -> Vec<Vec<u8>> {
    FOLDER_TEXT.lines().map(|line| line.as_bytes().to_vec()).collect()
}

/// Each line with its LF.
pub fn joined(lines: &[Vec<u8>]) -> Vec<u8> {
    lines.iter().flat_map(|line| [line, &b"\n"[..]].concat()).collect()
}

/// The folder's text with another line of that number.
pub fn with_line(number: usize, line: impl AsRef<[u8]>) -> Vec<u8> {
    let mut lines = folder_lines();
    lines[number - 1] = line.as_ref().to_vec();
    joined(&lines)
}

/// What the folder's text gives with another line of that number.
pub fn line_gives(number: usize, line: impl AsRef<[u8]>) -> Answer<Vec<u8>> {
    translate(&with_line(number, line))
}

/// A text of a task: ranges, start, goal lines and operators, each a list of
/// prevail lines and a list of effect lines.
pub struct Stated<'a> {
    pub ranges: &'a [usize],
    pub start: &'a [usize],
    pub goal: &'a [&'a str],
    pub operators: &'a [(&'a [&'a str], &'a [&'a str])],
}

impl Stated<'_> {
    pub fn text(&self) -> Vec<u8> {
        let mut text = "begin_version\n3\nend_version\nbegin_metric\n1\nend_metric\n".to_string();
        text += &format!("{}\n", self.ranges.len());
        for range in self.ranges {
            let names = "\n".repeat(*range);
            text += &format!("begin_variable\n\n-1\n{range}\n{names}end_variable\n");
        }
        text += "0\nbegin_state\n";
        self.start.iter().for_each(|value| text += &format!("{value}\n"));
        text += &format!("end_state\nbegin_goal\n{}end_goal\n", counted(self.goal));
        text += &format!("{}\n", self.operators.len());
        for (prevail, effects) in self.operators {
            let (prevail, effects) = (counted(prevail), counted(effects));
            text += &format!("begin_operator\n\n{prevail}{effects}0\nend_operator\n");
        }
        (text + "0\n").into_bytes()
    }

    pub fn translated(&self) -> Answer<Vec<u8>> {
        translate(&self.text())
    }

    /// The refusal as number and detail; none on acceptance.
    pub fn refused(&self) -> Option<(u64, u64)> {
        self.translated().err().map(|refusal| (refusal.number, refusal.detail))
    }
}

/// A count and that many lines.
fn counted(lines: &[&str]) -> String {
    let lines: String = lines.iter().map(|line| format!("{line}\n")).collect();
    format!("{}\n{lines}", lines.matches('\n').count())
}

/// A number as the format has it: what it reads as is written the same.
fn is_number(word: &str) -> bool {
    let number = word.parse::<u32>().ok().filter(|&number| number <= 999_999);
    number.is_some_and(|number| number.to_string() == word)
}

/// Whether a line can stand where that kind is wanted, or its refusal: the
/// format a second time, line by line.
pub fn judged(kind: LineKind, line: &[u8]) -> Result<(), u64> {
    let text = String::from_utf8_lossy(line);
    let words: Vec<&str> = text.split(' ').collect();
    let forbidden = is_number(words[0]) && words[0] != "0";
    let in_order = match kind {
        LineKind::Version if is_number(&text) && text != "3" => return Err(32),
        LineKind::AxiomLayer if is_number(words[0]) => return Err(31),
        LineKind::AxiomCount | LineKind::Effect if forbidden => return Err(31),
        LineKind::Version => text == "3",
        LineKind::Metric => text == "0" || text == "1",
        LineKind::AxiomLayer => text == "-1",
        LineKind::AxiomCount => text == "0",
        LineKind::Effect => match words[..] {
            ["0", x, old, new] => is_number(x) && (old == "-1" || is_number(old)) && is_number(new),
            _ => false,
        },
        LineKind::MutexPair | LineKind::GoalPair | LineKind::PrevailPair => {
            words.len() == 2 && words.iter().all(|word| is_number(word))
        }
        LineKind::Behind => false,
        _ if kind.is_name() => true,
        _ => kind.keyword().map_or(is_number(&text), |keyword| text == keyword),
    };
    if in_order {
        Ok(())
    } else {
        Err(30)
    }
}
