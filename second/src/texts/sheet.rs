//! A text before it is joined: its lines, each with what it is.

use super::draft::{NumberPair, OperatorDraft, TextDraft};
use crate::random::Random;
use crate::translator::LineKind;

#[derive(Clone, Debug, Default)]
pub struct Sheet {
    pub lines: Vec<(LineKind, Vec<u8>)>,
}

/// How the names of one text are made.
#[derive(Clone, Copy)]
enum Names {
    Plain,
    Empty,
    Odd,
}

/// Names that a reader could take for another line, or stumble over.
const ODD_NAMES: [&[u8]; 22] = [
    b"",
    b" ",
    b"\r",
    b"\t",
    b"-1",
    b"0",
    b"3",
    b"1 1",
    b"0 0 -1 1",
    b"begin_variable",
    b"end_variable",
    b"begin_state",
    b"end_operator",
    b"begin_operator",
    b"Atom at(rock, \xb3)",
    b"NegatedAtom held(folder)\r",
    b"<none of those>",
    b" take folder ",
    b"\0\0\0",
    b"\xff\xfe\x80",
    b"999999999999999999999999999999",
    b"var0 \\n /*",
];

impl Sheet {
    /// The lines of a draft, with names of one style; the many names of a far
    /// range are empty.
    pub fn of(random: &mut Random, draft: &TextDraft) -> Sheet {
        const FAR: usize = 1 << u16::BITS;
        let mut names = random.pick(&[Names::Plain, Names::Plain, Names::Empty, Names::Odd]);
        if draft.ranges.iter().any(|&range| range >= FAR) {
            names = Names::Empty;
        }
        let mut writer = Writer { random, names, sheet: Sheet::default() };
        writer.version();
        writer.metric(draft.metric);
        writer.variables(&draft.ranges);
        writer.mutex_groups(&draft.mutex_groups);
        writer.start(&draft.start);
        writer.goal(&draft.goal);
        writer.number(LineKind::OperatorCount, draft.operators.len());
        draft.operators.iter().for_each(|operator| writer.operator(operator));
        writer.number(LineKind::AxiomCount, 0);
        writer.sheet
    }

    /// The lines joined by LF, the last one with it or without.
    pub fn text(&self, last_with_lf: bool) -> Vec<u8> {
        let lines: Vec<&[u8]> = self.lines.iter().map(|(_, line)| &line[..]).collect();
        let mut text = lines.join(&b'\n');
        if last_with_lf && !lines.is_empty() {
            text.push(b'\n');
        }
        text
    }

    /// One of the name lines made so long.
    pub fn lengthen_name(&mut self, random: &mut Random, length: usize) {
        let named = |&index: &usize| self.lines[index].0.is_name();
        let names: Vec<usize> = (0..self.lines.len()).filter(named).collect();
        if names.is_empty() {
            return;
        }
        let mut name = random.bytes(length);
        name.iter_mut().filter(|byte| **byte == b'\n').for_each(|byte| *byte = b'\r');
        self.lines[random.pick(&names)].1 = name;
    }
}

struct Writer<'a> {
    random: &'a mut Random,
    names: Names,
    sheet: Sheet,
}

impl Writer<'_> {
    fn line(&mut self, kind: LineKind, line: impl Into<Vec<u8>>) {
        self.sheet.lines.push((kind, line.into()));
    }

    fn keyword(&mut self, kind: LineKind) {
        self.line(kind, kind.keyword().expect("the kind of a keyword"));
    }

    fn number(&mut self, kind: LineKind, number: usize) {
        self.line(kind, number.to_string());
    }

    fn name(&mut self, kind: LineKind, plain: impl Fn() -> String) {
        let name = match self.names {
            Names::Plain => plain().into_bytes(),
            Names::Empty => Vec::new(),
            Names::Odd => self.random.pick(&ODD_NAMES).to_vec(),
        };
        self.line(kind, name);
    }

    fn pairs(&mut self, count: LineKind, each: LineKind, pairs: &[NumberPair]) {
        self.number(count, pairs.len());
        for (variable, value) in pairs {
            self.line(each, format!("{variable} {value}"));
        }
    }

    fn version(&mut self) {
        self.keyword(LineKind::BeginVersion);
        self.line(LineKind::Version, "3");
        self.keyword(LineKind::EndVersion);
    }

    fn metric(&mut self, metric: usize) {
        self.keyword(LineKind::BeginMetric);
        self.number(LineKind::Metric, metric);
        self.keyword(LineKind::EndMetric);
    }

    fn variables(&mut self, ranges: &[usize]) {
        self.number(LineKind::VariableCount, ranges.len());
        for (variable, &range) in ranges.iter().enumerate() {
            self.keyword(LineKind::BeginVariable);
            self.name(LineKind::VariableName, || format!("var{variable}"));
            self.line(LineKind::AxiomLayer, "-1");
            self.number(LineKind::Range, range);
            for value in 0..range {
                self.name(LineKind::AtomName, || format!("Atom is({variable}, {value})"));
            }
            self.keyword(LineKind::EndVariable);
        }
    }

    fn mutex_groups(&mut self, groups: &[Vec<NumberPair>]) {
        self.number(LineKind::MutexGroupCount, groups.len());
        for group in groups {
            self.keyword(LineKind::BeginMutexGroup);
            self.pairs(LineKind::MutexPairCount, LineKind::MutexPair, group);
            self.keyword(LineKind::EndMutexGroup);
        }
    }

    fn start(&mut self, start: &[usize]) {
        self.keyword(LineKind::BeginState);
        start.iter().for_each(|&value| self.number(LineKind::StartValue, value));
        self.keyword(LineKind::EndState);
    }

    fn goal(&mut self, goal: &[NumberPair]) {
        self.keyword(LineKind::BeginGoal);
        self.pairs(LineKind::GoalCount, LineKind::GoalPair, goal);
        self.keyword(LineKind::EndGoal);
    }

    fn operator(&mut self, operator: &OperatorDraft) {
        self.keyword(LineKind::BeginOperator);
        self.name(LineKind::OperatorName, || "take folder".to_string());
        self.pairs(LineKind::PrevailCount, LineKind::PrevailPair, &operator.prevail);
        self.number(LineKind::EffectCount, operator.effects.len());
        for effect in &operator.effects {
            let old = effect.old.map_or("-1".to_string(), |value| value.to_string());
            self.line(LineKind::Effect, format!("0 {} {old} {}", effect.variable, effect.new));
        }
        self.number(LineKind::Cost, operator.cost);
        self.keyword(LineKind::EndOperator);
    }
}
