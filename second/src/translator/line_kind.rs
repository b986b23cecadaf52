//! The kinds of line a translator's text has, in the order of a first
//! appearance.

#[derive(Clone, Copy, Debug, PartialEq, Eq, PartialOrd, Ord)]
pub enum LineKind {
    BeginVersion,
    Version,
    EndVersion,
    BeginMetric,
    Metric,
    EndMetric,
    VariableCount,
    BeginVariable,
    VariableName,
    AxiomLayer,
    Range,
    AtomName,
    EndVariable,
    MutexGroupCount,
    BeginMutexGroup,
    MutexPairCount,
    MutexPair,
    EndMutexGroup,
    BeginState,
    StartValue,
    EndState,
    BeginGoal,
    GoalCount,
    GoalPair,
    EndGoal,
    OperatorCount,
    BeginOperator,
    OperatorName,
    PrevailCount,
    PrevailPair,
    EffectCount,
    Effect,
    Cost,
    EndOperator,
    AxiomCount,
    /// No line: behind the count of axioms nothing may follow.
    Behind,
}

pub const LINE_KINDS: [LineKind; 36] = [
    LineKind::BeginVersion,
    LineKind::Version,
    LineKind::EndVersion,
    LineKind::BeginMetric,
    LineKind::Metric,
    LineKind::EndMetric,
    LineKind::VariableCount,
    LineKind::BeginVariable,
    LineKind::VariableName,
    LineKind::AxiomLayer,
    LineKind::Range,
    LineKind::AtomName,
    LineKind::EndVariable,
    LineKind::MutexGroupCount,
    LineKind::BeginMutexGroup,
    LineKind::MutexPairCount,
    LineKind::MutexPair,
    LineKind::EndMutexGroup,
    LineKind::BeginState,
    LineKind::StartValue,
    LineKind::EndState,
    LineKind::BeginGoal,
    LineKind::GoalCount,
    LineKind::GoalPair,
    LineKind::EndGoal,
    LineKind::OperatorCount,
    LineKind::BeginOperator,
    LineKind::OperatorName,
    LineKind::PrevailCount,
    LineKind::PrevailPair,
    LineKind::EffectCount,
    LineKind::Effect,
    LineKind::Cost,
    LineKind::EndOperator,
    LineKind::AxiomCount,
    LineKind::Behind,
];

impl LineKind {
    /// The whole line, where the kind leaves no choice.
    pub fn keyword(self) -> Option<&'static str> {
        match self {
            LineKind::BeginVersion => Some("begin_version"),
            LineKind::EndVersion => Some("end_version"),
            LineKind::BeginMetric => Some("begin_metric"),
            LineKind::EndMetric => Some("end_metric"),
            LineKind::BeginVariable => Some("begin_variable"),
            LineKind::EndVariable => Some("end_variable"),
            LineKind::BeginMutexGroup => Some("begin_mutex_group"),
            LineKind::EndMutexGroup => Some("end_mutex_group"),
            LineKind::BeginState => Some("begin_state"),
            LineKind::EndState => Some("end_state"),
            LineKind::BeginGoal => Some("begin_goal"),
            LineKind::EndGoal => Some("end_goal"),
            LineKind::BeginOperator => Some("begin_operator"),
            LineKind::EndOperator => Some("end_operator"),
            _ => None,
        }
    }

    /// Names are any bytes but LF.
    pub fn is_name(self) -> bool {
        matches!(self, LineKind::VariableName | LineKind::AtomName | LineKind::OperatorName)
    }
}
