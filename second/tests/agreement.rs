//! The two ways to a clause agree, refusals change nothing, the stream has
//! every refusal, and a case survives being written and read.

mod common;

use common::*;
use second::answers::{phase_of, reply, write_answer};
use second::cases::{Maker, Options};
use second::clauses::formula;
use second::draft::{draft, planned, Size};
use second::numbering::{words_needed, FormulaVariable, Numbering};
use second::protocol::*;
use second::random::Random;
use second::rows::bit;
use second::solver_lines::Phase;
use second::task_file::judge;
use std::collections::BTreeSet;

#[test]
fn a_clause_by_number_is_the_clause_in_order() {
    let mut random = Random::new(5);
    for round in 0..120 {
        let size = [Size::Tiny, Size::Small, Size::Medium][round % 3];
        let file = draft(&mut random, size).file();
        let formula = formula(&file, random.below(4) as u64).unwrap();
        let total = formula.counts().clauses;
        assert_eq!(formula.every_clause().count() as u64, total);
        for (number, clause) in formula.every_clause().enumerate() {
            assert_eq!(formula.clause(number as u64), Some(clause));
        }
        assert_eq!(formula.clause(total), None);
    }
}

#[test]
fn the_widest_formula_agrees_here_and_there() {
    const APART: usize = 997;
    let file = draft(&mut Random::new(6), Size::Widest).file();
    let formula = formula(&file, 64).unwrap();
    for (number, clause) in formula.every_clause().enumerate().step_by(APART) {
        assert_eq!(formula.clause(number as u64), Some(clause));
    }
}

#[test]
fn every_literal_names_a_variable_up_to_n() {
    let mut random = Random::new(7);
    for _ in 0..40 {
        let file = draft(&mut random, Size::Small).file();
        let formula = formula(&file, 3).unwrap();
        let highest = formula.counts().variables as i64;
        let literals: BTreeSet<i64> = formula.every_clause().flatten().map(i64::abs).collect();
        // Every value stands in family 3, so the last one is N itself.
        assert_eq!(literals.last(), Some(&highest));
        assert!(literals.first() >= Some(&1));
    }
}

#[test]
fn places_and_pairs_are_two_ways_of_counting_values() {
    let task = judge(&draft(&mut Random::new(8), Size::Large).file()).unwrap();
    let numbering = Numbering::of(&task);
    for place in 0..task.values() {
        assert_eq!(numbering.place(numbering.pair_at(place)), place);
    }
}

#[test]
fn planned_schedules_become_models_and_come_back() {
    let mut random = Random::new(9);
    let mut moves = 0;
    for round in 0..60 {
        let size = [Size::Tiny, Size::Small, Size::Medium, Size::Large][round % 4];
        let horizon = random.below(13);
        let plan = planned(&mut random, size, horizon);
        let (file, k) = (plan.draft.file(), horizon as u64);
        let highest = formula(&file, k).unwrap().counts().variables;
        let words = words_needed(highest) as usize;
        let (_, truth) = model_of(&file, k, &plan.schedule, words).unwrap();
        assert_eq!(end_with(&file, k, Phase::Closed, highest, &truth), Ok(plan.schedule.clone()));
        moves += plan.schedule.iter().filter(|&&entry| entry > 0).count();
    }
    assert!(moves > 100, "only {moves} moves");
}

fn stream(seed: u64, count: usize) -> impl Iterator<Item = Case> {
    let options = Options { printed_clauses: 500, ..Options::default() };
    let mut maker = Maker::new(seed, options);
    (0..count).map(move |_| maker.case())
}

#[test]
fn refusals_change_nothing_and_every_one_comes() {
    let mut numbers = BTreeSet::new();
    for before in stream(1, 6_000) {
        let mut after = before.clone();
        let answer = reply(&mut after);
        numbers.insert(answer.number);
        // The lines that were taken before the refused one stay stored.
        let many_lines = matches!(before.kind, Kind::FoldLines | Kind::Output);
        if answer.number != 0 && !many_lines {
            assert_eq!(before, after);
        }
    }
    let never_given = 16;
    assert_eq!(numbers, (0..=22).filter(|&number| number != never_given).collect());
}

/// Whether a model leaves variables out, and whether the true row has bits of
/// such variables.
fn leaves_out(case: &Case) -> (bool, bool) {
    let Ok(formula) = formula(&case.file, case.horizon) else {
        return (false, false);
    };
    let variables = (1..=formula.counts().variables).map(FormulaVariable);
    let unnamed: Vec<_> = variables.filter(|&variable| !bit(&case.given, variable)).collect();
    (!unnamed.is_empty(), unnamed.iter().any(|&variable| bit(&case.truth, variable)))
}

#[test]
fn accepted_models_that_leave_variables_out_come_often() {
    let (mut accepted, mut partial, mut with_true_bits) = (0, 0, 0);
    for mut case in stream(6, 12_000).filter(|case| case.kind == Kind::End) {
        if reply(&mut case).number == 0 {
            let (leaves_out, true_bits) = leaves_out(&case);
            accepted += 1;
            partial += usize::from(leaves_out);
            with_true_bits += usize::from(true_bits);
        }
    }
    let enough = partial > accepted / 4 && partial < accepted && with_true_bits > partial / 4;
    assert!(enough, "{accepted}, {partial}, {with_true_bits}");
}

#[test]
fn nothing_behind_the_written_part_changes() {
    let mut seen = 0;
    for before in stream(2, 6_000) {
        let mut after = before.clone();
        let answer = reply(&mut after);
        let written = match before.kind {
            Kind::HeaderText | Kind::ClauseText => answer.first as usize,
            Kind::ManyLines => answer.second as usize,
            _ => 0,
        };
        assert_eq!(before.room[written..], after.room[written..]);
        if written > 0 {
            assert_eq!(after.room[written - 1], b'\n');
            seen += usize::from(before.room.len() > written);
        }
        let steps = before.entries.len().min(before.horizon.min(64) as usize);
        assert_eq!(before.entries[steps..], after.entries[steps..]);
        let literals = if before.kind == Kind::Clause { answer.first as usize } else { 0 };
        assert_eq!(before.literals[literals..], after.literals[literals..]);
        assert_rows_behind(&before, &after);
    }
    assert!(seen > 100);
}

fn assert_rows_behind(before: &Case, after: &Case) {
    let by_file = matches!(before.kind, Kind::Start | Kind::WayBack);
    let highest = match formula(&before.file, before.horizon) {
        Ok(formula) if by_file => formula.counts().variables,
        _ => before.highest,
    };
    let words = words_needed(highest).min(before.given.len() as u64) as usize;
    assert_eq!(before.given[words..], after.given[words..]);
    let words = words_needed(highest).min(before.truth.len() as u64) as usize;
    assert_eq!(before.truth[words..], after.truth[words..]);
}

#[test]
fn a_whole_output_is_the_fold_of_its_lines() {
    let outputs = stream(3, 6_000).filter(|case| case.kind == Kind::Output);
    // With no line there is no call that could judge the rows.
    for case in outputs.filter(|case| !case.text.is_empty()) {
        let (mut whole, mut fold) = (case.clone(), case.clone());
        fold.kind = Kind::FoldLines;
        let (whole_reply, fold_reply) = (reply(&mut whole), reply(&mut fold));
        let judged = |reply: second::answers::Reply| (reply.number, reply.detail);
        assert_eq!(judged(whole_reply), judged(fold_reply));
        assert_eq!((whole.given, whole.truth), (fold.given, fold.truth));
    }
}

#[test]
fn a_stream_is_read_as_it_was_written() {
    let cases: Vec<Case> = stream(4, 300).collect();
    let mut bytes = Vec::new();
    for case in &cases {
        write_case(&mut bytes, case).unwrap();
    }
    let mut rest = &bytes[..];
    for case in cases {
        assert_eq!(read_case(&mut rest).unwrap(), Some(case));
    }
    assert_eq!(read_case(&mut rest).unwrap(), None);
    assert!(read_case(&mut &bytes[..20]).is_err());
}

#[test]
fn a_stream_and_its_answers_stay_in_their_bounds() {
    for mut case in stream(5, 3_000) {
        assert!(case.file.len() <= MOST_FILE && case.text.len() <= MOST_TEXT);
        assert!(case.room.len() <= MOST_ROOM && case.literals.len() <= MOST_LITERALS);
        assert!(case.given.len() <= MOST_ROW_WORDS && case.truth.len() <= MOST_ROW_WORDS);
        assert!(case.entries.len() <= MOST_ENTRIES);
        write_answer(&mut case, &mut std::io::sink()).unwrap();
    }
}

#[test]
fn a_written_answer_has_the_stated_form() {
    let mut case = Case::new(Kind::ModelProgram);
    case.text = model_input(2, &folder(), "s UNKNOWN\n");
    let mut bytes = Vec::new();
    write_answer(&mut case, &mut bytes).unwrap();
    let line = b"refused 19 0\n";
    let length = (line.len() as u64).to_le_bytes();
    // Four numbers and five empty memories before the line, a 0 behind it.
    assert_eq!(bytes, [&[0; 9 * 8][..], &length, line, &[0; 8]].concat());
}

#[test]
fn phases_not_in_use_stand_for_no_status() {
    assert_eq!(phase_of(4), Phase::Unknown);
    assert_eq!(phase_of(5), Phase::NoStatus);
    assert_eq!(phase_of(u64::MAX), Phase::NoStatus);
}
