//! The edges of the refusals that neither the example nor a reading touches.

mod common;

use common::*;
use second::checker::end;
use second::draft::{planned, Size};
use second::outputs::output;
use second::random::Random;
use second::rows::bit;
use second::solver_lines::Phase;
use second::task_file::judge;

fn judged(bodies: [&[u8]; 4]) -> Option<(u64, u64)> {
    judge(&file_with(bodies)).err().map(|refusal| (refusal.number, refusal.detail))
}

#[test]
fn refusal_3_the_lengths_of_the_bodies() {
    let with_variables = |n: usize| judged([&vec![1; n], &vec![0; n], &[], &[]]);
    assert_eq!(with_variables(0), Some((3, 0)));
    assert_eq!(with_variables(1), None);
    assert_eq!(with_variables(96), None);
    assert_eq!(with_variables(97), Some((3, 0)));
    assert_eq!(judged([&[1, 1], &[0], &[], &[]]), Some((3, 0)));
    assert_eq!(judged([&[1], &[0, 0], &[], &[]]), Some((3, 0)));

    let goal: Vec<u8> = (0..97).flat_map(|x| [x, 0]).collect();
    let with_goal = |length: usize| judged([&[1; 96], &[0; 96], &goal[..length], &[]]);
    assert_eq!(with_goal(191), Some((3, 0)));
    assert_eq!(with_goal(192), None);
    assert_eq!(with_goal(193), Some((3, 0)));
    assert_eq!(with_goal(194), Some((3, 0)));
}

#[test]
fn refusals_4_and_5_the_first_variable() {
    assert_eq!(judged([&[1, 0, 65], &[9, 9, 9], &[9, 9], &[9]]), Some((4, 1)));
    assert_eq!(judged([&[1, 2, 3], &[0, 1, 2], &[], &[]]), None);
    assert_eq!(judged([&[1, 2, 3], &[0, 2, 3], &[9, 9], &[9]]), Some((5, 1)));
    assert_eq!(judged([&[1, 2, 3], &[0, 1, 255], &[9, 9], &[9]]), Some((5, 2)));
    assert_eq!(judged([&[1, 2, 3], &[0, 1, 2], &[9, 9], &[9]]), Some((6, 0)));
}

#[test]
fn refusal_7_an_action_that_is_cut_or_has_a_pair_outside() {
    let whole = [1, 2, 1, 1, 0, 0, 1, 0];
    for length in 1..whole.len() {
        let cut = [&[0, 0][..], &whole[..length]].concat();
        assert_eq!(judged([&[1, 2], &[0, 0], &[], &cut]), Some((7, 1)));
    }
    assert_eq!(judged([&[1, 2], &[0, 0], &[], &whole]), None);
    for (place, byte) in [(2, 2), (3, 2), (4, 1), (5, 1), (6, 0), (6, 2), (7, 2)] {
        let mut broken = whole;
        broken[place] = byte;
        assert_eq!(judged([&[1, 2], &[0, 0], &[], &broken]), Some((7, 0)), "{place}");
    }
}

#[test]
fn refusal_10_an_entry_too_few_at_the_end() {
    let mut entries = [7; 1];
    let rows = (&[0xFFFF][..], &[0][..]);
    let answer = end(&folder(), 2, state(16, Phase::Unknown), rows, &mut entries);
    assert_eq!(answer, refused(10, 0));
    assert_eq!(entries, [7]);
}

#[test]
fn the_model_program_reads_planned_schedules_of_every_size() {
    let mut random = Random::new(12);
    let mut longer_than_a_byte = 0;
    for round in 0..40 {
        let size = [Size::Tiny, Size::Small, Size::Medium, Size::Large][round % 4];
        let horizon = random.below(9);
        let plan = planned(&mut random, size, horizon);
        let file = plan.draft.file();
        longer_than_a_byte += usize::from(file.len() > 255);
        let formula = second::clauses::formula(&file, horizon as u64).unwrap();
        let highest = formula.counts().variables;
        let words = second::numbering::words_needed(highest) as usize;
        let (_, truth) = model_of(&file, horizon as u64, &plan.schedule, words).unwrap();
        let value = |variable| Some(bit(&truth, second::numbering::FormulaVariable(variable)));
        let model: Vec<Option<bool>> = (1..=highest).map(value).collect();
        let lines = output(&mut random, &model, false);
        // A CR before the LF is a fault of its own; it is not meant here.
        let lines = String::from_utf8(lines).unwrap().replace('\r', "");
        let wanted: String = plan.schedule.iter().map(|entry| format!("{entry}\n")).collect();
        assert_eq!(printed_schedule(&model_input(horizon as u8, &file, &lines)), wanted);
    }
    assert!(longer_than_a_byte > 10);
}
