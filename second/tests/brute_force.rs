//! Assignments and schedules pair off on small tasks, and the check can fail.

mod common;

use common::*;
use second::brute_force::*;
use second::draft::{planned, Size};
use second::random::Random;
use second::task_file::judge;

const MOST_VARIABLES: u64 = 16;

#[test]
fn random_small_tasks_pair_off() {
    let mut random = Random::new(3);
    let (mut satisfiable, mut not, mut partial) = (0, 0, 0);
    for _ in 0..150 {
        let found = pair_off_any(&mut random, MOST_VARIABLES).unwrap();
        *(if found.assignments > 0 { &mut satisfiable } else { &mut not }) += 1;
        partial += found.partial;
    }
    assert!(satisfiable > 20 && not > 5, "{satisfiable} and {not}");
    assert!(partial > 100, "only {partial} models leave variables out");
}

#[test]
fn an_action_that_changes_nothing_is_left_out_at_an_empty_step() {
    let keep = action(&[(0, 0)], &[(0, 0)]);
    let change = action(&[(0, 0)], &[(0, 1)]);
    let file = draft_of(&[2], &[(0, 0)], &[keep, change]).file();
    // Each of the two steps is empty, empty with `keep` left out, or `keep`.
    let found = pair_off(&file, 2).unwrap();
    assert_eq!((found.assignments, found.partial), (4, 5));
    // No step is empty in the folder example's only good schedule.
    assert_eq!(count_partial(&judge(&folder()).unwrap(), 2), 0);
}

#[test]
fn the_folder_example_pairs_off() {
    assert_eq!(pair_off(&folder(), 0).unwrap().assignments, 0);
    let found = pair_off(&folder(), 2).unwrap();
    assert_eq!(found.schedules.into_iter().collect::<Vec<_>>(), [[1, 2]]);
}

#[test]
fn a_task_that_needs_two_moves() {
    let steps = [action(&[(0, 0)], &[(0, 1)]), action(&[(0, 1)], &[(0, 2)])];
    let file = draft_of(&[3], &[(0, 2)], &steps).file();
    let task = judge(&file).unwrap();
    for (horizon, schedules) in [(0, 0), (1, 0), (2, 1)] {
        assert_eq!(pair_off(&file, horizon).unwrap().assignments, schedules);
        assert_eq!(plan_exists(&task, horizon), schedules > 0);
    }
    assert!(is_good(&task, &[1, 2, 0]) && !is_good(&task, &[2, 1]));
    assert_eq!(all_schedules(2, 2).len(), 9);
}

#[test]
fn good_schedules_are_counted() {
    let task = judge(&folder()).unwrap();
    for (horizon, schedules) in [(0, 0), (1, 0), (2, 1), (3, 4)] {
        assert_eq!(count_good(&task, horizon), schedules);
    }
    let mut random = Random::new(5);
    for _ in 0..50 {
        let task = judge(&planned(&mut random, Size::Tiny, 3).draft.file()).unwrap();
        for horizon in 0..=4 {
            let all = all_schedules(task.actions.len() as u64, horizon);
            let good = all.iter().filter(|schedule| is_good(&task, schedule)).count();
            assert_eq!(count_good(&task, horizon), good as u64);
        }
    }
}
