//! The folder example: the table P1 to P12, the whole text, and the runs.

mod common;

use common::*;
use second::brute_force::{all_schedules, is_good, pair_off, true_numbers};
use second::clauses::{clause, counts, Counts};
use second::solver_lines::Phase;
use second::task_file::judge;
use second::text::{clause_text, header_text, many_lines, Filled};

const TEXT_AT_1: &str = "p cnf 10 22 / 1 0 / 3 0 / 10 0 / 1 2 0 / 3 4 0 / 7 8 0 / 9 10 0 / \
    -1 -2 0 / -3 -4 0 / -7 -8 0 / -9 -10 0 / -5 1 0 / -6 2 0 / -6 3 0 / -5 8 0 / -6 7 0 / \
    -6 10 0 / -7 1 6 0 / -8 2 5 0 / -9 3 0 / -10 4 6 0 / -5 -6 0";

fn counted(variables: u64, clauses: u64) -> Counts {
    Counts { variables, clauses }
}

fn good_schedules(horizon: u64) -> Vec<Vec<u64>> {
    let task = judge(&folder()).unwrap();
    let mut schedules = all_schedules(task.actions.len() as u64, horizon);
    schedules.retain(|schedule| is_good(&task, schedule));
    schedules
}

#[test]
fn p1_to_p3_counts() {
    assert_eq!(counts(&folder(), 0), Ok(counted(4, 7)));
    assert_eq!(counts(&folder(), 1), Ok(counted(10, 22)));
    assert_eq!(counts(&folder(), 2), Ok(counted(16, 37)));
}

#[test]
fn p4_and_p5_clauses() {
    let mut room = [99; 4];
    assert_eq!(clause(&folder(), 1, 17, &mut room), Ok(3));
    assert_eq!(room, [-7, 1, 6, 99]);
    assert_eq!(clause(&folder(), 1, 21, &mut room), Ok(2));
    assert_eq!(room, [-5, -6, 6, 99]);
    assert_eq!(clause(&folder(), 1, 22, &mut room), refused(9, 0));
    assert_eq!(room, [-5, -6, 6, 99]);
}

#[test]
fn p6_to_p8_good_schedules() {
    assert!(good_schedules(1).is_empty());
    assert_eq!(good_schedules(2), [[1, 2]]);
    assert_eq!(good_schedules(3), [[0, 1, 2], [1, 0, 2], [1, 2, 0], [1, 2, 1]]);
    for (horizon, found) in [(0, 0), (1, 0), (2, 1)] {
        assert_eq!(pair_off(&folder(), horizon).unwrap().assignments, found);
    }
}

#[test]
fn p7_the_model_of_the_one_schedule() {
    let (given, truth) = model_of(&folder(), 2, &[1, 2], 1).unwrap();
    assert_eq!(given, [0xFFFF]);
    assert_eq!(true_numbers(&truth, 16), [1, 3, 5, 8, 9, 12, 13, 16]);
    assert_eq!(end_with(&folder(), 2, Phase::Closed, 16, &truth), Ok(vec![1, 2]));
}

#[test]
fn p9_to_p11_bad_schedules() {
    assert_eq!(model_of(&folder(), 2, &[2, 0], 1), refused(21, 1));
    assert_eq!(model_of(&folder(), 2, &[1, 0], 1), refused(22, 0));
    assert_eq!(model_of(&folder(), 2, &[3, 0], 1), refused(20, 1));
}

#[test]
fn p12_the_model_with_16_false() {
    let truth = bits(&[1, 3, 5, 8, 9, 12, 13]);
    assert_eq!(end_with(&folder(), 2, Phase::Closed, 16, &truth), refused(17, 2));
}

#[test]
fn the_whole_text_at_horizon_1() {
    let lines: Vec<String> = TEXT_AT_1.split(" / ").map(|line| format!("{line}\n")).collect();
    let input = [&[1][..], &folder()].concat();
    assert_eq!(printed_clauses(&input), lines.concat());

    let mut room = [b'#'; 16];
    assert_eq!(header_text(&folder(), 1, &mut room), Ok(12));
    assert_eq!(&room, b"p cnf 10 22\n####");
    for (number, line) in lines[1..].iter().enumerate() {
        let mut room = vec![b'#'; line.len() + 1];
        assert_eq!(clause_text(&folder(), 1, number as u64, &mut room), Ok(line.len()));
        assert_eq!(room, format!("{line}#").as_bytes());
    }
}

#[test]
fn the_text_by_many_lines() {
    let clauses: String = TEXT_AT_1.split(" / ").skip(1).map(|line| format!("{line}\n")).collect();
    let mut room = vec![b'#'; clauses.len() + 3];
    let filled = Filled { lines: 22, bytes: clauses.len() };
    assert_eq!(many_lines(&folder(), 1, 0, &mut room), Ok(filled));
    assert_eq!(room, format!("{clauses}###").as_bytes());
    // One byte too few for the fourth line: three lines, the rest untouched.
    let mut room = vec![b'#'; 4 + 4 + 5 + 5];
    assert_eq!(many_lines(&folder(), 1, 0, &mut room), Ok(Filled { lines: 3, bytes: 13 }));
    assert_eq!(room, b"1 0\n3 0\n10 0\n#####");
}

#[test]
fn the_horizon_64_and_65() {
    // k(S+A)+S and the families' sum, worked out by hand for k = 64.
    assert_eq!(counts(&folder(), 64), Ok(counted(388, 967)));
    assert_eq!(counts(&folder(), 65), refused(8, 0));
    let text = printed_clauses(&[&[64][..], &folder()].concat());
    assert_eq!(text.lines().count(), 968);
    assert_eq!(text.lines().last(), Some("-383 -384 0"));
    assert_eq!(printed_clauses(&[&[65][..], &folder()].concat()), "refused 8 0\n");
}

#[test]
fn the_domain_64_and_65() {
    assert!(judge(&draft_of(&[64], &[(0, 63)], &[]).file()).is_ok());
    assert_eq!(judge(&draft_of(&[65], &[(0, 63)], &[]).file()), refused(4, 0));
}

#[test]
fn the_lines_to_run() {
    assert_eq!(open_line(b"v 11"), refused(13, 2));
    assert_eq!(open_line(b"v 1 1"), refused(14, 4));
    assert_eq!(open_line(b"v -0"), refused(11, 3));
    assert_eq!(open_line(b"v 1 -2 0 3"), refused(12, 9));
    assert_eq!(first_line(b"s SAT"), refused(11, 5));
}

#[test]
fn the_model_program_on_the_example() {
    let model = "c found\ns SATISFIABLE\nv 1 -2 3 -4 5 -6 -7 8\nv 9 -10 -11 12 13 -14 -15 16 0\n";
    assert_eq!(printed_schedule(&model_input(2, &folder(), model)), "1\n2\n");
    // The third version's fault: the output is cut off, the rest unread.
    let cut = "s SATISFIABLE\nv 1 -2 3 -4 5 -6 -7 8\n";
    assert_eq!(printed_schedule(&model_input(2, &folder(), cut)), "refused 15 0\n");
}
