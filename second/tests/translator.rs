//! The request's own sentences about the translator's text.

mod common;

use common::texts::*;
use common::*;
use second::draft::{draft, Size};
use second::random::Random;
use second::task_file::judge;
use second::texts::draft::TextDraft;
use second::texts::sheet::Sheet;
use second::translator::{translate, translate_into, LineKind};

#[test]
fn the_folder_example_becomes_its_file() {
    assert_eq!(translate(FOLDER_TEXT.as_bytes()), Ok(folder()));
}

#[test]
fn mutex_groups_metric_and_costs_are_passed_over() {
    let lines = folder_lines();
    for (groups, count) in [("", 0), ("begin_mutex_group\n0\nend_mutex_group\n", 1)] {
        let (front, back) = (joined(&lines[..21]), joined(&lines[27..]));
        let groups = format!("{count}\n{groups}");
        let text = [&front, groups.as_bytes(), &back].concat();
        assert_eq!(translate(&text), Ok(folder()));
    }
    assert_eq!(line_gives(METRIC, "1"), Ok(folder()));
    assert_eq!(line_gives(COST, "4711"), Ok(folder()));
}

fn action_bytes(prevail: &[&str], effects: &[&str]) -> Vec<u8> {
    let operators = [(prevail, effects)];
    let stated = Stated { ranges: &[4; 3], start: &[0; 3], goal: &[], operators: &operators };
    stated.translated().unwrap()[22..].to_vec()
}

#[test]
fn an_old_value_of_minus_one_means_no_precondition() {
    assert_eq!(action_bytes(&[], &["0 1 -1 3"]), [0, 1, 1, 3]);
    assert_eq!(action_bytes(&[], &["0 1 0 3"]), [1, 1, 1, 0, 1, 3]);
    assert_eq!(action_bytes(&[], &["0 1 2 2"]), [1, 1, 1, 2, 1, 2]);
    assert_eq!(action_bytes(&["1 2"], &["0 1 -1 3"]), [1, 1, 1, 2, 1, 3]);
    assert_eq!(action_bytes(&[], &[]), [0, 0]);
}

#[test]
fn pairs_are_put_in_rising_order() {
    let file = action_bytes(&["2 3"], &["0 1 2 0", "0 0 1 3"]);
    assert_eq!(file, [3, 2, 0, 1, 1, 2, 2, 3, 0, 3, 1, 0]);
    let goal = ["2 1", "0 3", "1 2"];
    let stated = Stated { ranges: &[4; 3], start: &[3, 0, 1], goal: &goal, operators: &[] };
    let file = stated.translated().unwrap();
    assert_eq!(file[16..], [4, 4, 4, 3, 0, 1, 0, 3, 1, 2, 2, 1]);
}

#[test]
fn numbers_have_at_most_six_digits_and_no_leading_zero() {
    let lines = folder_lines();
    for (index, kind) in FOLDER_KINDS.iter().enumerate() {
        if kind.is_name() || kind.keyword().is_some() {
            continue;
        }
        let line = String::from_utf8(lines[index].clone()).unwrap();
        let words: Vec<&str> = line.split(' ').collect();
        for place in 0..words.len() {
            for word in ["1000000", "00", "01", "000000", "0000001", "+1", "-0", "-2", "", "x"] {
                let mut words = words.clone();
                words[place] = word;
                let answer = line_gives(index + 1, words.join(" "));
                assert_eq!(answer, refused(30, index as u64 + 1), "{words:?}");
            }
        }
    }
}

#[test]
fn minus_one_stands_only_as_a_layer_or_an_old_value() {
    const OLD: usize = 2;
    let lines = folder_lines();
    for (index, kind) in FOLDER_KINDS.iter().enumerate() {
        if kind.is_name() || *kind == LineKind::AxiomLayer {
            continue;
        }
        let line = String::from_utf8(lines[index].clone()).unwrap();
        let words: Vec<&str> = line.split(' ').collect();
        for place in 0..words.len() {
            let mut words = words.clone();
            words[place] = "-1";
            let answer = line_gives(index + 1, words.join(" "));
            if *kind == LineKind::Effect && place == OLD {
                assert!(answer.is_ok());
            } else {
                assert_eq!(answer, refused(30, index as u64 + 1), "{words:?}");
            }
        }
    }
}

#[test]
fn the_first_line_at_fault_decides() {
    let mut lines = folder_lines();
    let faults = [(AXIOM_COUNT, "1", 31), (EFFECT, "x", 30), (FIRST_LAYER, "0", 31)];
    let more = [(METRIC, "2", 30), (VERSION, "4", 32), (1, "begin", 30)];
    for (number, line, refusal) in faults.into_iter().chain(more) {
        lines[number - 1] = line.into();
        assert_eq!(translate(&joined(&lines)), refused(refusal, number as u64));
    }
}

fn variables(count: usize, range: usize) -> Option<(u64, u64)> {
    let (ranges, start) = (vec![range; count], vec![0; count]);
    Stated { ranges: &ranges, start: &start, goal: &[], operators: &[] }.refused()
}

#[test]
fn refusal_3_the_counts() {
    assert_eq!(variables(0, 1), Some((3, 0)));
    assert_eq!(variables(1, 1), None);
    assert_eq!(variables(96, 1), None);
    for count in [97, 255, 256, 257, 352] {
        assert_eq!(variables(count, 1), Some((3, 0)));
    }
    let goal: Vec<String> = (0..97).rev().map(|variable| format!("{variable} 0")).collect();
    let goal: Vec<&str> = goal.iter().map(String::as_str).collect();
    let with = |goal: &[&str]| {
        Stated { ranges: &[1; 96], start: &[0; 96], goal, operators: &[] }.refused()
    };
    assert_eq!(with(&goal[1..]), None);
    assert_eq!(with(&goal), Some((3, 0)));
    assert_eq!(with(&["0 0"; 97]), Some((3, 0)));
    assert_eq!(with(&["0 0"; 96]), Some((6, 1)));
    assert_eq!(with(&["0 0"; 256]), Some((3, 0)));
}

#[test]
fn refusal_4_the_ranges() {
    assert_eq!(variables(2, 64), None);
    assert_eq!(variables(2, 0), Some((4, 0)));
    for range in [65, 255, 256, 257, 300, 65_536, 65_537, 100_000] {
        assert_eq!(variables(1, range), Some((4, 0)));
        let ranges = [1, 64, range];
        let stated = Stated { ranges: &ranges, start: &[0, 0, 0], goal: &[], operators: &[] };
        assert_eq!(stated.refused(), Some((4, 2)));
    }
    assert_eq!(variables(16, 64), None);
    assert_eq!(variables(17, 64), Some((4, 17)));
    let mut ranges = [64; 17];
    ranges[0] = 1;
    ranges[9] = 63;
    let sum =
        |ranges: &[usize]| Stated { ranges, start: &[0; 17], goal: &[], operators: &[] }.refused();
    assert_eq!(sum(&ranges), None);
    ranges[9] = 64;
    assert_eq!(sum(&ranges), Some((4, 17)));
    ranges[16] = 65;
    assert_eq!(sum(&ranges), Some((4, 16)));
}

#[test]
fn refusal_5_the_start() {
    let start = |values: &[usize]| {
        Stated { ranges: &[2, 3, 64], start: values, goal: &[], operators: &[] }.refused()
    };
    assert_eq!(start(&[1, 2, 63]), None);
    for value in [64, 255, 256, 257, 65_536, 999_999] {
        assert_eq!(start(&[1, 2, value]), Some((5, 2)));
        assert_eq!(start(&[0, value, value]), Some((5, 1)));
    }
}

#[test]
fn refusal_7_pairs_that_bytes_would_hide() {
    for word in ["2", "255", "256", "257", "65536", "999999"] {
        let lists: [(&[&str], &[&str]); 5] = [
            (&[&format!("{word} 0")], &[]),
            (&[&format!("0 {word}")], &[]),
            (&[], &[&format!("0 {word} -1 0")]),
            (&[], &[&format!("0 0 {word} 0")]),
            (&[], &[&format!("0 0 -1 {word}")]),
        ];
        for list in lists {
            let operators = [(&[][..], &[][..]), list];
            let stated =
                Stated { ranges: &[2, 2], start: &[0, 0], goal: &[], operators: &operators };
            assert_eq!(stated.refused(), Some((7, 1)), "{list:?}");
        }
    }
}

#[test]
fn refusal_7_at_most_512_operators() {
    let empty: (&[&str], &[&str]) = (&[], &[]);
    let wrong: (&[&str], &[&str]) = (&["1 0"], &[]);
    let with = |count: usize, at_fault: Option<usize>| {
        let mut operators = vec![empty; count];
        if let Some(number) = at_fault {
            operators[number] = wrong;
        }
        Stated { ranges: &[1], start: &[0], goal: &[], operators: &operators }.refused()
    };
    assert_eq!(with(512, None), None);
    for count in [513, 514, 768, 1_024] {
        assert_eq!(with(count, None), Some((7, 512)));
        assert_eq!(with(count, Some(512)), Some((7, 512)));
        assert_eq!(with(count, Some(count - 1)), Some((7, 512)));
        assert_eq!(with(count, Some(511)), Some((7, 511)));
    }
    assert_eq!(with(600, Some(0)), Some((7, 0)));
}

#[test]
fn refusals_3_to_7_come_in_order_and_then_10() {
    let operators: [(&[&str], &[&str]); 1] = [(&["9 9"], &[])];
    let mut stated =
        Stated { ranges: &[0; 97], start: &[9; 97], goal: &["9 9"; 97], operators: &operators };
    assert_eq!(stated.refused(), Some((3, 0)));
    stated = Stated { ranges: &[2, 0], start: &[9, 9], goal: &["9 9"], ..stated };
    assert_eq!(stated.refused(), Some((4, 1)));
    stated.ranges = &[2, 2];
    assert_eq!(stated.refused(), Some((5, 0)));
    stated.start = &[0, 0];
    assert_eq!(stated.refused(), Some((6, 0)));
    stated.goal = &[];
    assert_eq!(stated.refused(), Some((7, 0)));
    assert_eq!(translate_into(&stated.text(), &mut []), refused(7, 0));
    stated.operators = &[];
    assert_eq!(translate_into(&stated.text(), &mut []), refused(10, 0));
}

#[test]
fn the_room_is_the_file_and_nothing_behind_it_changes() {
    let file = folder();
    for length in 0..file.len() {
        let mut room = vec![7; length];
        assert_eq!(translate_into(FOLDER_TEXT.as_bytes(), &mut room), refused(10, 0));
        assert_eq!(room, vec![7; length]);
    }
    for behind in [0, 1, 20] {
        let mut room = vec![7; file.len() + behind];
        assert_eq!(translate_into(FOLDER_TEXT.as_bytes(), &mut room), Ok(file.len()));
        assert_eq!(room, [file.clone(), vec![7; behind]].concat());
    }
    let mut room = [7; 50];
    assert_eq!(translate_into(&with_line(VERSION, "4"), &mut room), refused(32, 2));
    assert_eq!(room, [7; 50]);
}

#[test]
fn a_full_task_makes_the_longest_file() {
    let mut random = Random::new(1);
    let task = draft(&mut random, Size::Full);
    let mut text = TextDraft::of(&mut random, &task);
    text.goal = (0..96).rev().map(|variable| (variable, 0)).collect();
    let sheet = Sheet::of(&mut random, &text).text(true);
    let file = translate(&sheet).unwrap();
    assert_eq!(file.len(), 17_808);
    assert!(judge(&file).is_ok());
}
