//! One test for each decided reading of the translator's text, 23 to 31.

mod common;

use common::texts::*;
use common::*;
use second::programs::translate_program;
use second::translator::{read_text, translate};

#[test]
fn reading_23_the_last_line_and_what_follows_it() {
    let text = FOLDER_TEXT.as_bytes();
    assert_eq!(translate(text), Ok(folder()));
    assert_eq!(translate(&text[..text.len() - 1]), Ok(folder()));
    for behind in ["\n", "\n\n", "0", "0\n", "x\ny\n", " "] {
        let longer = [text, behind.as_bytes()].concat();
        assert_eq!(translate(&longer), refused(30, 54), "{behind:?}");
    }
    assert_eq!(translate(b""), refused(30, 1));
    assert_eq!(translate(b"\n"), refused(30, 1));
}

#[test]
fn reading_23_a_text_that_stops_early() {
    let lines = folder_lines();
    for count in 0..FOLDER_LINES {
        let text = joined(&lines[..count]);
        assert_eq!(translate(&text), refused(30, count as u64 + 1));
        let without_lf = &text[..text.len().saturating_sub(1)];
        let kept = if lines[..count].last().is_some_and(Vec::is_empty) { count - 1 } else { count };
        assert_eq!(translate(without_lf), refused(30, kept as u64 + 1));
        for fault in 0..count {
            let mut lines = lines[..count].to_vec();
            lines[fault] = b"begin_rule".to_vec();
            if !FOLDER_KINDS[fault].is_name() {
                assert_eq!(translate(&joined(&lines)), refused(30, fault as u64 + 1));
            }
        }
    }
}

#[test]
fn reading_24_names_are_any_bytes() {
    let long = vec![b'n'; 70_000];
    let names: [&[u8]; 12] = [
        b"",
        b" ",
        b"\r",
        b"\t",
        b"end_variable",
        b"begin_operator",
        b"0",
        b"-1",
        b"1 1",
        b"\0",
        b"\xff\x80",
        &long,
    ];
    for (index, kind) in FOLDER_KINDS.iter().enumerate() {
        if kind.is_name() {
            for name in names {
                assert_eq!(line_gives(index + 1, name), Ok(folder()), "{kind:?}");
            }
        }
    }
}

#[test]
fn reading_24_counts_say_where_names_end() {
    let stated = Stated { ranges: &[3], start: &[2], goal: &[], operators: &[] };
    let text = String::from_utf8(stated.text()).unwrap();
    let names = text.replace("3\n\n\n\n", "3\nend_variable\nbegin_variable\nend_variable\n");
    assert_eq!(translate(names.as_bytes()), stated.translated());
    // With a name too few, the keyword behind is taken for one.
    let fewer = text.replace("3\n\n\n\n", "3\nend_variable\nend_variable\n");
    assert_eq!(translate(fewer.as_bytes()), refused(30, 15));
    let more = text.replace("3\n\n\n\n", "3\n\n\n\n\n");
    assert_eq!(translate(more.as_bytes()), refused(30, 15));
}

#[test]
fn reading_24_nothing_around_what_is_no_name() {
    for (index, line) in folder_lines().iter().enumerate() {
        if FOLDER_KINDS[index].is_name() {
            continue;
        }
        let number = index + 1;
        for byte in [b'\r', b'\t', b' ', b'\0'] {
            let (before, behind) = ([&[byte], &line[..]].concat(), [&line[..], &[byte]].concat());
            for spoiled in [before, behind] {
                let answer = line_gives(number, &spoiled);
                assert_eq!(answer, refused(30, number as u64), "{}", spoiled.escape_ascii());
            }
        }
    }
}

#[test]
fn reading_25_the_metric_is_0_or_1() {
    for metric in ["0", "1"] {
        assert_eq!(line_gives(METRIC, metric), Ok(folder()));
    }
    for metric in ["2", "10", "00", "01", "-1", "", "0 0", "999999", "1000000"] {
        assert_eq!(line_gives(METRIC, metric), refused(30, 5), "{metric}");
    }
}

#[test]
fn reading_25_costs_and_mutex_pairs_are_held_against_nothing() {
    for pair in ["0 0", "999999 999999", "2 0", "0 2", "255 256"] {
        assert_eq!(line_gives(MUTEX_PAIR, pair), Ok(folder()), "{pair}");
    }
    for pair in ["0 -1", "-1 0", "1000000 0", "0 1000000", "00 0", "0", "0 0 0", "0  0"] {
        assert_eq!(line_gives(MUTEX_PAIR, pair), refused(30, 25), "{pair}");
    }
    for cost in ["0", "1", "256", "999999"] {
        assert_eq!(line_gives(COST, cost), Ok(folder()), "{cost}");
    }
    for cost in ["-1", "1000000", "01", "", "1 1", "1.5"] {
        assert_eq!(line_gives(COST, cost), refused(30, 42), "{cost}");
    }
}

#[test]
fn reading_26_the_first_word_of_a_layer() {
    for layer in ["0", "0 x", "1", "999999", "0 ", "0  ", "5 -1", "0 \r"] {
        assert_eq!(line_gives(FIRST_LAYER, layer), refused(31, 10), "{layer}");
        assert_eq!(line_gives(SECOND_LAYER, layer), refused(31, 17), "{layer}");
    }
    let no_numbers = ["0x", "00", "-2", "-1 ", "-1 x", "-1 -1", "-01", "-0", "", " 0", "1000000 x"];
    for layer in no_numbers {
        assert_eq!(line_gives(FIRST_LAYER, layer), refused(30, 10), "{layer}");
    }
}

#[test]
fn reading_26_the_first_word_of_an_effect() {
    for effect in ["1 0 0 0 0 1", "1", "1 ", "2 x", "999999  ", "1 \t", "10 0 0 0"] {
        assert_eq!(line_gives(EFFECT, effect), refused(31, 41), "{effect}");
    }
    let no_numbers =
        ["1x 0 0 1", "01 0 0 1", "-1 0 0 1", "1000000 0 0 1", " 1 0 0 1", "", "1\t0", "0x", "00"];
    for effect in no_numbers {
        assert_eq!(line_gives(EFFECT, effect), refused(30, 41), "{effect}");
    }
    for rest in ["0", "0 ", "0 0", "0 0 0", "0 0 0 1 0", "0 0 0 1 ", "0  0 0 1", "0 x 0 1"] {
        assert_eq!(line_gives(EFFECT, rest), refused(30, 41), "{rest}");
    }
}

#[test]
fn reading_26_the_first_word_of_the_axioms_and_prevail_conditions() {
    for axioms in ["1", "1 x", "999999 ", "2  "] {
        assert_eq!(line_gives(AXIOM_COUNT, axioms), refused(31, 53), "{axioms}");
        // Axioms that follow are behind the line that decides.
        let more = [with_line(AXIOM_COUNT, axioms), b"begin_rule\n".to_vec()].concat();
        assert_eq!(translate(&more), refused(31, 53));
    }
    for axioms in ["0 ", "0 x", "0x", "00", "-1", "01", "1x", "1000000", "", " 1"] {
        assert_eq!(line_gives(AXIOM_COUNT, axioms), refused(30, 53), "{axioms}");
    }
    // The folder's text has a prevail condition, and another count of them
    // shifts its lines; neither is 31.
    assert_eq!(line_gives(PREVAIL_COUNT, "1"), Ok(folder()));
    assert_eq!(line_gives(PREVAIL_COUNT, "2"), refused(30, 48));
    assert_eq!(line_gives(PREVAIL_COUNT, "1 x"), refused(30, 46));
}

#[test]
fn reading_27_the_version() {
    for version in ["4", "2", "1", "0", "30", "999999"] {
        assert_eq!(line_gives(VERSION, version), refused(32, 2), "{version}");
    }
    for version in ["4 x", "03", "3.1", "4 ", " 4", "-1", "1000000", "", "3 ", "three", "4\r"] {
        assert_eq!(line_gives(VERSION, version), refused(30, 2), "{version}");
    }
    for word in ["begin_metric", "BEGIN_VERSION", "begin_versio", "begin_version ", "0", ""] {
        assert_eq!(line_gives(1, word), refused(30, 1), "{word}");
    }
    // Nothing behind the version is looked at.
    assert_eq!(translate(b"begin_version\n4"), refused(32, 2));
    assert_eq!(translate(b"begin_version\n4\nend\n"), refused(32, 2));
}

#[test]
fn reading_28_the_last_line_comes_before_3_to_7() {
    let faulty = Stated {
        ranges: &[0; 97],
        start: &[9; 97],
        goal: &["200 200"; 97],
        operators: &[(&["0 999"], &["0 999 999 999"])],
    };
    assert_eq!(faulty.refused(), Some((3, 0)));
    let mut text = faulty.text();
    text.extend(b"\n");
    let lines = text.iter().filter(|&&byte| byte == b'\n').count() as u64;
    assert_eq!(translate(&text), refused(30, lines));
}

#[test]
fn reading_28_counts_over_the_limits_do_not_stop_the_reading() {
    const COUNT: usize = 999_999;
    let count = COUNT.to_string();
    assert_eq!(line_gives(VARIABLE_COUNT, &count), refused(30, 22));
    let variables = "begin_variable\n\n-1\n0\nend_variable\n".repeat(COUNT);
    let states = "0\n".repeat(COUNT);
    let front = "begin_version\n3\nend_version\nbegin_metric\n0\nend_metric\n";
    let back = "end_state\nbegin_goal\n0\nend_goal\n0\n0\n";
    let text = format!("{front}{count}\n{variables}0\nbegin_state\n{states}{back}");
    assert_eq!(translate(text.as_bytes()), refused(3, 0));
    // Seven lines, five for each variable, two, its start values, six.
    let behind = 7 + 5 * COUNT as u64 + 2 + COUNT as u64 + 6 + 1;
    assert_eq!(translate(format!("{text}x").as_bytes()), refused(30, behind));
}

#[test]
fn reading_28_the_line_number_grows_past_six_digits() {
    let names = "\n".repeat(999_999);
    let front = "begin_version\n3\nend_version\nbegin_metric\n0\nend_metric\n1\n";
    let text = format!("{front}begin_variable\n\n-1\n999999\n{names}end_variabl\n");
    assert_eq!(translate(text.as_bytes()), refused(30, 1_000_011));
}

fn two_variables(operators: &[(&[&str], &[&str])]) -> Option<(u64, u64)> {
    Stated { ranges: &[3, 3], start: &[0, 0], goal: &[], operators }.refused()
}

#[test]
fn reading_29_a_variable_in_both_sorts_of_precondition() {
    let good: (&[&str], &[&str]) = (&["0 1"], &["0 1 0 2"]);
    assert_eq!(two_variables(&[good]), None);
    assert_eq!(two_variables(&[good, (&["1 0"], &["0 1 0 2"])]), Some((7, 1)));
    assert_eq!(two_variables(&[good, good, (&["1 1"], &["0 1 0 2"])]), Some((7, 2)));
    // With -1 the prevail condition is the only one.
    assert_eq!(two_variables(&[(&["1 0"], &["0 1 -1 2"])]), None);
    assert_eq!(two_variables(&[(&["1 0", "1 0"], &[])]), Some((7, 0)));
    assert_eq!(two_variables(&[(&[], &["0 1 -1 2", "0 1 -1 2"])]), Some((7, 0)));
}

#[test]
fn reading_29_eight_preconditions_together() {
    let prevail = ["8 0", "0 0", "7 0", "1 0", "6 0", "5 0"];
    let effects = ["0 9 -1 0", "0 3 0 0", "0 2 0 0", "0 4 0 0"];
    let with = |prevail: &[&str], effects: &[&str]| {
        let operators = [(prevail, effects)];
        Stated { ranges: &[1; 10], start: &[0; 10], goal: &[], operators: &operators }.refused()
    };
    assert_eq!(with(&prevail[..5], &effects), None);
    assert_eq!(with(&prevail, &effects), Some((7, 0)));
    assert_eq!(with(&prevail, &effects[..3]), None);
    let nine = ["0 0", "1 0", "2 0", "3 0", "4 0", "5 0", "6 0", "7 0", "8 0"];
    assert_eq!(with(&nine[..8], &[]), None);
    assert_eq!(with(&nine, &[]), Some((7, 0)));
    let effects: Vec<String> = nine.iter().map(|pair| format!("0 {} -1 0", &pair[..1])).collect();
    let effects: Vec<&str> = effects.iter().map(String::as_str).collect();
    assert_eq!(with(&nine[..8], &effects[..8]), None);
    assert_eq!(with(&[], &effects), Some((7, 0)));
}

#[test]
fn reading_29_an_old_value_of_255_is_a_precondition() {
    assert_eq!(two_variables(&[(&[], &["0 0 255 1"])]), Some((7, 0)));
    assert_eq!(two_variables(&[(&[], &["0 0 256 1"])]), Some((7, 0)));
    assert_eq!(two_variables(&[(&[], &["0 0 65535 1"])]), Some((7, 0)));
    assert_eq!(two_variables(&[(&[], &["0 0 -1 1"])]), None);
    let read = read_text(&with_line(EFFECT, "0 0 255 1")).unwrap();
    assert_eq!(read.operators[0].effects[0].old, Some(255));
}

fn goal_of(goal: &[&str]) -> Option<(u64, u64)> {
    Stated { ranges: &[3, 3], start: &[0, 0], goal, operators: &[] }.refused()
}

#[test]
fn reading_30_the_goal_is_judged_in_stable_order() {
    let stated = Stated { ranges: &[3, 3], start: &[0, 0], goal: &["1 2", "0 1"], operators: &[] };
    let file = stated.translated().unwrap();
    assert_eq!(file[20..24], [0, 1, 1, 2]);
    assert_eq!(goal_of(&["1 3", "0 1"]), Some((6, 1)));
    assert_eq!(goal_of(&["1 2", "0 3"]), Some((6, 0)));
    assert_eq!(goal_of(&["0 2", "0 0"]), Some((6, 1)));
    assert_eq!(goal_of(&["0 0", "0 2"]), Some((6, 1)));
    assert_eq!(goal_of(&["0 3", "0 0"]), Some((6, 0)));
    assert_eq!(goal_of(&["0 0", "0 3"]), Some((6, 1)));
    assert_eq!(goal_of(&["1 0", "0 0", "1 3"]), Some((6, 2)));
    assert_eq!(goal_of(&["1 3", "0 0", "1 0"]), Some((6, 1)));
    assert_eq!(goal_of(&["2 0", "1 0", "0 0"]), Some((6, 2)));
    assert_eq!(goal_of(&["256 0"]), Some((6, 0)));
    assert_eq!(goal_of(&["0 256"]), Some((6, 0)));
}

#[test]
fn reading_31_the_program_prints_the_file_or_the_refusal() {
    assert_eq!(printed_bytes(translate_program, FOLDER_TEXT.as_bytes()), folder());
    let refusal = printed_bytes(translate_program, &with_line(VERSION, "4"));
    assert_eq!(refusal, b"refused 32 2\n");
    assert_eq!(printed_bytes(translate_program, b""), b"refused 30 1\n");
}
