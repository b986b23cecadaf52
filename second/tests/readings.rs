//! One test for each decided reading, 1 to 22 with 12a and 12b, 32 and 33.

mod common;

use common::*;
use second::brute_force::{pair_off, true_numbers};
use second::checker::end;
use second::clauses::{clause, counts, formula, Counts};
use second::draft::{draft, Size};
use second::random::Random;
use second::schedule::walk;
use second::solver_lines::*;
use second::task_file::{body, judge, judge_contents};
use second::text::{header_text, many_lines};

#[test]
fn reading_1_a_row_breaks_the_rule_by_its_start() {
    let past_the_end = contents([(16, 100), (116, 0), (116, 0), (116, 0)]);
    assert_eq!(judge(&past_the_end), refused(2, 3));
    let no_row_follows = contents([(16, 65535), (15, 0), (15, 0), (15, 0)]);
    assert_eq!(judge(&no_row_follows), refused(2, 1));
    for row in 0..4 {
        let mut file = folder();
        file[row * 4] += 1;
        assert_eq!(judge(&file), refused(2, row as u64));
    }
    let longer = [folder(), vec![0]].concat();
    assert_eq!(judge(&longer), refused(2, 3));
    assert_eq!(judge(&folder()[..37]), refused(2, 3));
}

#[test]
fn reading_2_the_length_is_judged_first() {
    for length in 0..16 {
        assert_eq!(judge(&vec![0xFF; length]), refused(1, 0));
        assert_eq!(judge_contents(&folder()[..length]), refused(1, 0));
    }
    assert_eq!(judge(&[0xFF; 16]), refused(2, 0));
    assert_eq!(judge(&vec![0xFF; 17_808]), refused(2, 0));
    assert_eq!(judge(&vec![0xFF; 17_809]), refused(1, 0));
}

#[test]
fn reading_3_a_size_outside_comes_before_the_sum() {
    let mut sizes = [64; 20];
    assert_eq!(judge(&file_with([&sizes, &[0; 20], &[], &[]])), refused(4, 20));
    sizes[19] = 65;
    assert_eq!(judge(&file_with([&sizes, &[0; 20], &[], &[]])), refused(4, 19));
    sizes[3] = 0;
    assert_eq!(judge(&file_with([&sizes, &[0; 20], &[], &[]])), refused(4, 3));
    assert!(judge(&file_with([&[64; 16], &[0; 16], &[], &[]])).is_ok());
    let just_over = [&[64; 16][..], &[1]].concat();
    assert_eq!(judge(&file_with([&just_over, &[0; 17], &[], &[]])), refused(4, 17));
}

#[test]
fn reading_4_rising_compares_variables_and_the_later_pair_is_at_fault() {
    let with_goal = |goal: &[u8]| judge(&file_with([&[2, 2, 3], &[0, 0, 0], goal, &[]]));
    assert_eq!(with_goal(&[0, 0, 0, 1]), refused(6, 1));
    assert_eq!(with_goal(&[1, 0, 0, 1]), refused(6, 1));
    assert_eq!(with_goal(&[0, 1, 2, 2, 1, 0]), refused(6, 2));
    assert_eq!(with_goal(&[0, 1, 3, 0]), refused(6, 1));
    assert_eq!(with_goal(&[255, 255]), refused(6, 0));
    assert_eq!(with_goal(&[1, 2]), refused(6, 0));
    assert!(with_goal(&[0, 1, 1, 0, 2, 2]).is_ok());
    let with_action = |bytes: &[u8]| judge(&file_with([&[2, 2], &[0, 0], &[], bytes]));
    assert_eq!(with_action(&[0, 0, 2, 0, 1, 1, 1, 0]), refused(7, 1));
    assert_eq!(with_action(&[0, 2, 1, 1, 0, 0]), refused(7, 0));
    // A precondition and an effect of one variable are in two lists.
    assert!(with_action(&[1, 1, 1, 1, 0, 0]).is_ok());
}

#[test]
fn reading_5_the_first_action_at_fault() {
    let with_actions = |bytes: &[u8]| judge(&file_with([&[2], &[0], &[], bytes]));
    assert!(with_actions(&[0; 1024]).is_ok());
    assert_eq!(with_actions(&[0; 1025]), refused(7, 512));
    assert_eq!(with_actions(&[0; 1026]), refused(7, 512));
    let mut broken = [0; 1200];
    broken[6] = 9;
    assert_eq!(with_actions(&broken), refused(7, 3));
    assert_eq!(with_actions(&[0]), refused(7, 0));
    assert_eq!(with_actions(&[0, 0, 1, 0, 0]), refused(7, 1));
    assert_eq!(with_actions(&[0, 0, 0, 1]), refused(7, 1));
    assert_eq!(with_actions(&[0, 9]), refused(7, 0));
}

#[test]
fn reading_5_lists_of_eight_and_nine() {
    let pairs: Vec<u8> = (0..9).flat_map(|x| [x, 0]).collect();
    let with_lists = |p: u8, e: u8| {
        let (p_pairs, e_pairs) = (&pairs[..2 * p as usize], &pairs[..2 * e as usize]);
        let actions = [&[p, e][..], p_pairs, e_pairs].concat();
        judge(&file_with([&[1; 9], &[0; 9], &[], &actions]))
    };
    assert!(with_lists(8, 8).is_ok());
    assert_eq!(with_lists(9, 0), refused(7, 0));
    assert_eq!(with_lists(0, 9), refused(7, 0));
}

#[test]
fn reading_6_a_body_asks_for_1_and_2_only() {
    let file = file_with([&[0, 99], &[7], &[1, 2, 3], &[9]]);
    assert_eq!(judge(&file), refused(3, 0));
    assert_eq!(judge_contents(&file), Ok(()));
    let stretches: Vec<_> = (1..=4).map(|number| body(&file, number)).collect();
    assert_eq!(stretches, [16..18, 18..19, 19..22, 22..23]);
    for number in [0, 5, 257, 1 << 32, (1 << 32) + 1, u64::MAX] {
        assert_eq!(body(&file, number), 0..0);
    }
    assert_eq!(body(&file[..22], 1), 0..0);
    assert_eq!(judge_contents(&file[..22]), refused(2, 3));
    assert_eq!(body(&file[..15], 1), 0..0);
    assert_eq!(judge_contents(&file[..15]), refused(1, 0));
    // An empty body still has its place.
    assert_eq!(body(&file_with([&[1], &[0], &[], &[]]), 3), 18..18);
}

#[test]
fn reading_7_actions_without_effects_and_equal_actions() {
    let idle = draft_of(&[1], &[], &[action(&[], &[])]).file();
    let schedules: Vec<_> = pair_off(&idle, 1).unwrap().schedules.into_iter().collect();
    assert_eq!(schedules, [[0], [1]]);
    assert_ne!(model_of(&idle, 1, &[0], 1), model_of(&idle, 1, &[1], 1));

    let step = action(&[(0, 0)], &[(0, 1)]);
    let twins = draft_of(&[2], &[(0, 1)], &[step.clone(), step]).file();
    let schedules: Vec<_> = pair_off(&twins, 1).unwrap().schedules.into_iter().collect();
    assert_eq!(schedules, [[1], [2]]);

    // Start and goal are one clause at k = 0, and stand twice.
    let done = formula(&draft_of(&[1], &[(0, 0)], &[]).file(), 0).unwrap();
    assert_eq!(done.every_clause().collect::<Vec<_>>(), [[1], [1], [1]]);
}

#[test]
fn reading_8_the_order_at_a_call() {
    let (file, bad) = (folder(), [0; 3]);
    assert_eq!(clause(&bad, 65, 99, &mut []), refused(1, 0));
    assert_eq!(clause(&file, 65, 99, &mut []), refused(8, 0));
    assert_eq!(clause(&file, 1, 22, &mut []), refused(9, 0));
    assert_eq!(clause(&file, 1, 21, &mut [0]), refused(10, 0));
    assert_eq!(walk(&file, 2, &[9]), refused(10, 0));
    assert_eq!(walk(&file, 2, &[9, 9]), refused(20, 1));
    assert_eq!(walk(&file, 2, &[2, 9]), refused(20, 2));
    assert_eq!(model_of(&file, 2, &[9, 9], 0), refused(10, 0));
    let mut row = [7];
    let mut short: [u64; 0] = [];
    let mut rows = Rows { given: &mut row, truth: &mut short };
    let begun = state(10, Phase::NoStatus);
    assert_eq!(start(&file, 1, &mut rows), refused(10, 0));
    assert_eq!(read_line(begun, b"x", &mut rows), refused(10, 0));
    assert_eq!(row, [7]);
}

#[test]
fn reading_9_the_room_for_text_and_literals() {
    assert_eq!(header_text(&folder(), 1, &mut [0; 11]), refused(10, 0));
    assert_eq!(header_text(&folder(), 1, &mut [0; 12]), Ok(12));
    assert_eq!(clause(&folder(), 1, 17, &mut [0; 2]), refused(10, 0));
    assert_eq!(clause(&folder(), 1, 17, &mut [0; 3]), Ok(3));
}

#[test]
fn reading_10_what_details_count_from() {
    let file = folder();
    assert_eq!(end_with(&file, 1, Phase::Closed, 10, &[0]), refused(17, 0));
    assert_eq!(walk(&file, 2, &[0, 3]), refused(20, 2));
    assert_eq!(walk(&file, 2, &[1, 1]), refused(21, 2));
    let two_goals = draft_of(&[2, 2], &[(0, 0), (1, 1)], &[]).file();
    assert_eq!(walk(&two_goals, 0, &[]), refused(22, 1));
}

#[test]
fn reading_11_the_limits_that_are_reached() {
    let mut random = Random::new(11);
    let widest = draft(&mut random, Size::Widest);
    let pairs: Vec<(u8, u8)> = (0..16).map(|x| (x, 0)).collect();
    let widest = second::draft::Draft { goal: pairs, ..widest }.file();
    assert_eq!(counts(&widest, 64), Ok(Counts { variables: 99_328, clauses: 11_059_760 }));
    assert_eq!(clause(&widest, 64, 11_059_759, &mut [0; 2]), Ok(2));

    let full = draft(&mut random, Size::Full);
    let pairs: Vec<(u8, u8)> = (0..96).map(|x| (x, 0)).collect();
    let full = second::draft::Draft { goal: pairs, ..full };
    assert_eq!(full.file().len(), 17_808);
    assert!(judge(&full.file()).is_ok());

    let all_set = vec![action(&[], &[(0, 0)]); 512];
    let formula = formula(&draft_of(&[1], &[], &all_set).file(), 1).unwrap();
    assert_eq!(formula.every_clause().map(|clause| clause.len()).max(), Some(514));
}

#[test]
fn reading_12a_many_lines_and_the_end_with_short_room() {
    assert_eq!(many_lines(&folder(), 1, 22, &mut []), refused(9, 0));
    assert_eq!(many_lines(&folder(), 1, 21, &mut [0; 7]), refused(10, 0));
    assert_eq!(many_lines(&folder(), 1, 21, &mut []), refused(10, 0));
    for (given, truth, steps) in [(0, 1, 1), (1, 0, 1), (1, 1, 0)] {
        let rows = (&vec![0; given][..], &vec![0; truth][..]);
        let mut entries = vec![5; steps];
        let answer = end(&folder(), 1, state(10, Phase::Unsatisfiable), rows, &mut entries);
        assert_eq!(answer, refused(10, 0));
        assert_eq!(entries, vec![5; steps]);
    }
}

#[test]
fn reading_12b_numbers_are_wide_and_states_may_be_made_up() {
    for wide in [65, 256, 65_536, 1 << 32, (1 << 32) + 1, u64::MAX] {
        assert_eq!(counts(&folder(), wide), refused(8, 0));
        assert_eq!(walk(&folder(), 1, &[wide]), refused(20, 1));
        assert_eq!(clause(&folder(), 1, wide.saturating_add(21), &mut [0; 9]), refused(9, 0));
    }
    assert_eq!(line_at(Phase::SatisfiableOpen, 0, b"v 1"), refused(13, 2));
    assert_eq!(line_at(Phase::SatisfiableOpen, 128, b"v 128"), Ok(Phase::SatisfiableOpen));
    assert_eq!(line_at(Phase::SatisfiableOpen, 129, b"c"), refused(10, 0));
    assert_eq!(line_at(Phase::SatisfiableOpen, u64::MAX, b"c"), refused(10, 0));
}

#[test]
fn reading_12_a_line_s_place_is_its_first_byte() {
    use Phase::*;
    for phase in [SatisfiableOpen, Closed, Unsatisfiable, Unknown] {
        assert_eq!(line_at(phase, 10, b"s"), refused(12, 0));
        assert_eq!(line_at(phase, 10, b"s SATISFIABLE"), refused(12, 0));
    }
    for phase in [NoStatus, Closed, Unsatisfiable, Unknown] {
        assert_eq!(line_at(phase, 10, b"v"), refused(12, 0));
        assert_eq!(line_at(phase, 10, b"vx"), refused(12, 0));
        assert_eq!(line_at(phase, 10, &[b'v'; 4_097]), refused(11, 4_096));
        assert_eq!(line_at(phase, 10, b"c"), Ok(phase));
    }
    assert_eq!(first_line(b"s SATISFIABLE"), Ok(SatisfiableOpen));
    assert_eq!(first_line(b"s UNSATISFIABLE"), Ok(Unsatisfiable));
    assert_eq!(first_line(b"s UNKNOWN"), Ok(Unknown));
}

#[test]
fn reading_13_lines_that_begin_otherwise() {
    use Phase::*;
    for phase in [NoStatus, SatisfiableOpen, Closed, Unsatisfiable, Unknown] {
        assert_eq!(line_at(phase, 10, b"x"), refused(11, 0));
        assert_eq!(line_at(phase, 10, b" v"), refused(11, 0));
        assert_eq!(line_at(phase, 10, b""), refused(11, 0));
        assert_eq!(line_at(phase, 10, b"cx"), refused(11, 1));
        assert_eq!(line_at(phase, 10, b"c x\xff\n"), Ok(phase));
    }
}

#[test]
fn reading_14_the_grammar_knows_no_length() {
    let mut line = vec![b' '; 4_096];
    line[0] = b'v';
    assert_eq!(open_line(&line), Ok(Phase::SatisfiableOpen));
    line[4_095] = b'-';
    assert_eq!(open_line(&line), refused(11, 4_096));
    line.push(b'1');
    assert_eq!(open_line(&line), refused(11, 4_096));
    line[4_094] = b'x';
    assert_eq!(open_line(&line[..4_096]), refused(11, 4_094));
    let comment = [b"c ".to_vec(), vec![0; 4_094]].concat();
    assert_eq!(open_line(&comment), Ok(Phase::SatisfiableOpen));
}

#[test]
fn reading_15_numbers_and_their_first_bytes() {
    let cases: [(&str, u64, u64); 18] = [
        ("v -11", 13, 2),
        ("v 1 -1", 14, 4),
        ("v 0 0", 12, 4),
        ("v 0 11", 12, 4),
        ("v 0 -0", 11, 5),
        ("v 11 x", 13, 2),
        ("v 11x", 11, 4),
        ("v 1234567", 11, 8),
        ("v -1234567", 11, 9),
        ("v 999999", 13, 2),
        ("v 00", 11, 3),
        ("v 01", 11, 3),
        ("v +1", 11, 2),
        ("v --1", 11, 3),
        ("v -", 11, 3),
        ("v 1-", 11, 3),
        ("v1", 11, 1),
        ("v 0 1x", 11, 5),
    ];
    for (line, number, detail) in cases {
        assert_eq!(open_line(line.as_bytes()), refused(number, detail), "{line}");
    }
    for line in ["v", "v ", "v    ", "v  1   -2 ", "v 10 -9"] {
        assert_eq!(open_line(line.as_bytes()), Ok(Phase::SatisfiableOpen), "{line}");
    }
    for line in ["v 0", "v 1 0", "v 0   "] {
        assert_eq!(open_line(line.as_bytes()), Ok(Phase::Closed), "{line}");
    }
}

#[test]
fn reading_16_status_words_and_odd_bytes() {
    let cases: [(&[u8], u64); 12] = [
        (b"s UNX", 4),
        (b"s SATISFIABLE ", 13),
        (b"s SATISFIABLE\r", 13),
        (b"s", 1),
        (b"s ", 2),
        (b"sS", 1),
        (b"s  SATISFIABLE", 2),
        (b"s sat", 2),
        (b"s UNSATISFIABL", 14),
        (b"s UNKNOWNS", 9),
        (b"s SOLUTIONS 3", 3),
        (b"s INDETERMINATE", 2),
    ];
    for (line, detail) in cases {
        assert_eq!(first_line(line), refused(11, detail), "{}", line.escape_ascii());
    }
    for odd in [b'\r', b'\t', b'\n', 0, 0xA0, b'/', b':'] {
        assert_eq!(open_line(&[b'v', odd]), refused(11, 1));
        assert_eq!(open_line(&[b'v', b' ', odd]), refused(11, 2));
        assert_eq!(open_line(&[b'v', b' ', b'1', odd]), refused(11, 3));
        assert_eq!(open_line(&[b'c', odd]), refused(11, 1));
        assert_eq!(open_line(&[b'c', b' ', odd]), Ok(Phase::SatisfiableOpen));
    }
}

#[test]
fn reading_17_a_refused_line_stores_nothing_to_the_letter() {
    let begun = state(10, Phase::SatisfiableOpen);
    let (mut given, mut truth) = ([0xF000, 9], [0xF006, 9]);
    let mut rows = Rows { given: &mut given, truth: &mut truth };
    assert_eq!(read_line(begun, b"v 1 -2 3 11", &mut rows), refused(13, 9));
    assert_eq!(read_line(begun, b"v 1 -2 3 x", &mut rows), refused(11, 9));
    assert_eq!(*rows.given, [0xF000, 9]);
    assert_eq!(*rows.truth, [0xF006, 9]);
    assert_eq!(read_line(begun, b"v 1 -2 -4", &mut rows), Ok(begun));
    assert_eq!((given, truth), ([0xF00B, 9], [0xF005, 9]));
}

#[test]
fn reading_18_the_state_before_a_refused_line_may_be_used_again() {
    let (mut given, mut truth) = ([0], [0]);
    let mut rows = Rows { given: &mut given, truth: &mut truth };
    let output = b"s SATISFIABLE\nv 1\nv 1 2\nv 2 0\n";
    let fold = fold_lines(state(10, Phase::NoStatus), output, &mut rows);
    assert_eq!((fold.refusal, fold.lines_taken), (refused::<()>(14, 2).err(), 2));
    let next = read_line(fold.state, b"v 2 0", &mut rows);
    assert_eq!(next, Ok(state(10, Phase::Closed)));
    assert_eq!(true_numbers(&truth, 10), [1, 2]);
    // The program stops at the first refused line.
    let text = String::from_utf8_lossy(output);
    assert_eq!(printed_schedule(&model_input(1, &folder(), &text)), "refused 14 2\n");
}

#[test]
fn reading_19_the_order_at_the_end() {
    use Phase::*;
    let file = folder();
    for (phase, number) in
        [(NoStatus, 15), (Unsatisfiable, 18), (Unknown, 19), (SatisfiableOpen, 15)]
    {
        assert_eq!(end_with(&file, 2, phase, 16, &[0]), refused(number, 0));
        assert_eq!(end_with(&file, 2, phase, 1, &[0]), refused(number, 0));
    }
    assert_eq!(end_with(&file, 2, Closed, 16, &[0]), refused(17, 0));
    let closed_early = "s SATISFIABLE\nv 1 -2 3 -4 5 -6 -7 8 9 0\n";
    assert_eq!(printed_schedule(&model_input(2, &file, closed_early)), "refused 17 2\n");
}

#[test]
fn reading_20_what_the_programs_print() {
    let done = draft_of(&[1], &[(0, 0)], &[]).file();
    assert_eq!(printed_schedule(&model_input(0, &done, "s SATISFIABLE\nv 1 0\n")), "");
    assert_eq!(printed_schedule(&model_input(0, &done, "s UNKNOWN")), "refused 19 0\n");
    assert_eq!(printed_schedule(&model_input(1, &done, "s UNSATISFIABLE\n")), "refused 18 0\n");
    assert_eq!(printed_clauses(&[]), "refused 1 0\n");
    assert_eq!(printed_clauses(&[65]), "refused 1 0\n");
    assert_eq!(printed_schedule(&[]), "refused 1 0\n");
}

#[test]
fn reading_21_which_file_is_judged() {
    let file = folder();
    let longer = [&[1][..], &file, &[0]].concat();
    assert_eq!(printed_clauses(&longer), "refused 2 3\n");
    let with_length = |length: u16, rest: &[u8]| {
        printed_schedule(&[&[0][..], &length.to_le_bytes(), &file, rest].concat())
    };
    assert_eq!(with_length(u16::MAX, &[]), "refused 15 0\n");
    assert_eq!(with_length(17_809, &[]), "refused 15 0\n");
    assert_eq!(with_length(37, &[]), "refused 2 3\n");
    assert_eq!(with_length(39, b"\n"), "refused 2 3\n");
    assert_eq!(with_length(38, b"s UNSATISFIABLE"), "refused 18 0\n");
    // A length of one byte reads as low byte alone, the high byte as 0.
    assert_eq!(printed_schedule(&[0, 38]), "refused 1 0\n");
}

#[test]
fn reading_22_long_and_empty_lines() {
    let long = format!("s SATISFIABLE\nc {}\n", "x".repeat(1_000_000));
    assert_eq!(printed_schedule(&model_input(2, &folder(), &long)), "refused 11 4096\n");
    assert_eq!(printed_schedule(&model_input(2, &folder(), "c\n\nx")), "refused 11 0\n");
    assert_eq!(lines_of(b"\n\n"), [b"", b""]);
    assert_eq!(lines_of(b"a\n"), [b"a"]);
    assert_eq!(lines_of(b"a\nb"), [b"a", b"b"]);
    assert!(lines_of(b"").is_empty());
}

/// What the model program prints for a folder model at horizon 2 of these
/// literals.
fn folder_model(literals: &[i64]) -> String {
    let words: String = literals.iter().map(|literal| format!(" {literal}")).collect();
    printed_schedule(&model_input(2, &folder(), &format!("s SATISFIABLE\nv{words} 0\n")))
}

#[test]
fn reading_32_a_clause_counts_by_named_literals_alone() {
    let model = [1, -2, 3, -4, 5, -6, -7, 8, 9, -10, -11, 12, 13, -14, -15, 16];
    let without = |left_out: &[i64]| -> Vec<i64> {
        model.into_iter().filter(|literal| !left_out.contains(literal)).collect()
    };
    assert_eq!(folder_model(&without(&[])), "1\n2\n");
    // -1 -2, -6 2 and -11 7 are true by the variable that is left out alone.
    assert_eq!(folder_model(&without(&[-2])), "refused 17 9\n");
    assert_eq!(folder_model(&without(&[-6])), "refused 17 16\n");
    assert_eq!(folder_model(&without(&[-11])), "refused 17 18\n");
    assert_eq!(folder_model(&without(&[-6, -2, -11])), "refused 17 9\n");
    assert_eq!(folder_model(&without(&model)), "refused 17 0\n");
    // Of a false clause and one without a named literal the lower number wins.
    assert_eq!(folder_model(&[without(&[-2, 16]), vec![-16]].concat()), "refused 17 2\n");
    assert_eq!(folder_model(&[without(&[-2, 12]), vec![-12]].concat()), "refused 17 9\n");
}

#[test]
fn reading_33_an_action_that_would_change_nothing_may_be_left_out() {
    // Value 0 and 1 at step 1 are 1 and 2, the actions 3 and 4, the values at step 2 5 and 6.
    let keeps = [action(&[], &[(0, 0)]), action(&[(0, 0)], &[])];
    let file = draft_of(&[2], &[(0, 0)], &keeps).file();
    let ended = |given: &[u64], truth: &[u64]| {
        let mut entries = [9];
        let rows = (&bits(given)[..], &bits(truth)[..]);
        end(&file, 1, state(6, Phase::Closed), rows, &mut entries).map(|()| entries[0])
    };
    assert_eq!(ended(&[1, 2, 3, 4, 5, 6], &[1, 5]), Ok(0));
    // Its true bit does not make the action a move.
    assert_eq!(ended(&[1, 2, 4, 5, 6], &[1, 3, 5]), Ok(0));
    assert_eq!(ended(&[1, 2, 3, 5, 6], &[1, 4, 5]), Ok(0));
    assert_eq!(ended(&[1, 2, 3, 4, 5, 6], &[1, 3, 5]), Ok(1));
    // Both at one step leave "not both actions", clause 10, without a true literal.
    assert_eq!(ended(&[1, 2, 5, 6], &[1, 5]), refused(17, 10));
}
