//! The generator of texts reaches everything, and on its good texts the file
//! states the task that the text states.

mod common;

use common::texts::*;
use common::*;
use second::brute_force::count_good;
use second::draft::{draft, planned, Size};
use second::random::Random;
use second::refusal::Refusal;
use second::task_file::{judge, Action, Task};
use second::texts::damage::LINE_DAMAGES;
use second::texts::draft::{EffectDraft, OperatorDraft, TextDraft};
use second::texts::sheet::Sheet;
use second::texts::stream::*;
use second::texts::sweep::{line_variants, sweep};
use second::texts::TextMaker;
use second::translator::{read_text, translate, LineKind, LINE_KINDS};
use std::collections::BTreeSet;

#[test]
fn good_texts_of_every_size_become_the_draft_s_file() {
    let mut random = Random::new(21);
    for round in 0..200 {
        let size = [Size::Tiny, Size::Small, Size::Medium, Size::Large, Size::Full][round % 5];
        let task = draft(&mut random, size);
        let text = TextDraft::of(&mut random, &task);
        let sheet = Sheet::of(&mut random, &text);
        for last_with_lf in [true, false] {
            assert_eq!(translate(&sheet.text(last_with_lf)), Ok(task.file()));
        }
        assert_eq!(text.file_length(), task.file().len());
    }
}

type State = Vec<usize>;

/// Every state of some ranges, counted up like numbers.
fn states(ranges: &[usize]) -> Vec<State> {
    let mut states = vec![State::new()];
    for &range in ranges {
        let longer = |state: &State| {
            let state = state.clone();
            (0..range).map(move |value| [state.clone(), vec![value]].concat())
        };
        states = states.iter().flat_map(longer).collect();
    }
    states
}

/// Where an operator leads, by the format's own meaning.
fn after_operator(operator: &OperatorDraft, state: &State) -> Option<State> {
    let prevails = operator.prevail.iter().all(|&(variable, value)| state[variable] == value);
    let open = |effect: &EffectDraft| effect.old.is_none_or(|old| state[effect.variable] == old);
    if !prevails || !operator.effects.iter().all(open) {
        return None;
    }
    let mut next = state.clone();
    operator.effects.iter().for_each(|effect| next[effect.variable] = effect.new);
    Some(next)
}

fn after_action(action: &Action, state: &State) -> Option<State> {
    if action.preconditions.iter().any(|pair| state[pair.variable.0] != pair.value) {
        return None;
    }
    let mut next = state.clone();
    action.effects.iter().for_each(|pair| next[pair.variable.0] = pair.value);
    Some(next)
}

/// How many moves are open in all states together.
fn assert_same_task(text: &TextDraft, task: &Task) -> usize {
    assert_eq!(text.ranges, task.domains);
    assert_eq!(text.start, task.start);
    assert_eq!(text.operators.len(), task.actions.len());
    let mut moves = 0;
    for state in states(&text.ranges) {
        let reached = text.goal.iter().all(|&(variable, value)| state[variable] == value);
        assert_eq!(reached, task.goal.iter().all(|pair| state[pair.variable.0] == pair.value));
        for (operator, action) in text.operators.iter().zip(&task.actions) {
            let next = after_operator(operator, &state);
            assert_eq!(next, after_action(action, &state));
            moves += usize::from(next.is_some());
        }
    }
    moves
}

/// Good schedules of the text's own task, all of them tried.
fn good_by_text(text: &TextDraft, horizon: u64) -> u64 {
    let mut reached = vec![text.start.clone()];
    for _ in 0..horizon {
        let moved = |state: &State| {
            let moves = text.operators.iter().filter_map(|each| after_operator(each, state));
            moves.collect::<Vec<State>>()
        };
        let further: Vec<State> = reached.iter().flat_map(moved).collect();
        reached.extend(further);
    }
    let holds = |state: &&State| text.goal.iter().all(|&(x, value)| state[x] == value);
    reached.iter().filter(holds).count() as u64
}

#[test]
fn the_file_s_task_is_the_text_s_task() {
    const HORIZON: u64 = 3;
    let mut random = Random::new(22);
    let (mut moves, mut plans) = (0, 0);
    for _ in 0..400 {
        let task = planned(&mut random, Size::Tiny, HORIZON as usize).draft;
        let text = TextDraft::of(&mut random, &task);
        let bytes = Sheet::of(&mut random, &text).text(true);
        let task = judge(&translate(&bytes).unwrap()).unwrap();
        moves += assert_same_task(&text, &task);
        let good = count_good(&task, HORIZON);
        assert_eq!(good, good_by_text(&text, HORIZON));
        plans += good;
    }
    assert!(moves > 1_000 && plans > 1_000, "{moves} moves, {plans} schedules");
}

fn fault_of(text: &[u8]) -> Option<Refusal> {
    read_text(text).err().map(|fault| fault.refusal)
}

/// A line of the folder's text in another form is refused there, by the
/// format a second time, or not up to there.
fn assert_judged(index: usize, line: &[u8]) -> Option<(LineKind, u64)> {
    let (kind, detail) = (FOLDER_KINDS[index], index as u64 + 1);
    let fault = fault_of(&with_line(index + 1, line)).filter(|fault| fault.detail <= detail);
    let wanted = judged(kind, line).err().map(|number| Refusal { number, detail });
    assert_eq!(fault, wanted, "{kind:?} {}", line.escape_ascii());
    wanted.map(|refusal| (kind, refusal.number))
}

/// Each kind of line but the three of names, one of them also with 32 and
/// three with 31.
const REFUSED_KINDS: usize = LINE_KINDS.len() - 1 - 3 + 1 + 3;

#[test]
fn every_damage_at_every_line_is_refused_there_or_is_none() {
    const ROUNDS: usize = 12;
    let mut random = Random::new(23);
    let mut seen = BTreeSet::new();
    for (index, line) in folder_lines().iter().enumerate() {
        for change in LINE_DAMAGES.iter().cycle().take(ROUNDS * LINE_DAMAGES.len()) {
            let damaged = change(&mut random, FOLDER_KINDS[index], line);
            seen.extend(assert_judged(index, &damaged));
        }
    }
    assert_eq!(seen.len(), REFUSED_KINDS);
}

#[test]
fn every_variant_of_every_line_is_refused_there_or_is_none() {
    let mut seen = BTreeSet::new();
    for (index, line) in folder_lines().iter().enumerate() {
        for variant in line_variants(FOLDER_KINDS[index], line) {
            seen.extend(assert_judged(index, &variant));
        }
    }
    assert_eq!(seen.len(), REFUSED_KINDS);
}

#[test]
fn the_sweep_is_over_the_folder_example() {
    assert!(sweep().any(|case| translate(&case.text) == Ok(folder())));
    let numbers: BTreeSet<u64> = sweep().map(|case| case.answer().number).collect();
    assert_eq!(numbers, BTreeSet::from([0, 5, 6, 7, 10, 30, 31, 32]));
}

#[test]
fn a_text_cut_at_any_byte() {
    let text = FOLDER_TEXT.as_bytes();
    for length in 0..text.len() - 1 {
        let cut = &text[..length];
        let whole = cut.iter().filter(|&&byte| byte == b'\n').count();
        let last = cut.rsplit(|&byte| byte == b'\n').next().unwrap_or(&[]);
        let detail = whole as u64 + 1;
        let wanted = match judged(FOLDER_KINDS[whole], last) {
            _ if last.is_empty() => Refusal { number: 30, detail },
            Ok(()) => Refusal { number: 30, detail: detail + 1 },
            Err(number) => Refusal { number, detail },
        };
        assert_eq!(translate(cut), Err(wanted), "{length}");
    }
}

/// The cases that the comparison always runs.
fn fixed_cases() -> impl Iterator<Item = TextCase> {
    const SEEDS: u64 = 5;
    const COUNT: usize = 600;
    let random = (1..=SEEDS).flat_map(|seed| {
        let mut maker = TextMaker::new(seed, MOST_STREAM_TEXT);
        (0..COUNT).map(move |_| maker.case())
    });
    sweep().chain(random)
}

#[test]
fn every_number_comes_and_every_kind_of_line_is_refused_or_missing() {
    let mut numbers = BTreeSet::new();
    let (mut refused, mut missing) = (BTreeSet::new(), BTreeSet::new());
    for case in fixed_cases() {
        numbers.insert(case.answer().number);
        if let Err(fault) = read_text(&case.text) {
            let kinds = if fault.missing { &mut missing } else { &mut refused };
            kinds.insert(fault.wanted);
        }
    }
    assert_eq!(numbers, BTreeSet::from([0, 3, 4, 5, 6, 7, 10, 30, 31, 32]));
    for kind in LINE_KINDS {
        assert_eq!(refused.contains(&kind), !kind.is_name(), "{kind:?}");
        assert!(refused.contains(&kind) || missing.contains(&kind), "{kind:?}");
    }
}

#[test]
fn a_refusal_leaves_the_room_and_a_file_fills_its_front() {
    let mut longer = 0;
    for case in fixed_cases() {
        let answer = case.answer();
        assert_eq!(answer.room.len(), case.room);
        let file = if answer.number == 0 { translate(&case.text).unwrap() } else { Vec::new() };
        let (front, behind) = answer.room.split_at(file.len());
        assert_eq!(front, file);
        assert!(behind.iter().all(|&byte| byte == ROOM_MARK));
        longer += usize::from(answer.number == 0 && !behind.is_empty());
    }
    assert!(longer > 100);
}

#[test]
fn an_accepted_file_is_in_order_and_its_room_was_enough() {
    for case in fixed_cases() {
        match translate(&case.text) {
            Ok(file) => {
                assert!(judge(&file).is_ok());
                assert_eq!(case.answer().number, if file.len() > case.room { 10 } else { 0 });
            }
            Err(refusal) => assert_eq!(case.answer().number, refusal.number),
        }
    }
}

#[test]
fn a_stream_of_texts_is_read_as_it_was_written_and_stays_in_its_bounds() {
    let cases: Vec<TextCase> = fixed_cases().step_by(20).collect();
    let mut bytes = Vec::new();
    for case in &cases {
        assert!(case.room <= MOST_TEXT_ROOM && case.text.len() <= MOST_STREAM_TEXT);
        write_text_case(&mut bytes, case).unwrap();
    }
    let mut rest = &bytes[..];
    for case in cases {
        assert_eq!(read_text_case(&mut rest).unwrap(), Some(case));
    }
    assert_eq!(read_text_case(&mut rest).unwrap(), None);
    assert!(read_text_case(&mut &bytes[..9]).is_err());
}

#[test]
fn a_case_and_its_answer_have_the_stated_form() {
    let case = TextCase { room: 40, piece: 5, text: FOLDER_TEXT.into() };
    let mut bytes = Vec::new();
    write_text_case(&mut bytes, &case).unwrap();
    let length = (FOLDER_TEXT.len() as u32).to_le_bytes();
    let front = [&[40, 0, 0, 0, 5, 0, 0, 0][..], &length].concat();
    assert_eq!(bytes, [&front, FOLDER_TEXT.as_bytes()].concat());

    let mut bytes = Vec::new();
    write_text_answer(&mut bytes, &case.answer()).unwrap();
    assert_eq!(bytes, [&[0; 9][..], &folder(), &[0xA5, 0xA5]].concat());
    let short = TextCase { room: 3, piece: 0, text: with_line(AXIOM_COUNT, "1 x") };
    let mut bytes = Vec::new();
    write_text_answer(&mut bytes, &short.answer()).unwrap();
    assert_eq!(bytes, [31, 53, 0, 0, 0, 0, 0, 0, 0, 0xA5, 0xA5, 0xA5]);
}

#[test]
fn longer_texts_hold_counts_behind_two_bytes() {
    let mut maker = TextMaker::new(1, LONGEST_TEXT);
    let long: Vec<TextCase> =
        (0..600).map(|_| maker.case()).filter(|case| case.text.len() > MOST_STREAM_TEXT).collect();
    assert!(long.len() > 5, "{}", long.len());
    let numbers: BTreeSet<u64> = long.iter().map(|case| case.answer().number).collect();
    assert!(numbers.contains(&3) && numbers.contains(&4) && numbers.contains(&7), "{numbers:?}");
}
