//! The stored script of `crates/replay`: its output, which the proved program has to reproduce, is the second
//! decoder's. `examples/write_replay.rs` writes both files anew. Further scripts, all cases of each model and random ones, are
//! played by the program here.

use baizeridge_tests::replay::{self, by_the_program, same_lines};
use baizeridge_tests::script;
use std::collections::BTreeSet;
use std::sync::OnceLock;

const STDIN: &str = include_str!("../../crates/replay/stdin");
const STDOUT: &str = include_str!("../../crates/replay/stdout");

/// What a round call answers.
const ROUND: [&str; 8] =
    ["done", "refused 21", "refused 22", "refused 23", "refused 3", "refused 4", "refused 5", "refused 6"];

/// What the second decoder answers to all cases of a model.
fn cases_of(model: usize) -> &'static str {
    static OUTPUTS: [OnceLock<String>; 2] = [const { OnceLock::new() }; 2];
    OUTPUTS[model].get_or_init(|| replay::replay(&script::cases_of(model)))
}

/// And to random windows, sessions and lists of calls.
fn random_of(model: usize) -> &'static str {
    static OUTPUTS: [OnceLock<String>; 2] = [const { OnceLock::new() }; 2];
    OUTPUTS[model].get_or_init(|| replay::replay(&script::random_of(model, SEED)))
}
const SEED: u64 = 1;

/// The stored output and these.
fn outputs() -> [&'static str; 5] {
    [STDOUT, cases_of(0), cases_of(1), random_of(0), random_of(1)]
}

#[test]
fn the_stored_script_is_the_one_written_here() {
    assert!(STDIN == script::script(), "crates/replay/stdin is not the script of src/script.rs");
}

#[test]
fn the_second_decoder_answers_what_is_stored() {
    same_lines(&replay::replay(STDIN), STDOUT);
}

/// The proved program on all cases of a model, and on random scripts.
fn played_by_the_program(model: usize) {
    same_lines(&by_the_program(&script::cases_of(model)), cases_of(model));
    same_lines(&by_the_program(&script::random_of(model, SEED)), random_of(model));
}

#[test]
fn the_program_plays_model_0() {
    played_by_the_program(0);
}

#[test]
fn the_program_plays_model_1() {
    played_by_the_program(1);
}

/// Each refusal of the documents for a window's calls occurs, at each call that can be refused so, and each answer.
#[test]
fn every_answer_occurs() {
    let answers = [
        ("open", vec!["done", "refused 1", "refused 2", "refused 31", "refused 32"]),
        ("round", ROUND.to_vec()),
        ("raw", ROUND.to_vec()),
        ("grow", vec!["done", "refused 21", "refused 22"]),
        ("merging", vec!["busy", "rest", "refused 21", "refused 22"]),
        ("run", vec!["rest 1", "rest 4", "spent 0", "spent 1", "spent 3", "refused 21", "refused 22"]),
    ];
    for (call, answers) in answers {
        for answer in answers {
            let start = format!("{call} {answer} ");
            assert!(STDOUT.lines().any(|line| line.starts_with(&start)), "{start}");
        }
    }
    for (model, call) in [0, 1].into_iter().flat_map(|model| ["round", "raw"].map(|call| (model, call))) {
        for answer in ROUND {
            let start = format!("{call} {answer} ");
            assert!(cases_of(model).lines().any(|line| line.starts_with(&start)), "model {model}: {start}");
        }
    }
}

/// The refusals of models: 1 and 2 come first.
#[test]
fn models_that_there_are_not() {
    let refused = ["31", "31", "31", "31", "31", "31", "1", "2", "1"].map(|number| format!("open refused {number}"));
    assert_eq!(answers(part(STDOUT, "models that there are not")), refused);
}

/// The refusals of limits: 1, 2 and 31 come first.
#[test]
fn limits_that_forbid_a_shape() {
    let allowed = ["open done"; 2].map(String::from);
    let refused =
        [[32; 10].as_slice(), &[1, 1, 2, 31, 31]].concat().into_iter().map(|number| format!("open refused {number}"));
    assert_eq!(answers(part(STDOUT, "limits: ")), allowed.into_iter().chain(refused).collect::<Vec<_>>());
}

/// Lines without the window that they end with.
fn answers<'a>(lines: impl IntoIterator<Item = &'a str>) -> Vec<&'a str> {
    lines.into_iter().filter_map(|line| line.rsplitn(3, ' ').nth(2)).collect()
}

/// The lines of document 01's sessions and edges that are not proved, in the script's first part.
#[test]
fn the_document_s_lines_are_played() {
    let (part, _) = STDOUT.split_once("# the end\n").expect("the first part has an end");
    let answers = answers(part.lines().filter(|line| !line.starts_with('#')));
    let session = ["open done", "round done 00000 00", "run rest 2", "round done 00000 00", "run rest 1"];
    let expected = [
        &session[..],
        &["round done 00000 00", "run rest 4"],
        &session,
        &["round done 00000 00", "run spent 3", "merging rest"],
        &["open done", "round refused 3 77777 77", "round refused 3 77777 77", "grow refused 22"],
        &["edit", "round done 00000 00"],
    ];
    assert_eq!(answers, expected.concat());
}

/// The third round takes 3 steps.
#[test]
fn nothing_before_the_first_round() {
    for (model, edges) in [(0, 7), (1, 9)] {
        let layer =
            |set: Option<usize>| (0..edges).map(|edge| if set == Some(edge) { '1' } else { '0' }).collect::<String>();
        let (empty, last) = (format!("round done {} 000", layer(None)), format!("round done {} 000", layer(Some(3))));
        let steps = ["run rest 2", "run rest 1", "run rest 3", "run rest 1", "run rest 1", "run rest 2"];
        let rounds = [[empty.as_str(); 5].as_slice(), &[&last]].concat();
        let expected = rounds.into_iter().zip(steps).flat_map(|(round, run)| [round, run]);
        let expected: Vec<&str> = std::iter::once("open done").chain(expected).collect();
        let start = format!("1 by 4, a defect at detector 2, model {model}: ");
        assert_eq!(answers(part(STDOUT, &start)), expected);
    }
}

/// The fourth round commits a diagonal.
#[test]
fn a_session_with_diagonals() {
    let lines = part(STDOUT, "2 by 3 of model 1: ");
    let rounds = answers(lines).into_iter().filter(|line| line.starts_with("round"));
    let empty = "round done 00000000000000000 0000";
    assert_eq!(rounds.collect::<Vec<_>>(), [empty, empty, empty, "round done 00000000000000001 0000", empty]);
}

/// What is refused leaves the window, its last measured sheet too, and the buffers as they were.
#[test]
fn refused_calls_change_nothing() {
    let mut before = vec![];
    for line in outputs().into_iter().flat_map(str::lines).filter(|line| !line.starts_with('#')) {
        let window: Vec<&str> = line.rsplitn(3, ' ').take(2).collect();
        if line.contains(" refused ") && !line.starts_with("open") {
            assert_eq!(window, before, "{line}");
        }
        if line.starts_with("round refused ") || line.starts_with("raw refused ") {
            let buffers: Vec<&str> = line.split(' ').skip(3).take(2).collect();
            assert!(buffers.iter().all(|buffer| buffer.bytes().all(|byte| byte == b'7')), "{line}");
        }
        before = window;
    }
}

/// Only a raw round that is done, an edit and a fresh window change the last measured sheet.
#[test]
fn other_calls_leave_the_sheet() {
    let mut before = "0";
    for line in outputs().into_iter().flat_map(str::lines).filter(|line| !line.starts_with('#')) {
        let sheet = line.rsplit(' ').next().expect("a line has words");
        if !["raw done ", "edit ", "open "].iter().any(|start| line.starts_with(start)) {
            assert_eq!(sheet, before, "{line}");
        }
        before = sheet;
    }
}

/// The parts of an output between comments, with the comment that each begins with.
fn parts(output: &'static str) -> impl Iterator<Item = (&'static str, Vec<&'static str>)> {
    output.split("# ").skip(1).map(|part| {
        let mut lines = part.lines();
        (lines.next().expect("a comment has a line"), lines.collect())
    })
}

/// The lines of the only part whose comment starts so.
fn part(output: &'static str, start: &str) -> Vec<&'static str> {
    let mut found = parts(output).filter(|(comment, _)| comment.starts_with(start));
    let (Some((_, lines)), None) = (found.next(), found.next()) else { panic!("not one part: {start}") };
    lines
}

/// The lines begin with so many edits, each of them refused 21 by a round call, grow, merging and run, and taken back.
fn expect_faults(lines: &[&str], edits: usize) {
    let tried: Vec<_> = lines.chunks_exact(6).take(edits).map(|lines| answers(lines.iter().copied())).collect();
    assert_eq!(tried.len(), edits);
    for answers in tried {
        assert!(answers[1].starts_with("round refused 21 ") || answers[1].starts_with("raw refused 21 "));
        assert_eq!(answers[2..5], ["grow refused 21", "merging refused 21", "run refused 21"]);
        assert_eq!([answers[0], answers[5]], ["edit"; 2]);
    }
}

/// The parts whose comments start so, of which there are so many, begin with so many edits.
fn expect_parts(model: usize, start: &str, edits: &[usize]) {
    let found: Vec<_> = parts(cases_of(model)).filter(|(comment, _)| comment.starts_with(start)).collect();
    assert_eq!(found.len(), edits.len(), "model {model}: {start}");
    found.iter().zip(edits).for_each(|((_, lines), &edits)| expect_faults(lines, edits));
}

/// Absent nodes, absent edges and pointers down to an absent sheet, in each stage; and pointers down from the bottom.
#[test]
fn faults_of_absent_rounds() {
    for model in [0, 1] {
        let start = format!("windows that are not well-formed, 2 by 2 of model {model}: no sheet is there");
        expect_faults(&part(cases_of(model), &start)[1..], 6);
        for (start, edits) in [("absent nodes", 7), ("absent edges: ", 8), ("down to an absent sheet", 2)] {
            expect_parts(model, start, &[edits; 3]);
        }
        expect_faults(&part(cases_of(model), "to grow, the first round at the bottom: ")[1..], 2);
        let cut = answers(part(cases_of(model), "the second round at the bottom: the pointer is cut"));
        assert_eq!(cut[1..3], ["edit", "grow done"]);
        expect_parts(model, "used sheets made absent", &[3]);
    }
}

/// Diagonals that model 0 does not have, that are left out, and that lead to an absent sheet, in each stage; and those of the
/// bottom down.
#[test]
fn faults_of_diagonals() {
    let without = part(cases_of(0), "3 by 3 of model 0: ");
    without[2..].chunks(1 + 6 * 6).for_each(|stage| expect_faults(&stage[1..], 6));
    assert_eq!(without.len(), 2 + 3 * (1 + 6 * 6));

    let left_out: Vec<_> =
        parts(cases_of(1)).filter(|(comment, _)| comment.starts_with("diagonals that are left out: ")).collect();
    assert_eq!(left_out.len(), 3);
    for ((_, lines), edits) in left_out.iter().zip([24, 21, 24]) {
        expect_faults(&lines[1..], edits);
        assert_eq!(lines.len(), 1 + 6 * edits);
    }
    expect_parts(1, "their slots: ", &[20; 3]);
    // Nine pointers down, and three slots twice.
    expect_faults(&part(cases_of(1), "2 by 3, one sheet is there, to grow: ")[2..], 9 + 6);
    let [merging, rest] = ["and merging", "two sheets are there, at rest"]
        .map(|start| parts(cases_of(1)).filter(move |(comment, _)| *comment == start).last().expect("a part").1);
    expect_faults(&merging[2..], 9 + 6);
    let first = rest.windows(6).position(|lines| lines[1].contains(" refused 21 ")).expect("a fault");
    expect_faults(&rest[first..], 9 + 6);
    let (_, bottom) =
        parts(cases_of(1)).find(|(comment, _)| *comment == "to grow, the first round at the bottom").expect("a part");
    expect_faults(&bottom[1..], 9);
    let cut = answers(part(cases_of(1), "the second round at the bottom: every pointer down is cut"));
    assert_eq!(cut.iter().filter(|line| **line == "edit").count(), 12);
    assert_eq!(cut.iter().filter(|line| **line == "grow done").count(), 3);
}

/// 1 by 2 has no diagonal, 1 by 3 only WD and EU, 2 by 2 only NU and SD.
#[test]
fn narrow_shapes() {
    for (shape, left_out, there) in [("1 by 2", 6, 0), ("1 by 3", 10, 2), ("2 by 2", 10, 2)] {
        let lines = part(cases_of(1), &format!("{shape}, to grow: diagonals of the bottom that are left out"));
        expect_faults(&lines[3..], left_out);
        let behind = answers(lines[3 + 6 * left_out..].iter().copied());
        assert_eq!(behind[..=there], [vec!["edit"; there], vec!["grow done"]].concat());
    }
}

#[test]
fn random_pointers_along_no_edge() {
    for model in [0, 1] {
        let lines = part(random_of(model), "random pointers along no edge");
        let refused = lines.iter().filter(|line| line.starts_with("grow refused 21 ")).count();
        assert_eq!(refused, 16 * 6);
    }
}

#[test]
fn random_windows_are_mostly_well_formed() {
    for output in [STDOUT, random_of(0), random_of(1)] {
        let found = parts(output).filter(|(comment, _)| comment.starts_with("windows with random entries, played on"));
        let mut calls: Vec<_> = found.flat_map(|(_, lines)| lines).collect();
        calls.retain(|line| !line.starts_with("edit "));
        let refused = calls.iter().filter(|line| line.contains(" refused 21 ")).count();
        assert!(0 < refused && 10 * refused < calls.len(), "{refused} of {}", calls.len());
    }
}

/// Both round calls are refused 21 for each kind of fault, in each stage.
#[test]
fn both_round_calls_meet_every_kind_of_fault() {
    for (model, others) in [(0, 1), (1, 3 * 2 + 4 + 3)] {
        let mut kinds = 0;
        for (comment, lines) in parts(cases_of(model)) {
            let has = |start: &str| lines.iter().any(|line| line.starts_with(start));
            if has("grow refused 21 ") {
                assert!(has("round refused 21 ") && has("raw refused 21 "), "{comment}");
                kinds += 1;
            }
        }
        assert_eq!(kinds, 3 * 10 + 2 + 3 * 3 + 3 + others);
    }
}

/// A share of each kind of fault is in the stored script, of each model, but that only model 1 has 15 by 15.
#[test]
fn the_stored_script_has_every_kind_of_fault() {
    let (first, second) =
        STDOUT.split_once("# the first session of document 01, model 1").expect("model 1 comes second");
    let faulty = |(_, lines): &(&str, Vec<&str>)| lines.iter().any(|line| line.starts_with("grow refused 21 "));
    for (model, stored) in [first, second].into_iter().enumerate() {
        let kinds: BTreeSet<&str> = parts(stored).filter(faulty).map(|(comment, _)| comment).collect();
        let missing = parts(cases_of(model)).filter(faulty).map(|(comment, _)| comment);
        let missing: Vec<&str> = missing.filter(|comment| !kinds.contains(comment)).collect();
        assert!(missing.iter().all(|comment| model == 0 && comment.starts_with("15 by 15 ")), "{model}: {missing:?}");
    }
}

/// A list with raw rounds, whose bytes are the sums modulo 2 of another list's defects, answers as that one.
#[test]
fn raw_lists_answer_as_plain_ones() {
    for output in [STDOUT, random_of(0), random_of(1)] {
        let lists = |kind| parts(output).filter(move |(comment, _)| comment.starts_with(kind)).map(|(_, lines)| lines);
        let (plain, raw) = (lists("defects, ").flatten(), lists("measurements, ").flatten());
        let (plain, raw): (Vec<&str>, Vec<&str>) = (plain.collect(), raw.collect());
        assert_eq!(plain.len(), raw.len());
        for (plain, raw) in plain.iter().zip(&raw) {
            assert_eq!(replay::bare(plain), replay::bare(raw));
            assert!(!plain.starts_with("raw ") && !raw.starts_with("round "), "{plain}, {raw}");
        }
        assert_eq!(raw.iter().filter(|line| line.starts_with("open done ")).count(), 3);
        if output == STDOUT {
            for answer in ROUND {
                let start = format!("raw {answer} ");
                assert!(raw.iter().any(|line| line.starts_with(&start) && !line.ends_with(" 0")), "{start}");
            }
        }
    }
}
