//! docs/FORMATS.md: its fenced blocks have bytes on the left and what they say on the right. Each line is what the proved
//! readers make of the bytes, and each input is decoded to the result behind it.

use baizeridge_tests::compare::{self, read_header, read_list, read_number, read_result, read_round};
use baizeridge_tests::compare::{scan_input, scan_results};
use baizeridge_tests::decoder;
use baizeridge_tests::decoding::DECODED;
use baizeridge_tests::repository;
use baizeridge_tests::streams::{Done, Name, Shape, Stop};

const DOCUMENT: &str = include_str!("../../docs/FORMATS.md");

/// Bytes, and what is said of them.
type Line = (Vec<u8>, String);

struct Block {
    kind: &'static str,
    lines: Vec<Line>,
}

impl Block {
    fn bytes(&self) -> Vec<u8> {
        self.lines.iter().flat_map(|(bytes, _)| bytes.clone()).collect()
    }
}

fn line(text: &str) -> Line {
    let (bytes, said) = text.split_once("  ").expect("bytes, spaces and words");
    let byte = |word: &str| u8::from_str_radix(word, 16).expect("a byte in hexadecimal");
    (bytes.split(' ').filter(|&word| word != "none").map(byte).collect(), said.trim_start().to_string())
}

fn blocks() -> Vec<Block> {
    let block = |part: &'static str| {
        let (kind, lines) = part.split_once('\n').expect("a fence ends its line");
        Block { kind, lines: lines.lines().map(line).collect() }
    };
    DOCUMENT.split("```").skip(1).step_by(2).map(block).collect()
}

fn refusal(stop: Stop) -> String {
    match stop {
        Stop::End => "the end".to_string(),
        Stop::Refused(number) => format!("refused {number}"),
        Stop::RefusedAt(number, at) => format!("refused {number} at {at}"),
    }
}

/// The set entries, under their name.
fn entries(name: &str, list: &[u8]) -> String {
    let set: Vec<String> = (0..list.len()).filter(|&entry| list[entry] == 1).map(|entry| entry.to_string()).collect();
    if set.is_empty() {
        format!("no {name}")
    } else {
        format!("{name} {}", set.join(", "))
    }
}

/// The shape, the header's line and the offset behind it.
fn header(src: &[u8]) -> Result<(Shape, Line, usize), Stop> {
    let Done(name, at) = read_header(src, 0)?;
    Ok((Shape::new(name)?, (src[..at].to_vec(), said(name)), at))
}

fn said([height, distance, model]: Name) -> String {
    format!("{height} by {distance}, model {model}")
}

/// A line a round; the empty ones at the end share one.
fn input_lines(src: &[u8]) -> Result<Vec<Line>, Stop> {
    let (shape, first, mut at) = header(src)?;
    let mut lines = vec![first];
    let mut round = shape.sheets();
    while src[at..].iter().any(|&byte| byte > 0) {
        let (answer, defects) = read_round(shape.name(), src, at, shape.detectors());
        let Done((), next) = answer?;
        lines.push((src[at..next].to_vec(), format!("round {round}: {}", entries("defects", &defects))));
        (at, round) = (next, round + 1);
    }
    let last = round + src.len() - at - 1;
    lines.push((src[at..].to_vec(), format!("rounds {round} to {last}: no defects")));
    Ok(lines)
}

/// A line a record.
fn result_lines(src: &[u8]) -> Result<Vec<Line>, Stop> {
    let (shape, first, mut at) = header(src)?;
    let mut lines = vec![first];
    while at < src.len() {
        let (answer, [edges, escapes]) = read_result(shape.name(), src, at, [shape.edges(), shape.detectors()]);
        let Done(steps, next) = answer?;
        let out = lines.len() - 1;
        let (round, edges, escapes) = (shape.sheets() + out, entries("edges", &edges), entries("escapes", &escapes));
        let text = format!("round {round} in, steps {steps}; round {out} out: {edges}, {escapes}");
        lines.push((src[at..next].to_vec(), text));
        at = next;
    }
    Ok(lines)
}

/// A line a number. The reader of lists finds the same entries.
fn list_lines(src: &[u8], size: usize) -> Result<Vec<Line>, Stop> {
    let Done(count, mut at) = read_number(src, 0)?;
    let mut lines = vec![(src[..at].to_vec(), format!("count {count}"))];
    let (mut free, mut set) = (0, vec![0; size]);
    for _ in 0..count {
        let Done(skip, next) = read_number(src, at)?;
        let entry = free + skip as usize;
        *set.get_mut(entry).ok_or(Stop::RefusedAt(9, at))? = 1;
        lines.push((src[at..next].to_vec(), format!("skip {skip}, entry {entry}")));
        (at, free) = (next, entry + 1);
    }
    assert_eq!(read_list(src, 0, size), (Ok(Done((), at)), set));
    Ok(lines)
}

fn number(src: &[u8]) -> Result<String, Stop> {
    let Done(n, next) = read_number(src, 0)?;
    assert_eq!(next, src.len());
    assert_eq!(compare::write_number(n, next, 0), (Ok(Done((), next)), src.to_vec()));
    Ok(n.to_string())
}

fn whole_input(src: &[u8]) -> Result<String, Stop> {
    Ok(whole(scan_input(src)?))
}

fn whole_result(src: &[u8]) -> Result<String, Stop> {
    Ok(whole(scan_results(src)?))
}

fn whole(Done((name, rounds), _): Done<(Name, usize)>) -> String {
    format!("{}, records {rounds}", said(name))
}

/// What the readers make of a block's bytes.
fn read(block: &Block) -> Result<Vec<Line>, Stop> {
    let each = |say: fn(&[u8]) -> Result<String, Stop>| {
        Ok(block.lines.iter().map(|(src, _)| (src.clone(), say(src).unwrap_or_else(refusal))).collect())
    };
    match block.kind.split(' ').collect::<Vec<_>>()[..] {
        ["numbers"] => each(number),
        ["inputs"] => each(whole_input),
        ["results"] => each(whole_result),
        ["list", size] => list_lines(&block.bytes(), size.parse().expect("a list's size")),
        ["input"] => input_lines(&block.bytes()),
        ["result"] => result_lines(&block.bytes()),
        _ => panic!("a block of kind {}", block.kind),
    }
}

#[test]
fn every_line_is_what_the_readers_read() {
    let kinds: Vec<&str> = blocks().iter().map(|block| block.kind).collect();
    let examples = ["input", "result"].repeat(3);
    assert_eq!(kinds, [&["numbers", "list 411"], &examples[..], &["inputs", "results"]].concat());
    blocks().into_iter().for_each(|block| assert_eq!(read(&block), Ok(block.lines)));
}

#[test]
fn every_input_is_decoded_to_the_result_behind_it() {
    let bytes = |kind| blocks().into_iter().filter(move |block| block.kind == kind).map(|block| block.bytes());
    for (input, result) in bytes("input").zip(bytes("result")) {
        let decoded = decoder::decode(&input);
        assert_eq!((decoded.status, &decoded.result), (DECODED, &result));
        assert_eq!(compare::decode(&input, &decoded, result.len()), DECODED);
        assert_eq!(repository::run("decode", &input), result);
    }
    let (list, result) = (bytes("list 411").next().expect("a list"), bytes("result").nth(1).expect("a result"));
    assert!(result.windows(list.len()).any(|part| part == list), "the list is one of the second result");
}

/// In the examples every bit of every byte counts.
#[test]
fn a_changed_bit_is_noticed() {
    let mut changed = 0;
    for mut block in blocks().into_iter().filter(|block| ["list 411", "input", "result"].contains(&block.kind)) {
        for line in 0..block.lines.len() {
            for bit in 0..8 * block.lines[line].0.len() {
                block.lines[line].0[bit / 8] ^= 1 << (bit % 8);
                assert_ne!(read(&block).as_ref(), Ok(&block.lines), "{}, line {line}, bit {bit}", block.kind);
                block.lines[line].0[bit / 8] ^= 1 << (bit % 8);
                changed += 1;
            }
        }
    }
    assert!(changed >= 8 * 100, "{changed} bits");
}
