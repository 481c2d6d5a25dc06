//! The fourth table: the public calls, window in and window out, as the program `replay` makes them. It has a digest of the
//! window behind each, which does not count.

use super::callgrind::{self, Function};
use super::load::Load;
use super::{head, row, short, size, whole, NO_VALGRIND};
use crate::decoding::BUDGET;
use crate::replay;
use crate::repository;
use crate::script::open_line;
use crate::streams::{read_round, Done, HEADER, LARGEST_LIMITS};
use std::collections::BTreeMap;

pub const NAME: &str = "calls";

/// Heights, which are also distances.
const SIZES: [u32; 2] = [3, 15];
const CHANCE: usize = 1_000;
const ROUNDS: usize = 40;
/// In front of the streams' numbers, which are not those of the other tables.
const CASES: u64 = 3_000;
const REPETITIONS: usize = 15;

const PROGRAM: &str = "replay";

/// More lines behind a round's calls.
const MORE: usize = 6;
/// A line that changes nothing: the first bit of a sheet that was never measured.
const NO_CHANGE: &str = "last 0 0";
/// A call that is refused at rest, behind the test that the window is well-formed.
const REFUSED: &str = "grow";

pub fn print() {
    let loads: Vec<Load> =
        SIZES.into_iter().flat_map(|size| Load::pair(CASES + u64::from(size), size, CHANCE, ROUNDS)).collect();
    println!(
        "Microseconds of the processor, {} rounds with 0.1 % noise, best of {REPETITIONS}:\n",
        whole(ROUNDS as f64)
    );
    head("shape | model | round and run | a test | beside a call");
    loads.iter().for_each(times);
    println!("\nInstructions a call, and bytes copied or cleared:\n");
    head("shape | model | call | test | table | unpack | work | pack | bytes");
    if !loads.iter().all(instructions) {
        row([NO_VALGRIND.into()]);
    }
}

/// The calls of a stream's rounds, with more lines behind each run.
fn script(load: &Load, behind: &[&str]) -> String {
    let (name, mut at) = (load.shape.name(), HEADER);
    let mut defects = vec![0; load.shape.detectors()];
    let mut lines = vec![open_line(name, LARGEST_LIMITS)];
    while let Ok(Done((), next)) = read_round(name, &load.input, at, &mut defects) {
        at = next;
        let digits: String = defects.iter().map(u8::to_string).collect();
        lines.push(format!("round {} {} {digits}", load.shape.edges(), load.shape.detectors()));
        lines.push(format!("run {BUDGET}"));
        lines.extend(behind.iter().map(|line| line.to_string()));
    }
    let script = lines.join("\n") + "\n";
    assert!(script.len() < replay::LONGEST, "{} bytes", script.len());
    script
}

/// By differences of whole runs of the program, which take turns. What it does beside a call is what a line takes that changes
/// nothing.
fn times(load: &Load) {
    let calls = script(load, &[]);
    let opening = calls[..=calls.find('\n').expect("a line ends")].to_string();
    let scripts = [opening, calls, script(load, &[NO_CHANGE; MORE]), script(load, &[REFUSED; MORE])];
    let mut best = [i64::MAX; 4];
    for _ in 0..REPETITIONS {
        for (best, script) in best.iter_mut().zip(&scripts) {
            let before = ended_processes();
            repository::run(PROGRAM, script.as_bytes());
            *best = (ended_processes() - before).min(*best);
        }
    }
    let [opened, called, unchanged, refused] = best.map(|time| load.a_round(time as f64));
    let beside = (unchanged - called) / MORE as f64;
    let test = (refused - unchanged) / MORE as f64;
    row(named(load).into_iter().chain([called - opened - 2.0 * beside, test, beside].map(short)));
}

extern "C" {
    fn getrusage(who: i32, usage: *mut [i64; 18]) -> i32;
}

/// Microseconds of the processor that the ended processes of this one took.
fn ended_processes() -> i64 {
    let mut usage = [0; 18];
    // SAFETY: of x86-64 Linux these are as many numbers as it stores; -1 means the processes that have ended.
    assert_eq!(unsafe { getrusage(-1, &mut usage) }, 0);
    let [user, user_part, system, system_part, ..] = usage;
    (user + system) * 1_000_000 + user_part + system_part
}

/// By the functions of the program that are not inlined. Whether there is valgrind.
fn instructions(load: &Load) -> bool {
    let Some(functions) = callgrind::functions(PROGRAM, script(load, &[]).as_bytes()) else { return false };
    let of = |name| taken(&functions, name);
    let parts = [of("plan::lay_out"), of("unpack::unpack"), of("pack::pack")];
    for (call, test, work) in
        [("round", "tested::test_round", "machine::round"), ("run", "tested::test_state", "machine::run")]
    {
        let (test, all) = (of(test), of(work));
        let work = all.instructions - parts.iter().map(|part| part.instructions).sum::<f64>();
        let [table, unpack, pack] = parts.map(|part| part.instructions);
        let counts = [test.instructions, table, unpack, work, pack, test.bytes + all.bytes].map(whole);
        row(named(load).into_iter().chain([call.into()]).chain(counts));
    }
    true
}

fn named(load: &Load) -> [String; 2] {
    [size(load.shape), load.shape.model.to_string()]
}

/// What a call of a function takes, with what it calls.
#[derive(Clone, Copy)]
struct Taken {
    instructions: f64,
    /// Copied or cleared by the library, whose instructions valgrind counts once a byte.
    bytes: f64,
}

/// Parts of the names of the library's functions.
const MEMORY: [&str; 3] = ["memcpy", "memmove", "memset"];

/// Not a number where the function is not there.
fn taken(functions: &BTreeMap<String, Function>, name: &str) -> Taken {
    let Some(function) = functions.get(name) else { return Taken { instructions: f64::NAN, bytes: f64::NAN } };
    let calls = function.calls as f64;
    let start = Taken { instructions: function.own as f64 / calls, bytes: 0.0 };
    function.callees.iter().fold(start, |sum, (callee, &[times, cost])| {
        let of_callee = if MEMORY.iter().any(|name| callee.contains(name)) {
            Taken { instructions: 0.0, bytes: cost as f64 / times as f64 }
        } else {
            taken(functions, callee)
        };
        let times = times as f64 / calls;
        Taken {
            instructions: sum.instructions + times * of_callee.instructions,
            bytes: sum.bytes + times * of_callee.bytes,
        }
    })
}
