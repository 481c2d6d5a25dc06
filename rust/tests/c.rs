//! The header for C: what it declares, the programs that include it, and the stack that it says suffices.

use baizeridge_tests::cases::shapes;
use baizeridge_tests::decoding::DECODED;
use baizeridge_tests::noise::{stream, Noise};
use baizeridge_tests::random::Random;
use baizeridge_tests::repository::{root, text};
use baizeridge_tests::streams::{Done, Stop, LARGEST, LARGEST_LIMITS};
use baizeridge_tests::{decoder, proved};
use std::collections::BTreeSet;
use std::path::Path;
use std::process::{Command, Output};

/// The exported names that a file has before an opening parenthesis.
fn names(file: &str) -> BTreeSet<String> {
    let text = text(file);
    let found = text.match_indices("baizeridge_").filter_map(|(place, _)| {
        let name: String = text[place..].chars().take_while(|c| c.is_alphanumeric() || *c == '_').collect();
        text[place + name.len()..].starts_with('(').then_some(name)
    });
    found.collect()
}

/// Builds a program with the header and the archive, as the language that the flags name, and runs it.
fn built_and_run(source: &str, name: &str, flags: &[&str]) -> Output {
    let program = Path::new(env!("CARGO_TARGET_TMPDIR")).join(name);
    let built = Command::new("cc")
        .args(["-Wall", "-Wextra", "-Werror", "-I"])
        .arg(root().join("include"))
        .args(flags)
        .arg(root().join(source))
        .args(["-x", "none"])
        .arg(root().join("target/staticlib/libexports.a"))
        .arg("-o")
        .arg(&program)
        .status();
    assert!(built.expect("cc can be run").success(), "{source} is not built with {flags:?}");
    Command::new(&program).output().expect("the program can be run")
}

#[test]
fn every_exported_function_is_declared() {
    let exported = names("crates/exports_c/src/lib.rt");
    assert!(exported.len() > 10);
    assert_eq!(names("include/baizeridge.h"), exported);
    assert_eq!(names("rust/src/proved.rs"), exported);
    assert_eq!(names("crates/exports/src/lib.rt"), exported);
}

#[test]
fn every_declared_function_is_called() {
    assert_eq!(names("rust/tests/prototypes.c"), names("include/baizeridge.h"));
    for (name, flags) in [("prototypes", &["-std=c99", "-pedantic"][..]), ("prototypes_as_c++", &["-x", "c++"])] {
        let ran = built_and_run("rust/tests/prototypes.c", name, flags);
        assert!(ran.status.success(), "{name}: {}", String::from_utf8_lossy(&ran.stdout));
    }
}

/// What a host without a C library has to bring.
#[test]
fn the_archive_asks_for_memcpy_and_memset_alone() {
    let listed = Command::new("nm").arg("-u").arg(root().join("target/staticlib/libexports.a")).output();
    let listed = listed.expect("nm can be run");
    assert!(listed.status.success());
    let listed = String::from_utf8(listed.stdout).expect("names are text");
    let asked: BTreeSet<&str> = listed.lines().filter_map(|line| line.trim_start().strip_prefix("U ")).collect();
    assert_eq!(asked, BTreeSet::from(["memcpy", "memset"]));
}

/// An example program writes these lines, which the README shows.
fn example_writes(name: &str, expected: &str) {
    let ran = built_and_run(&format!("examples/{name}.c"), name, &["-std=c99"]);
    assert!(ran.status.success());
    assert_eq!(String::from_utf8_lossy(&ran.stdout), expected);
    let shown: String = expected.lines().map(|line| format!("    {line}\n")).collect();
    assert!(text("README.md").contains(&shown), "the README shows another output");
}

#[test]
fn the_session_runs() {
    let lines = "1 by 3, model 0, 4 rounds\n2 steps, edges\n1 steps, edges\n4 steps, edges\n2 steps, edges 0\n\
                 refused 7 at byte 4, 3 bytes written\n";
    example_writes("session", lines);
}

#[test]
fn the_console_runs() {
    let lines = "7 by 7, model 1: decoded, 9 bytes written\n8 by 7, model 1: refused 32, 0 bytes written\n\
                 header refused 7\n";
    example_writes("console", lines);
}

/// A number that the header defines.
fn defined(name: &str) -> usize {
    let text = text("include/baizeridge.h");
    let line = text.lines().find_map(|line| line.strip_prefix("#define ")?.strip_prefix(name)?.strip_prefix(' '));
    line.expect("the header defines it").parse().expect("a number")
}

/// Runs a call on a thread that has no more stack than the header names; a call that needs more ends the test's process.
fn with_stack<R: Send + 'static>(name: &str, call: impl FnOnce() -> R + Send + 'static) -> R {
    let thread = std::thread::Builder::new().stack_size(defined(name)).spawn(call);
    thread.expect("a thread can be started").join().expect("the call returns")
}

/// Every shape, with noise that fills the window, until rounds that were sent have left it.
#[test]
fn the_stack_suffices_to_decode() {
    for shape in shapes() {
        // One chance in one model, the other one in the other.
        let chance = [10_000, 500_000][(shape.height + shape.distance + shape.model) % 2];
        let input = stream(shape, shape.sheets() + 4, Noise::Defects(chance), &mut Random::new(0x7374_6163, 0));
        let decoded = decoder::decode(&input);
        let mut out = vec![0; decoded.result.len()];
        let (answer, out) = with_stack("BAIZERIDGE_DECODE_STACK", move || (proved::decode(&input, &mut out), out));
        assert_eq!((answer, &out), ((DECODED, None, out.len()), &decoded.result));
    }
}

/// Every reader and writer, on the longest lists.
#[test]
fn the_stack_suffices_to_read_and_write() {
    let (detectors, layer) = (LARGEST.detectors(), LARGEST.edges());
    let name = LARGEST.name();
    let ones = (vec![1; detectors], vec![1; layer]);
    let ran = with_stack("BAIZERIDGE_STACK", move || {
        let (defects, edges) = ones;
        // A list has at most two bytes for each of its entries, and a few more.
        let mut out = vec![0; 3 * (detectors + layer)];
        let (mut to_defects, mut to_edges) = (vec![0; detectors], vec![0; layer]);
        let Done((), header) = proved::write_header(name, &mut out, 0)?;
        proved::read_header(&out, 0)?;
        let Done((), end) = proved::write_round(name, &defects, &mut out, header)?;
        proved::read_round(name, &out, header, &mut to_defects)?;
        proved::scan_input(&out[..end])?;
        let Done((), end) = proved::write_result(name, [&edges, &defects], u32::MAX, &mut out, header)?;
        proved::read_result(name, &out, header, [&mut to_edges, &mut to_defects])?;
        proved::scan_results(&out[..end])?;
        let Done((), end) = proved::write_list(&edges, &mut out, 0)?;
        proved::read_list(&out[..end], 0, &mut to_edges)?;
        proved::write_number(u32::MAX, &mut out, 0)?;
        proved::read_number(&out, 0)?;
        proved::sizes(name);
        proved::step_bound(name);
        proved::allowed(name, LARGEST_LIMITS).map_err(Stop::Refused)?;
        Ok::<_, Stop>((to_defects == defects, to_edges == edges))
    });
    assert_eq!(ran, Ok((true, true)));
}
