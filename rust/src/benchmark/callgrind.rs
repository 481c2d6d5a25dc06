//! Instructions, counted by valgrind. They do not depend on what else the machine does. A repeated string instruction counts
//! once a byte.

use crate::repository;
use std::collections::BTreeMap;
use std::io::Write;
use std::path::{Path, PathBuf};
use std::process::{Command, Stdio};

/// What is counted of a process of this program. Valgrind finds it by its name.
#[no_mangle]
#[inline(never)]
pub fn baizeridge_counted(run: &mut dyn FnMut()) {
    run()
}

pub use baizeridge_counted as counted;

/// The instructions of each call of `counted` in a process of this program with these arguments; none without valgrind.
pub fn counts(arguments: &[&str]) -> Option<Vec<u64>> {
    let program = std::env::current_exe().expect("this program has a file");
    let options = ["--toggle-collect=baizeridge_counted", "--dump-after=baizeridge_counted"];
    let folder = run(&options, &program, arguments, &[])?;
    let parts = (1..).map(|part| folder.join(format!("{COUNTS}.{part}"))).take_while(|file| file.exists());
    Some(parts.map(|file| summary(&read(&file))).collect())
}

fn summary(text: &str) -> u64 {
    let line = text.lines().find_map(|line| line.strip_prefix("summary: ")).expect("a part has a sum");
    line.parse().expect("a sum is a number")
}

/// A function of a program.
#[derive(Default)]
pub struct Function {
    /// How often it was called.
    pub calls: u64,
    /// Its own instructions.
    pub own: u64,
    /// Whom it called: how often, and what that took.
    pub callees: BTreeMap<String, [u64; 2]>,
}

/// The functions of a program of the repository that reads an input, by their names; none without valgrind.
pub fn functions(program: &str, input: &[u8]) -> Option<BTreeMap<String, Function>> {
    let options = ["--compress-strings=no", "--compress-pos=no"];
    let folder = run(&options, &repository::program(program), &[], input)?;
    let text = read(&folder.join(COUNTS));
    let mut functions = BTreeMap::<String, Function>::new();
    let (mut name, mut callee) = ("", "");
    let mut lines = text.lines();
    while let Some(line) = lines.next() {
        if let Some(found) = line.strip_prefix("fn=") {
            name = found;
        } else if let Some(found) = line.strip_prefix("cfn=") {
            callee = found;
        } else if let Some(found) = line.strip_prefix("calls=") {
            let (calls, taken) = (number(found, 0), number(lines.next().unwrap_or(""), 1));
            functions.entry(callee.into()).or_default().calls += calls;
            let sums = functions.entry(name.into()).or_default().callees.entry(callee.into()).or_default();
            *sums = [sums[0] + calls, sums[1] + taken];
        } else if line.starts_with(|first: char| first.is_ascii_digit()) {
            functions.entry(name.into()).or_default().own += number(line, 1);
        }
    }
    Some(functions)
}

fn number(line: &str, place: usize) -> u64 {
    line.split(' ').nth(place).and_then(|word| word.parse().ok()).expect("a number stands there")
}

const COUNTS: &str = "counts";

/// Runs a program that reads all its input, and names the folder with what was counted.
fn run(options: &[&str], program: &Path, arguments: &[&str], input: &[u8]) -> Option<PathBuf> {
    let folder = repository::root().join("target/callgrind");
    let _ = std::fs::remove_dir_all(&folder);
    std::fs::create_dir_all(&folder).expect("a folder can be made");
    let mut valgrind = Command::new("valgrind");
    valgrind.arg("--tool=callgrind").arg(format!("--callgrind-out-file={}", folder.join(COUNTS).display()));
    valgrind.args(options).arg(program).args(arguments);
    let mut child = valgrind.stdin(Stdio::piped()).stdout(Stdio::null()).stderr(Stdio::null()).spawn().ok()?;
    child.stdin.take().expect("standard input is piped").write_all(input).expect("the input can be written");
    let status = child.wait().expect("valgrind ends");
    assert!(status.success(), "valgrind ended with {status}");
    Some(folder)
}

fn read(file: &Path) -> String {
    std::fs::read_to_string(file).unwrap_or_else(|error| panic!("{}: {error}", file.display()))
}
