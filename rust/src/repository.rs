//! The repository's files, and the programs that it builds.

use std::io::Write;
use std::path::{Path, PathBuf};
use std::process::{Command, Stdio};

pub fn root() -> PathBuf {
    Path::new(env!("CARGO_MANIFEST_DIR")).parent().expect("rust/ stands in the repository").to_path_buf()
}

pub fn text(file: impl AsRef<Path>) -> String {
    let path = root().join(file);
    std::fs::read_to_string(&path).unwrap_or_else(|error| panic!("{}: {error}", path.display()))
}

/// A program by its name.
pub fn program(name: &str) -> PathBuf {
    let program = root().join("crates").join(name).join("out").join(name);
    assert!(program.exists(), "no program to test: run `rt run <stdin` in crates/{name} first");
    program
}

/// What a program that reads all its input writes to standard output, with nothing on standard error.
pub fn run(name: &str, input: &[u8]) -> Vec<u8> {
    let mut child = Command::new(program(name))
        .stdin(Stdio::piped())
        .stdout(Stdio::piped())
        .stderr(Stdio::piped())
        .spawn()
        .expect("the program starts");
    child.stdin.take().expect("standard input is piped").write_all(input).expect("the input can be written");
    let output = child.wait_with_output().expect("the program ends");
    assert!(output.status.success() && output.stderr.is_empty());
    output.stdout
}
