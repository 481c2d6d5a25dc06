//! The program `decode`: standard input, standard output and standard error. Unless a signal ends it, its status is 0: a
//! program in Rattle has no exit status, and the line on standard error tells what went wrong. No stream ends `spent`
//! with the program's budget; small budgets are in the script of `replay`.

use baizeridge_tests::cases::{each_case, shapes};
use baizeridge_tests::decoder::Window;
use baizeridge_tests::decoding::{self, Output, LONGEST};
use baizeridge_tests::noise::{stream, Noise};
use baizeridge_tests::random::Random;
use baizeridge_tests::repository;
use baizeridge_tests::streams::Shape;
use std::fs::{read, write, File, OpenOptions};
use std::io::{ErrorKind, Write};
use std::net::Shutdown;
use std::os::fd::OwnedFd;
use std::os::unix::net::UnixStream;
use std::os::unix::process::ExitStatusExt;
use std::path::{Path, PathBuf};
use std::process::{self, Command, Stdio};
use std::sync::atomic::{AtomicUsize, Ordering};

/// Document 01's first session, and its result.
const FIRST: [u8; 8] = [1, 3, 0, 1, 0, 0, 0, 0];
const FIRST_RESULT: [u8; 16] = [1, 3, 0, 0, 0, 2, 0, 0, 1, 0, 0, 4, 1, 0, 0, 2];

/// Their numbers on Linux.
const SIGXFSZ: i32 = 25;

fn program() -> Command {
    Command::new(repository::program("decode"))
}

/// What the program wrote; it ended with status 0.
fn written(output: process::Output) -> Output {
    assert!(output.status.success(), "the program ended with {}", output.status);
    Output { stdout: output.stdout, stderr: String::from_utf8(output.stderr).expect("its line is text") }
}

/// What the program writes when its input comes in pieces of so many bytes.
fn run_in_pieces(input: &[u8], size: usize) -> Output {
    let mut child = program()
        .stdin(Stdio::piped())
        .stdout(Stdio::piped())
        .stderr(Stdio::piped())
        .spawn()
        .expect("the program starts");
    let mut stdin = child.stdin.take().expect("standard input is piped");
    let output = std::thread::scope(|scope| {
        scope.spawn(move || {
            for piece in input.chunks(size) {
                match stdin.write_all(piece) {
                    // It need not read what is too long.
                    Err(error) if error.kind() == ErrorKind::BrokenPipe => return,
                    written => written.expect("the program's input can be written"),
                }
            }
        });
        child.wait_with_output().expect("the program ends")
    });
    written(output)
}

fn run(input: &[u8]) -> Output {
    run_in_pieces(input, input.len().max(1))
}

fn decoded(stdout: &[u8]) -> Output {
    Output { stdout: stdout.to_vec(), stderr: String::new() }
}

fn stopped(stdout: &[u8], line: &str) -> Output {
    Output { stdout: stdout.to_vec(), stderr: format!("{line}\n") }
}

/// The program against the second decoder.
fn compared(input: &[u8]) -> Output {
    let output = run(input);
    let expected = decoding::program::<Window>(input);
    assert!(output == expected, "{input:02x?}: the program writes {output:02x?}, not {expected:02x?}");
    output
}

#[test]
fn printed_sessions() {
    assert_eq!(run(&FIRST), decoded(&FIRST_RESULT));
    let second = [[1, 3, 0].as_slice(), &[0, 0, 2], &[0, 0, 5], &[0, 0, 1], &[1, 1, 0, 1]].concat();
    assert_eq!(run(&[1, 3, 0, 2, 0, 0, 0, 0, 0]), decoded(&second));
    // 1 by 2, one defect: a tie, and west, edge 0, is committed.
    let tie = [[1, 2, 0].as_slice(), &[0, 0, 2], &[0, 0, 1], &[0, 0, 3], &[1, 0, 0, 2]].concat();
    assert_eq!(run(&[1, 2, 0, 1, 0, 0, 0, 0]), decoded(&tie));
    // 2 by 3 of model 1: edge 16 is a diagonal.
    let diagonal = [[2, 3, 1].as_slice(), &[0, 0, 2], &[0, 0, 2], &[0, 0, 5], &[1, 16, 0, 2]].concat();
    assert_eq!(run(&[2, 3, 1, 1, 0, 1, 3, 0, 0]), decoded(&diagonal));
}

#[test]
fn refusals() {
    assert_eq!(run(&[]), stopped(&[], "refused 7"));
    assert_eq!(run(&[0]), stopped(&[], "refused 1"));
    assert_eq!(run(&[16, 3]), stopped(&[], "refused 1"));
    assert_eq!(run(&[1]), stopped(&[], "refused 7"));
    assert_eq!(run(&[1, 1]), stopped(&[], "refused 2"));
    assert_eq!(run(&[1, 16]), stopped(&[], "refused 2"));
    assert_eq!(run(&[0x80, 0]), stopped(&[], "refused 8"));
    assert_eq!(run(&[1, 3]), stopped(&[], "refused 7"));
    assert_eq!(run(&[1, 3, 2]), stopped(&[], "refused 31"));
    assert_eq!(run(&[1, 3, 0x80, 1]), stopped(&[], "refused 31"));
    assert_eq!(run(&[1, 3, 0x80, 0]), stopped(&[], "refused 8"));
    for model in [0, 1] {
        assert_eq!(run(&[1, 3, model]), decoded(&[1, 3, model]));
        assert_eq!(run(&[1, 3, model, 1]), stopped(&[1, 3, model], "refused 7"));
        assert_eq!(run(&[1, 3, model, 0x80, 0]), stopped(&[1, 3, model], "refused 8"));
        assert_eq!(run(&[1, 3, model, 3]), stopped(&[1, 3, model], "refused 9"));
        assert_eq!(run(&[1, 3, model, 1, 0, 1]), stopped(&[1, 3, model, 0, 0, 2], "refused 7"));
        assert_eq!(run(&[1, 3, model, 1, 0, 0, 1, 2]), stopped(&[1, 3, model, 0, 0, 2, 0, 0, 1], "refused 9"));
    }
}

/// A 1 by 2 stream of exactly so many bytes; its last rounds are empty.
fn of_length(length: usize) -> Vec<u8> {
    let shape = Shape { height: 1, distance: 2, model: 1 };
    let mut input = stream(shape, length / 2, Noise::Defects(300_000), &mut Random::new(0x6c65, 0));
    assert!(input.len() < length);
    input.resize(length, 0);
    input
}

/// The longest input, whose result is longer than any input; then one byte more, and many more.
#[test]
fn long_input() {
    let output = compared(&of_length(LONGEST));
    assert!(output.stderr.is_empty() && output.stdout.len() > 2 * LONGEST);
    for length in [LONGEST + 1, LONGEST + 2, 4 * LONGEST] {
        assert_eq!(compared(&of_length(length)), stopped(&[], "long"));
    }
    // What is wrong with it does not matter.
    assert_eq!(run(&[0; LONGEST + 1]), stopped(&[], "long"));
    assert_eq!(run(&[0; LONGEST]), stopped(&[], "refused 1"));
}

#[test]
fn input_in_pieces() {
    let input = of_length(5_000);
    let expected = decoding::program::<Window>(&input);
    for size in [1, 7, 1_000] {
        assert_eq!(run_in_pieces(&input, size), expected);
    }
}

#[test]
fn random_streams() {
    let shapes = shapes();
    let (mut whole, mut refused) = (0, 0);
    each_case(0x7072_6f67, 105, |case, random| {
        let shape = shapes[case * 4 + random.below(4)];
        let chance = random.pick(&[1_000, 10_000, 30_000, 100_000, 500_000]);
        let rounds = 1 + 2_000 / (shape.height * shape.distance * shape.distance);
        let input = stream(shape, rounds, Noise::Edges(chance), random);
        whole += usize::from(compared(&input).stderr.is_empty());
        refused += usize::from(compared(&random.damaged(&input)).stderr.starts_with("refused "));
    });
    assert!(whole == 105 && refused >= 20, "{whole} whole, {refused} refused");
}

/// The example beside the program, which `rt ci` runs it on.
#[test]
fn stored_example() {
    let file = |name| read(repository::root().join("crates/decode").join(name));
    let [input, result] = ["stdin", "stdout"].map(|name| file(name).expect("the example can be read"));
    assert_eq!(compared(&input), decoded(&result));
}

/// The program as the shell starts it after a command of its own.
fn program_after(command: &str) -> Command {
    let mut shell = Command::new("bash");
    shell.arg("-c").arg(format!("{command}; exec \"$0\"")).arg(program().get_program());
    shell
}

/// How the program ends with this standard input and output.
fn ended(mut command: Command, input: impl Into<Stdio>, output: impl Into<Stdio>) -> process::Output {
    let child = command.stdin(input).stdout(output).stderr(Stdio::piped()).spawn().expect("the program starts");
    child.wait_with_output().expect("the program ends")
}

/// A path below target/ that no other call is given.
fn new_path() -> PathBuf {
    static COUNT: AtomicUsize = AtomicUsize::new(0);
    let number = COUNT.fetch_add(1, Ordering::Relaxed);
    Path::new(env!("CARGO_TARGET_TMPDIR")).join(format!("program-{}-{number}", process::id()))
}

/// An open file of these bytes, which has no name any more.
fn file_of(bytes: &[u8]) -> File {
    let path = new_path();
    write(&path, bytes).expect("a file can be written");
    let file = File::open(&path).expect("the file can be read");
    std::fs::remove_file(path).expect("the file can be removed");
    file
}

fn readable(path: &str) -> File {
    File::open(path).unwrap_or_else(|error| panic!("{path}: {error}"))
}

fn writable(path: &str) -> File {
    OpenOptions::new().write(true).open(path).unwrap_or_else(|error| panic!("{path}: {error}"))
}

#[test]
fn unread_input() {
    // A directory; this process's memory at address 0, where it has none; what can only be written.
    for input in [readable("/"), readable("/proc/self/mem"), writable("/dev/null")] {
        assert_eq!(written(ended(program(), input, Stdio::piped())), stopped(&[], "unread"));
    }
    assert_eq!(written(ended(program_after("exec <&-"), Stdio::null(), Stdio::piped())), stopped(&[], "unread"));
}

/// A socket that does not wait: what came of the input is a whole stream, and the read behind it fails.
#[test]
fn input_unread_behind_some_bytes() {
    let inputs = [FIRST.to_vec(), of_length(LONGEST), of_length(LONGEST + 1)];
    for (input, line) in inputs.iter().zip(["unread", "unread", "long"]) {
        let (mut sender, receiver) = UnixStream::pair().expect("sockets can be made");
        for end in [&sender, &receiver] {
            end.set_nonblocking(true).expect("a socket can be set not to wait");
        }
        sender.write_all(input).expect("the socket has room");
        let output = ended(program(), OwnedFd::from(receiver), Stdio::piped());
        assert_eq!(written(output), stopped(&[], line));
    }
}

/// Whatever the decoding ends with, and whether the result has one buffer or more, `unwritten` is the only line.
#[test]
fn unwritten_result() {
    let closed = || program_after("exec >&-");
    for input in [FIRST.to_vec(), vec![1, 3, 1], vec![1, 3, 1, 1], of_length(LONGEST)] {
        let unwritten = stopped(&[], "unwritten");
        for output in [writable("/dev/full"), readable("/dev/null")] {
            assert_eq!(written(ended(program(), file_of(&input), output)), unwritten);
        }
        assert_eq!(written(ended(closed(), file_of(&input), Stdio::null())), unwritten);
    }
    // No byte of a result was to be written.
    assert_eq!(written(ended(closed(), file_of(&[0]), Stdio::null())), stopped(&[], "refused 1"));
}

/// What the program leaves in a file, and how it ends, after a command of the shell.
fn into_file(command: &str, input: &[u8]) -> (Vec<u8>, process::Output) {
    let path = new_path();
    let file = File::create(&path).expect("a file can be made");
    let output = ended(program_after(command), file_of(input), file);
    let left = read(&path).expect("the file can be read");
    std::fs::remove_file(path).expect("the file can be removed");
    (left, output)
}

/// A limit on a file's size, in kilobytes: before the first byte, within the first buffer, within the second, and behind
/// the last byte. Where the file takes a part, the program stops there and says so. Where it has no room for a single
/// byte, the signal that comes with the limit ends the program before its line, unless it was started with that ignored.
#[test]
fn limited_result() {
    for (length, limit, is_cut) in [(1_000, 0, true), (1_000, 1, true), (30_000, 70, true), (1_000, 4, false)] {
        let input = of_length(length);
        let whole = decoding::program::<Window>(&input).stdout;
        let expected = if is_cut { &whole[..limit * 1024] } else { &whole };
        for ignored in ["trap '' XFSZ; ", ""] {
            let (left, output) = into_file(&format!("{ignored}ulimit -c 0; ulimit -f {limit}"), &input);
            assert!(left == expected, "{} bytes are left", left.len());
            if limit == 0 && ignored.is_empty() {
                assert!(output.stderr.is_empty());
                assert_eq!(output.status.signal(), Some(SIGXFSZ));
            } else {
                assert_eq!(written(output), if is_cut { stopped(&[], "unwritten") } else { decoded(&[]) });
            }
        }
    }
}

/// A result that nobody reads: a write fails, whichever way its signal was set, since what starts a Rattle program ignores it.
#[test]
fn result_without_a_reader() {
    let without_reader = || {
        let (writer, reader) = UnixStream::pair().expect("sockets can be made");
        reader.shutdown(Shutdown::Read).expect("a socket can be shut");
        OwnedFd::from(writer)
    };
    for command in [program_after("trap '' PIPE"), program()] {
        let output = ended(command, file_of(&FIRST), without_reader());
        assert_eq!(written(output), stopped(&[], "unwritten"));
    }
}

/// A file system that tells only where a file is to keep its bytes that some are lost, as one over the network may.
#[test]
fn result_lost_at_the_close() {
    let [source, library] = ["fsync.c", "fsync.so"].map(|name| Path::new(env!("CARGO_TARGET_TMPDIR")).join(name));
    write(&source, "#include <errno.h>\nint fsync(int descriptor) { errno = EIO; return -1; }\n").expect("a file can be written");
    let built = Command::new("cc").args(["-shared", "-fPIC"]).arg(&source).arg("-o").arg(&library).status();
    assert!(built.expect("cc can be run").success());
    for input in [FIRST.to_vec(), vec![1, 3, 1, 1]] {
        let (left, output) = into_file(&format!("export LD_PRELOAD={}", library.display()), &input);
        assert!(left == decoding::program::<Window>(&input).stdout);
        assert_eq!(written(output), stopped(&[], "unwritten"));
    }
}

/// Where standard error cannot be written either, nothing can be told.
#[test]
fn unwritten_line() {
    for command in ["exec 2>/dev/full", "exec 2>&-"] {
        assert_eq!(written(ended(program_after(command), readable("/"), Stdio::piped())), decoded(&[]));
        let output = ended(program_after(command), file_of(&FIRST), Stdio::piped());
        assert_eq!(written(output), decoded(&FIRST_RESULT));
    }
}
