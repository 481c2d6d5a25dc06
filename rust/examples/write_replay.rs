//! Writes `crates/replay/stdin`, the script, and `crates/replay/stdout`, what the second decoder answers to it:
//! `cargo run --release --offline --example write_replay`.

use baizeridge_tests::{replay, script};

fn main() -> std::io::Result<()> {
    let folder = concat!(env!("CARGO_MANIFEST_DIR"), "/../crates/replay");
    let script = script::script();
    std::fs::write(format!("{folder}/stdout"), replay::replay(&script))?;
    std::fs::write(format!("{folder}/stdin"), script)
}
