#!/bin/bash
# Builds the proved archive and the program `replay`, and prints the benchmark's tables, the proved decoder beside three decoders in
# Rust that are not proved: all tables, or those that are named (cost, growth, tail, calls).
set -u

cd "$(dirname "${BASH_SOURCE[0]}")" || exit 1
command -v rt >/dev/null || { echo "bench.sh: no rt on PATH: the Rattle toolchain is missing" >&2; exit 1; }
command -v cargo >/dev/null || { echo "bench.sh: no cargo on PATH: the Rust toolchain is missing" >&2; exit 1; }
(cd crates/replay && rt run <stdin >/dev/null) && ./archive.sh >&2 || exit
cd rust && cargo run --profile benchmark --offline --locked --example benchmark -- "$@"
