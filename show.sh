#!/bin/bash
# Builds the program decode, decodes a stream (the example, or the file that is named) and shows the result, a line a round.
set -u
stream=$(realpath "${1:-$(dirname "${BASH_SOURCE[0]}")/crates/decode/stdin}")

cd "$(dirname "${BASH_SOURCE[0]}")" || exit 1
command -v rt >/dev/null || { echo "show.sh: no rt on PATH: the Rattle toolchain is missing" >&2; exit 1; }
command -v cargo >/dev/null || { echo "show.sh: no cargo on PATH: the Rust toolchain is missing" >&2; exit 1; }
result=$(mktemp) || exit
trap 'rm -f "$result"' EXIT
(cd crates/decode && rt run) <"$stream" >"$result" && ./archive.sh >&2 || exit
(cd rust && cargo build --release --offline --locked --example show) || exit
target/rust/release/examples/show <"$result"
