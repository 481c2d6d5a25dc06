#!/bin/bash
# Proves every crate, runs the programs, and builds the proved archive.
set -u -o pipefail

cd "$(dirname "${BASH_SOURCE[0]}")" || exit 1
command -v rt >/dev/null || { echo "build.sh: no rt on PATH: the Rattle toolchain is missing" >&2; exit 1; }
rt all check || exit
for program in decode replay; do
    (cd "crates/$program" && rt run <stdin | cmp - stdout) || { echo "build.sh: $program does not write its file stdout" >&2; exit 1; }
done
./archive.sh
