#!/bin/bash
# Proves the crate exports_c and builds the archive for C, target/staticlib/libexports.a. Given the word `over-ci`, right after rt ci, it builds
# on the libraries that rt ci has proved and left in the crates' out/: rt lib does not take these, and would prove them all once more.
set -u
crate=exports_c
archive=target/staticlib/libexports.a

cd "$(dirname "${BASH_SOURCE[0]}")" || exit 1
command -v rt >/dev/null || { echo "archive.sh: no rt on PATH: the Rattle toolchain is missing" >&2; exit 1; }

# Only where all of them are rt ci's: rt stamps those of its other commands, which rt ci puts back when it ends, however old they are.
over_ci() {
    local kit name folder words=()
    if compgen -G "crates/*/out/rlib/stamp" >/dev/null; then return 1; fi
    kit=$(dirname "$(rt doc)")
    for name in $(sed -n "s/^$crate staticlib: //p" crates.txt); do words+=(--extern "$name=../$name/out/rlib/$name.rlib"); done
    for folder in crates/*/out/rlib; do words+=(-L "dependency=../../$folder"); done
    (cd "crates/$crate" && mkdir -p out && "$kit/bin/rattle" build --crate-name "$crate" --crate-type staticlib src/lib.rt \
        "${words[@]}" --extern "std=$kit/rlibs/std.rlib" -L "dependency=$kit/rlibs" \
        --antt-project "$kit/rattle/logic/antt-project.json" --logic-built "$kit/logic_built" \
        --toolchain "$kit/toolchain" --backend llvm --jobs 2 -o "out/lib$crate.a")
}

built=1
if [ "${1-}" = over-ci ]; then
    over_ci
    built=$?
fi
[ "$built" -eq 0 ] || (cd "crates/$crate" && rt lib) || exit
mkdir -p "$(dirname "$archive")" && cp "crates/$crate/out/lib$crate.a" "$archive" && echo "built $archive"
