#!/bin/bash
# Runs every test: proofs, must-fail edits and programs by `rt ci`, then the proved archive against the
# second implementation in rust/. The last line is the sum, 'N passed, M failed'; the one before it says what took how long.
set -u
passed=0 failed=0
proving=0 testing=0

close() {
    echo "seconds: proofs and must-fail edits $proving, archive and Rust tests $testing"
    echo "$passed passed, $failed failed"
    [ "$failed" -eq 0 ]
    exit
}

# stop WHY: what stands in the way of a verdict is a failure of its own.
stop() {
    echo "test.sh: $1" >&2
    failed=$((failed + 1))
    close
}

# add PART STATUS PASSED FAILED: a part counts if it ended well, and ran tests, all of them passing.
add() {
    passed=$((passed + $3)) failed=$((failed + $4))
    [ "$4" -eq 0 ] || close
    [ "$2" -eq 0 ] || stop "$1 ended with status $2"
    [ "$3" -gt 0 ] || stop "$1 ran no test"
}

cd "$(dirname "${BASH_SOURCE[0]}")" || stop "the repository's root cannot be entered"
command -v rt >/dev/null || stop "no rt on PATH: the Rattle toolchain is missing"
command -v cargo >/dev/null || stop "no cargo on PATH: the Rust toolchain is missing"
log=$(mktemp) || stop "no temporary file can be made"
trap 'rm -f "$log"' EXIT

# rt's own sum is named, so that the only bare one is the last line.
SECONDS=0
rt ci | tee "$log" | sed -uE 's/^[0-9]+ passed, [0-9]+ failed$/rt ci: &/'
status=${PIPESTATUS[0]}
proving=$SECONDS
[[ $(tail -n 1 "$log") =~ ^([0-9]+)\ passed,\ ([0-9]+)\ failed$ ]] || stop "rt ci (status $status) gave no count"
add "rt ci" "$status" "${BASH_REMATCH[1]}" "${BASH_REMATCH[2]}"
# rt ci passes where a must-fail edit is bad, one that cannot be applied or read, and says so on its line 'rt: ok'.
ok=$(grep '^rt: ok' "$log" | tail -n 1)
[ -n "$ok" ] || stop "rt ci gave no line 'rt: ok'"
if [[ $ok =~ ,\ ([0-9]+)\ bad ]] && [ "${BASH_REMATCH[1]}" -gt 0 ]; then stop "bad must-fail edits: ${BASH_REMATCH[1]}"; fi

SECONDS=0
./archive.sh over-ci || stop "archive.sh ended with status $?"

(cd rust && CARGO_TERM_COLOR=never cargo test --release --offline --locked --no-fail-fast) | tee "$log"
status=${PIPESTATUS[0]}
testing=$SECONDS
read -r lines good bad < <(awk '
    /^test result: / {
        lines++
        for (i = 2; i <= NF; i++) {
            if ($i == "passed;") good += $(i - 1)
            if ($i == "failed;") bad += $(i - 1)
        }
    }
    END { print lines + 0, good + 0, bad + 0 }' "$log")
[ "$lines" -gt 0 ] || stop "cargo test (status $status) gave no count"
add "cargo test" "$status" "$good" "$bad"

close
