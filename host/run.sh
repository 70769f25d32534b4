#!/usr/bin/env bash
# Everything of the host: the tests, a program in C, a crate outside the repository, the documents' example and sessions, and the differential
# run beside the Rust original. The last line is 'N passed, 0 failed'.
# Words go to the differential run: --records-only leaves out the programs wiring and sketch.
# KANHTREV_RECORDS and KANHTREV_EXPORTS (folders with librecords.a and libexports.a), KANHTREV_WIRING and KANHTREV_SKETCH (programs)
# take the place of what rt makes.
set -euo pipefail
cd "$(dirname "$0")"
bash setup.sh
log=$(mktemp)
work=$(mktemp -d)
trap 'rm -rf "$log" "$work"' EXIT
bash library.sh
[ -n "${KANHTREV_WIRING:-}" ] || [[ " $* " == *" --records-only "* ]] || bash programs.sh wiring
[ -n "${KANHTREV_SKETCH:-}" ] || [[ " $* " == *" --records-only "* ]] || bash programs.sh sketch
status=0
cargo test --offline --release --workspace 2>&1 | tee "$log" || status=1
one() { # NAME, WORDS of a command: counted as a test of its own
  local name=$1
  shift
  if "$@" >"$work/said" 2>&1; then echo "$name: 1 passed, 0 failed"; else tail -n 30 "$work/said"; echo "$name: 0 passed, 1 failed"; fi | tee -a "$log"
}
one 'every item of the crate is documented' env RUSTDOCFLAGS='-D warnings' cargo doc --offline --no-deps -q -p kanhtrev
one 'a program in C' bash c/run.sh "$work"
one 'a crate outside the repository' bash outside.sh "$work"
if [[ " $* " != *" --records-only "* ]]; then one 'the sessions of the documents' python3 ../scripts/tour.py "${KANHTREV_WIRING:-../target/bin/wiring}" "${KANHTREV_SKETCH:-../target/bin/sketch}"; fi
cargo run --offline --release -q -p differential -- "$@" | tee -a "$log" || status=1
[[ " $* " == *" --records-only "* ]] || cargo run --offline --release -q -p sketching | tee -a "$log" || status=1
awk -v status="$status" '
  /^test result:/ { passed += $4; failed += $6 }
  /: [01] passed, [01] failed$/ { passed += $(NF - 3); failed += $(NF - 1) }
  /^[0-9]+ passed, [0-9]+ failed$/ { passed += $1; failed += $3; ran = 1 }
  END {
    if (!ran || (status && !failed)) failed++
    printf "%d passed, %d failed\n", passed, failed
    exit failed > 0
  }' "$log"
