#!/usr/bin/env bash
# The programs wiring and sketch, which rt proves and makes: target/bin/wiring and target/bin/sketch. Words name one of them alone.
set -euo pipefail
cd "$(dirname "$0")/.."
log=$(mktemp)
trap 'rm -f "$log"' EXIT
mkdir -p target/bin
[ $# -gt 0 ] || set -- wiring sketch
for name; do # run on no input; what rt says is shown only if it fails
  (cd "crates/$name" && rt run </dev/null) >"$log" 2>&1 || { tail -n 20 "$log"; echo "rt run of $name failed"; exit 1; }
  cp "crates/$name/out/$name" "target/bin/$name"
done
