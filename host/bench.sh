#!/usr/bin/env bash
# The benchmark: prints the tables of docs/SPEED.md. Nothing else should be running; instructions are counted where valgrind is.
# rt makes librecords.a, libexports.a and, in a copy of the repository, libwalks.a from host/walks, which is no part of what is
# delivered. KANHTREV_RECORDS, KANHTREV_EXPORTS and KANHTREV_WALKS (folders with these libraries) take the place of what rt makes.
set -euo pipefail
cd "$(dirname "$0")"
bash setup.sh
work=$(mktemp -d)
trap 'rm -rf "$work"' EXIT
made() { # FOLDER of a static library: what rt says is shown only if it fails
  (cd "$1" && rt lib) >"$work/log" 2>&1 || { tail -n 20 "$work/log"; echo "rt lib failed in $1"; exit 1; }
}
bash library.sh
if [ -z "${KANHTREV_WALKS:-}" ]; then
  mkdir "$work/copy"
  # what rt check kept of the crates goes along, so that only walks is proved anew
  cp -r ../crates ../crates.txt "$work/copy"
  cp -r walks "$work/copy/crates/walks"
  # here they end in .txt, since the gate takes every other file of the language for a part of what it must prove
  find "$work/copy/crates/walks" -name '*.txt' -exec sh -c 'mv "$1" "${1%.txt}"' sh {} \;
  echo 'walks staticlib: timing files records theorems multiportgraph multi_tables portgraph port_tables' >>"$work/copy/crates.txt"
  made "$work/copy/crates/walks"
  mkdir -p target/walks
  cp "$work/copy/crates/walks/out/libwalks.a" target/walks
  export KANHTREV_WALKS=$PWD/target/walks
fi
cargo run --offline --release -q -p differential --bin bench
