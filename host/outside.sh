#!/usr/bin/env bash
# A crate outside the repository, made of README.md alone: its line for Cargo.toml, with the place of this repository put in, and its example. It is
# built and run; without the library its build must say what is missing. FOLDER is where it is made.
set -euo pipefail
cd "$(dirname "$0")/.."
readme=$PWD/README.md
part() { awk -v kind="$1" '$0 == "```" { on = 0 } on { print } $0 == "```" kind { on = 1 }' "$readme"; }
mkdir -p "$1/outside/src"
cd "$1/outside"
{
  printf '[package]\nname = "outside"\nversion = "0.0.0"\nedition = "2021"\n\n[dependencies]\n'
  (cd "$OLDPWD" && part toml) | sed "s|\"../kanhtrev/|\"$OLDPWD/|"
} >Cargo.toml
(cd "$OLDPWD" && part rust) >src/main.rs
unset KANHTREV_RECORDS KANHTREV_EXPORTS
KANHTREV_LIBRARY=$OLDPWD/target/staticlib cargo run --offline -q
mkdir -p empty
if KANHTREV_LIBRARY=$PWD/empty cargo build --offline -q 2>said; then echo 'built without the library'; exit 1; fi
grep -q 'run `bash host/library.sh` in the repository of Kanhtrev' said
