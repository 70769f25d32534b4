#!/usr/bin/env bash
# One library of all entries, for Rust and C: target/staticlib/libkanhtrev.a, out of librecords.a and libexports.a, which rt proves and makes
# as the static libraries records_c and exports_c.
# KANHTREV_RECORDS and KANHTREV_EXPORTS (folders with these) take the place of what rt makes.
set -euo pipefail
cd "$(dirname "$0")/.."
log=$(mktemp)
trap 'rm -f "$log"' EXIT
mkdir -p target/staticlib
made() { # NAME of a library: what rt says is shown only if it fails
  (cd "crates/$1_c" && rt lib) >"$log" 2>&1 || { tail -n 20 "$log"; echo "rt lib of $1_c failed"; exit 1; }
  cp "crates/$1_c/out/lib$1_c.a" "target/staticlib/lib$1.a"
}
[ -n "${KANHTREV_RECORDS:-}" ] || made records
[ -n "${KANHTREV_EXPORTS:-}" ] || made exports
ar -M <<END
create target/staticlib/libkanhtrev.a
addlib ${KANHTREV_RECORDS:-target/staticlib}/librecords.a
addlib ${KANHTREV_EXPORTS:-target/staticlib}/libexports.a
save
end
END
