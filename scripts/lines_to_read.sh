#!/usr/bin/env bash
# How many lines of definitions have to be believed, without imports, blanks and comments.
set -euo pipefail
cd "$(dirname "$0")/../crates"
lines() {
    local crate=$1 file part total=0
    shift
    for file in "$@"; do
        # theorems stand in proofs/, where the laws that they rest on stand
        if [ -f "$crate/specs/$file.antt" ]; then part=specs; else part=proofs; fi
        total=$((total + $(grep -cvE '^(use |pub mod )|^ *(--.*)?$' "$crate/$part/$file.antt")))
    done
    printf '%-16s%5d  %s\n' "$crate" "$total" "$*"
}
echo 'for the calls and the theorems:'
lines port_tables Limits Lists Entries Tables ResizeLinks Places
lines portgraph Lookups Calls Resize
lines multi_tables EndAnswers Forms
lines multiportgraph Reading Graph Answers HiddenNodes Tidy Refusals Calls Wires
lines theorems Theorems Book History Claims AnswerClaims PlaceClaims ListingClaims MoveClaims CursorClaims Conditions Works TidyClaims ReleaseTheorems ReleaseClaims
lines records Words Run Forms
echo 'for walks, lookups and whole listings besides:'
lines portgraph Walks LinkWalks
lines multiportgraph Walks WalkNumbers Lookups Listed
echo 'for sheets, files and views besides:'
lines sheets Theorems Sheets SheetHistory Held
lines files View Layout Saving Loading BuildList Merging Claims LoadClaims MergeClaims FileTheorems LoadTheorems MergeTheorems
lines exports Exports Viewed ViewedClaims ViewedTheorems
echo 'for the sketch besides:'
lines sketches Plan PlanNumbers PlanCalls PlanLists SketchTables
lines agreement Meaning Agreement Histories AgreementTheorems
echo 'for slots besides:'
lines slots SlotTheorems Blocks SlotClaims SlotHistory
echo 'for kits with other limits besides:'
lines kits Kits KitTheorems
echo 'for times along wires besides:'
lines timing TimingTheorems TimingClaims Longest RunOrder Path
lines exports Timed TimedTheorems
