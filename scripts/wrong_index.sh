#!/usr/bin/env bash
# A node's number does not build where a port's number belongs, and the other way round: each function is proved with the right index
# and refused for its type with the other. Ends with an error if one of the four goes otherwise.
set -euo pipefail
cd "$(dirname "$0")/.."
work=$(mktemp -d)
trap 'rm -rf "$work"' EXIT
# what these two rest on and no more; what is proved of them already rt takes over from here
tar -c --exclude=out crates/port_tables crates/portgraph | tar -x -C "$work"
grep -E '^(port_tables|portgraph):' crates.txt > "$work/crates.txt"
failed=0
# CRATE CALL INDEX WORDS: a crate with one function, whose check has to say WORDS
try() {
    local said
    mkdir -p "$work/crates/$1/src"
    printf '#![tactic(auto)]\n\nuse port_tables::index::%s;\nuse portgraph::portgraph::PortGraph;\n\npub fn asked(g: PortGraph, index: %s) -> bool {\n    g.%s(index)\n}\n' \
        "$3" "$3" "$2" > "$work/crates/$1/src/lib.rt"
    printf '%s: portgraph port_tables\n' "$1" >> "$work/crates.txt"
    said=$(cd "$work/crates/$1" && rt check 2>&1) || true
    if grep -aqF "$4" <<< "$said"; then
        echo "$2 of a $3: $4"
    else
        echo "$2 of a $3: NOT $4"
        failed=1
    fi
}
try node_by_node contains_node NodeIndex 'logic=proved functions=1'
try node_by_port contains_node PortIndex 'expected `NodeIndex`, found `PortIndex`'
try port_by_port contains_port PortIndex 'logic=proved functions=1'
try port_by_node contains_port NodeIndex 'expected `PortIndex`, found `NodeIndex`'
exit $failed
