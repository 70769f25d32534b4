#!/usr/bin/env bash
# Compiles the example in C against the library and runs it; FOLDER is where the program is written.
set -euo pipefail
cd "$(dirname "$0")/.."
cc -std=c99 -Wall -Wextra -Wpedantic -Werror -O1 -Iinclude c/kit.c ../target/staticlib/libkanhtrev.a -o "$1/kit"
"$1/kit"
