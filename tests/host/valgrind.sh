#!/usr/bin/env bash
# Memory checks of libsplitter.a: compare --quick under valgrind's memcheck, then the same calls again from C under sanitizers.
#
# memcheck sees every load and store of the library, whatever compiled it. In --quick each slice is a heap block of its own, so an access
# just outside it is an error, and so is a decision by a word that was never written. The sanitizers see less: the library is compiled
# without their instrumentation, so they watch sanitized.c itself, the header and the calls, and inside the library only what it does
# through memcpy and memset, which they replace. A sanitizer that does not link is said to be left out.
#
# SPLITTER_LIB_DIR: the archive's folder, if not target/staticlib of the repository.
set -euo pipefail
repository=$(cd "$(dirname "$0")/../.." && pwd)
SPLITTER_LIB_DIR=$(realpath -m "${SPLITTER_LIB_DIR:-$repository/target/staticlib}")
export SPLITTER_LIB_DIR
library=$SPLITTER_LIB_DIR/libsplitter.a
cd "$repository/tests/host"
scratch=$(mktemp -d)
trap 'rm -rf "$scratch"' EXIT

cargo build --release --offline --quiet
compare=${CARGO_TARGET_DIR:-target}/release/compare
valgrind --error-exitcode=1 "$compare" --quick --record "$scratch/calls" 2>"$scratch/log" ||
    { cat "$scratch/log"; echo 'memcheck: FAILED'; exit 1; }
tail -n 1 "$scratch/log"

flags='-std=c11 -g -O1 -Wall -Wextra -Werror -I../../host/include'
for compiler in gcc clang; do
    command -v "$compiler" >/dev/null || { echo "$compiler: left out, not installed"; continue; }
    "$compiler" $flags -fsyntax-only sanitized.c
    if "$compiler" $flags -fsanitize=address,undefined -fno-sanitize-recover=all sanitized.c "$library" \
        -o "$scratch/sanitized" 2>"$scratch/log"; then
        "$scratch/sanitized" "$scratch/calls" >"$scratch/said"
        echo "$compiler -fsanitize=address,undefined: $(cat "$scratch/said")"
    else
        echo "$compiler -fsanitize=address,undefined: left out, $(head -n 1 "$scratch/log")"
    fi
done
