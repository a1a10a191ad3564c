#!/bin/sh
# Runs compare on every faulty program and shows what caught it: the edges
# that failed, and the first of the random runs that did. Fails if the edges
# or the random runs miss a fault. Options are handed on to compare.
cd "$(dirname "$0")" || exit 1
cargo build --quiet --release || exit 1
missed=0
for fault in $(target/release/faulty --list | cut -d ' ' -f 1); do
    report=$(FAULT=$fault target/release/compare target/release/faulty "$@")
    edges=$(printf '%s\n' "$report" | sed -n 's/^edges: \(.* failed\)$/\1/p')
    random=$(printf '%s\n' "$report" | sed -n 's/^random: \(run .* failed\), seed.*/\1/p')
    printf '%-24s edges: %-22s random: %s\n' "$fault" "$edges" "${random:-MISSED}"
    case "$edges:$random" in
    *", 0 failed:"* | *:) missed=1 ;;
    esac
done
exit $missed
