#!/usr/bin/env bash
# Runs the joins of the library (the Rust crate), and lines `join` and `feed` of the program `planning`, against tools/planning_lines.py: lists of 4,096 and
# 4,097 entries, results of 8,192, also of the largest numbers, every way in which two lists can lie, contradictions at the ends, every pair of causes,
# lists of 8,192 and 8,193 fed, and lines of 1 MiB. Beside the gate; it takes a minute once the crates are proved.
set -euo pipefail
cd "$(dirname "$0")/.."
(cd crates/planning && rt run < /dev/null > /dev/null)
work=$(mktemp -d)
trap 'rm -r "$work"' EXIT
for kind in joins feeds; do
    tools/planning_lines.py $kind > "$work/$kind"
    tools/planning_lines.py answers < "$work/$kind" > "$work/$kind.answers"
    crates/planning/out/planning < "$work/$kind" | cmp - "$work/$kind.answers"
    echo "planning, $kind: $(wc -l < "$work/$kind") lines answered as tools/planning_lines.py does"
done
cargo run --quiet --release --offline --manifest-path bindings/rust/Cargo.toml --example join_lines < "$work/joins" | cmp - "$work/joins.answers"
echo "library: $(wc -l < "$work/joins") lines joined as tools/planning_lines.py does"
