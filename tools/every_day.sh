#!/usr/bin/env bash
# Runs a time of each of the 2,932,897 days from 1970-01-01 to 9999-12-31 both ways against Python's calendar (tools/planning_lines.py): through the library
# (the Rust crate), and through the program `planning`. Beside the gate.
set -euo pipefail
cd "$(dirname "$0")/.."
(cd crates/planning && rt run </dev/null >/dev/null)
work=$(mktemp -d)
trap 'rm -r "$work"' EXIT
tools/planning_lines.py dates > "$work/dates"
cargo run --quiet --release --offline --manifest-path bindings/rust/Cargo.toml --example every_day | cmp - "$work/dates"
echo "library: $(wc -l < "$work/dates") days there and back"
tools/planning_lines.py days > "$work/lines"
tools/planning_lines.py answers < "$work/lines" > "$work/answers"
crates/planning/out/planning < "$work/lines" | cmp - "$work/answers"
echo "planning: $(wc -l < "$work/answers") lines answered as tools/planning_lines.py does"
