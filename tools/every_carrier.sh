#!/usr/bin/env bash
# Runs every carrier number both ways, and lines as long as a line may be, against tools/planning_lines.py: through the library (the Rust crate),
# and through the program `planning`. Beside the gate; it takes a minute once the crates are proved.
set -euo pipefail
cd "$(dirname "$0")/.."
(cd crates/planning && rt run < /dev/null > /dev/null)
work=$(mktemp -d)
trap 'rm -r "$work"' EXIT
tools/planning_lines.py numbers > "$work/numbers"
cargo run --quiet --release --offline --manifest-path bindings/rust/Cargo.toml --example every_carrier | cmp - "$work/numbers"
echo "library: $(wc -l < "$work/numbers") numbers there and back, and no other frequency has a number"
{
    sed 's/\(.*\) \(.*\)/number \1\nkhz \2/' "$work/numbers"
    tools/planning_lines.py long
} > "$work/lines"
tools/planning_lines.py answers < "$work/lines" > "$work/answers"
crates/planning/out/planning < "$work/lines" | cmp - "$work/answers"
echo "planning: $(wc -l < "$work/answers") lines answered as tools/planning_lines.py does"
