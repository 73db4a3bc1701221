#!/usr/bin/env bash
# Runs the program `cell_report` on the inputs that tools/planning_lines.py writes, and compares what it prints. Beside the gate; it takes seconds once
# the crates are proved.
set -euo pipefail
cd "$(dirname "$0")/.."
(cd crates/cell_report && rt run < /dev/null > /dev/null)
work=$(mktemp -d)
trap 'rm -r "$work"' EXIT
tools/planning_lines.py reports "$work"
count=0
for input in "$work"/*.in; do
    crates/cell_report/out/cell_report < "$input" | cmp - "${input%.in}.out"
    count=$((count + 1))
done
echo "cell_report: $count inputs reported as tools/planning_lines.py does"
