#!/bin/bash
# run.sh [SECONDS [SEED [PROGRAM ..]]]: builds the oracle, checks that the sample is what it records and answers and that the listing of short runs
# is the Rust's, runs SwiftPaxos into its disagreement, looks for one of EPaxos, and compares the programs with the Rust from every state of two processes, as
# far as a second for each mode goes, and over random runs. With no PROGRAM they are two: the proved one by value, crates/replay/out/replay, and the Rust crate
# over the libraries that hosts link, bindings/rust/examples/answer_lines.rs.
set -e
here=$(cd "$(dirname "$0")" && pwd)
oracle=$here/generated/oracle
sample=$here/../crates/replay
"$here/build.sh"
"$oracle" record 2> /dev/null | cmp - "$sample/stdin"
"$oracle" answer < "$sample/stdin" | cmp - "$sample/stdout"
"$oracle" swift > /dev/null
"$oracle" short_runs | cmp - "$here/../crates/short_runs/stdout"
"$oracle" slot --processes 3
"$oracle" ties --seconds 5 --seed "${2:-1}"
programs=("${@:3}")
if [ ${#programs[@]} -eq 0 ]; then
  (cd "$sample" && rt run < /dev/null > /dev/null)
  by_hosts=$("$here/hosts.sh")
  programs=("$sample/out/replay" "$by_hosts")
fi
compared=()
for program in "${programs[@]}"; do
  "$program" < "$sample/stdin" | cmp - "$sample/stdout"
  compared+=(--replay "$program")
done
"$oracle" exhaust "${compared[@]}" --seconds 1 > /dev/null
"$oracle" compare "${compared[@]}" --seconds "${1:-60}" --seed "${2:-1}"
