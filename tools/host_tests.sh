#!/usr/bin/env bash
# host_tests.sh: makes the libraries for hosts (tools/static_libraries.sh), and runs the C tests of both headers, the Rust crate's tests and three of its
# examples. What a test writes is shown only where it fails. The last line is 'host tests: N passed', or says how many failed and which.
set -euo pipefail
cd "$(dirname "$0")/.."
manifest=bindings/rust/Cargo.toml
work=$(mktemp -d)
trap 'rm -rf "$work"' EXIT
passed=0
failed=()

# Marks tests as failed, and shows what was written, but for the lines of those that passed.
fails() {
    failed+=("$@")
    printf '== %s FAILED\n' "$@"
    grep -vE '^test .* \.\.\. ok$|^test result: ok|^running [0-9]+ tests?$|^ +Running |^$' "$work/said" || true
}

# Runs a command as the test of the given name.
try() {
    local name=$1
    shift
    if "$@" > "$work/said" 2>&1; then passed=$((passed + 1)); else fails "$name"; fi
}

# Links a test in C to the libraries, and runs it, with the recorded calls and the Rust's answers, which recorded_test reads.
c_test() {
    cc -I crates/host/include -I crates/planning_host/include "$1" target/staticlib/lib{host,direct,direct_fast,planning_host}.a -o "$work/test" \
        && timeout 120 "$work/test" crates/replay/stdin crates/replay/stdout
}

# Runs all tests of the Rust crate. Where cargo fails and names no test, one of its programs was not linked, or was stopped.
rust_tests() {
    local status=0 count names
    cargo test --offline --no-fail-fast --manifest-path "$manifest" > "$work/said" 2>&1 || status=$?
    count=$(grep -c '^test .* \.\.\. ok$' "$work/said" || true)
    passed=$((passed + count))
    mapfile -t names < <(sed -n 's/^test \(.*\) \.\.\. FAILED$/\1/p' "$work/said")
    if [ "$status" -ne 0 ] || [ "$count" -eq 0 ]; then
        [ ${#names[@]} -gt 0 ] || names=('cargo test')
        fails "${names[@]}"
    fi
}

tools/static_libraries.sh
for file in crates/host/test/*_test.c crates/planning_host/test/*_test.c; do try "$file" c_test "$file"; done
rust_tests
for name in three_offices wall_map on_air; do
    try "example $name" cargo run --quiet --offline --manifest-path "$manifest" --example "$name"
done
if [ ${#failed[@]} -gt 0 ]; then
    printf 'host tests: %s passed, %s failed: %s\n' "$passed" "${#failed[@]}" "$(printf '%s, ' "${failed[@]}" | sed 's/, $//')"
    exit 1
fi
echo "host tests: $passed passed"
