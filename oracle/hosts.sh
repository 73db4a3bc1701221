#!/bin/bash
# Builds the program that answers call lines by the Rust crate, over the libraries that hosts link (bindings/rust/examples/answer_lines.rs). Prints where it is.
set -e
here=$(cd "$(dirname "$0")" && pwd)
export CARGO_TARGET_DIR=$here/generated/target
cargo build --release --offline --quiet --manifest-path "$here/../bindings/rust/Cargo.toml" --example answer_lines >&2
echo "$CARGO_TARGET_DIR/release/examples/answer_lines"
