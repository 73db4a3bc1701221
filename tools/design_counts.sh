#!/usr/bin/env bash
# Counts the places of each point of docs/DESIGN-PASS.md in the sources at a commit: tools/design_counts.sh COMMIT. Each row is a pattern; the page says
# what in it belongs to its point.
set -euo pipefail
cd "$(dirname "$0")/.."
at=$1

# lines of the sources that a pattern matches
lines() { git grep -hE "$1" "$at" -- 'crates/*/src/*.rt' | wc -l; }

echo "1 enums: $(lines '^[[:space:]]*(pub )?enum ')"
echo "1 fields and parameters that are a bool: $(lines '^[[:space:]]*(pub )?[a-z_]+: bool,')"
echo "1 functions that give a number for an answer: $(lines 'fn (number|refusal|[a-z_]+_number)\(')"
echo "1 tests of a kind or an answer by number: $(lines '(kind|number|refusal|made|mode) (==|!=|<=|>=) [0-9]+')"
echo "2 names of functions in more than one crate: $(git grep -hoE '^[[:space:]]*(pub )?fn [a-z_0-9]+' "$at" -- 'crates/*/src/*.rt' | sed -E 's/.*fn //' | sort | uniq -d | wc -l)"
echo "2 functions of two booleans or of a limit: $(lines 'fn (both|either|and_[a-z]+|at_most[a-z_0-9]*|less|larger|still|from_1_to_64|live_places|open_places|bytes_put|place_in)\(')"
echo "3 while: $(lines '^[[:space:]]*while ')"
echo "4 functions that compare or convert: $(lines 'fn (equals|before|is|is_same|agrees|decode_[a-z_]+|encode_[a-z_]+|mode_of|widened[a-z_]*)\(')"
echo "5 functions of eight parameters or more: $(git grep -hE -A14 '^[[:space:]]*(pub )?(extern "C" )?fn ' "$at" -- 'crates/*/src/*.rt' | awk '/fn /{n=0} /^[[:space:]]+[a-z_]+: /{n++; if(n==8)c++} END{print c+0}')"
echo "5 lines with requires: $(lines 'requires')"
echo "5 writers with a buffer and a place: $(lines 'out: &mut \[u8\], at: usize')"
echo "6 counts in a struct beside an array: $(git grep -hE -B1 -A1 '^[[:space:]]*pub (count|live_count|open_count|len): ' "$at" -- 'crates/*/src/*.rt' | grep -cE 'count|len')"
echo "7 parameters that choose a step: $(lines '(which|kind): (u64|usize)')"
echo "8 files of answers: $(git ls-tree -r --name-only "$at" | grep -cE 'crates/.*/proofs/.*Answers.antt')"
echo "8 answers: $(git grep -hE '^pub ' "$at" -- 'crates/*/proofs/**/Answers.antt' | wc -l)"
echo "lines of src: $(lines '')"
echo "lines of specs and proofs: $(git grep -hE '' "$at" -- 'crates/*/specs/*.antt' 'crates/*/proofs/**.antt' | wc -l)"
