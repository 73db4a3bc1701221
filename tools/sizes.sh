#!/usr/bin/env bash
# Prints the table of sizes of docs/PROOFS.md: of each crate, in the order of crates.txt, all lines of src, specs and proofs, and the edits in must-fail and more-edits.
set -euo pipefail
cd "$(dirname "$0")/.."

# lines of the files of a crate that git keeps, by folder and ending
lines() { git ls-files -z "crates/$1/$2/*.$3" | xargs -0 -r cat | wc -l; }
edits() { git ls-files "crates/$1/$2/*.edit" | wc -l; }

echo '| Crate | Code | Definitions | Proof | Edits | More edits |'
echo '|---|---|---|---|---|---|'
sed -E '/^(#|$)/d; s/[ :].*//' crates.txt | while read -r crate; do
  echo "$crate $(lines "$crate" src rt) $(lines "$crate" specs antt) $(lines "$crate" proofs antt) $(edits "$crate" must-fail) $(edits "$crate" more-edits)"
done | awk '{ print "| " $1 " | " $2 " | " $3 " | " $4 " | " $5 " | " $6 " |"; for (i = 2; i <= 6; i++) sum[i] += $i }
  END { print "| together | " sum[2] " | " sum[3] " | " sum[4] " | " sum[5] " | " sum[6] " |" }'
