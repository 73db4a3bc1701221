#!/usr/bin/env bash
# more_edits.sh [NAME ..]: tries the edits in crates/*/more-edits, or those of the named crates. They must be refused as those of the gate must; the gate
# leaves them out, since each costs a check of its whole crate. Fails where an edit is not refused, or cannot be applied or read. Run it after
# `rt all check`, whose proofs it takes over. rt says of an edit of a law that it cannot be read where the prover refuses the law and other laws of that
# file rest on it: that is a refusal, and passes here.
set -euo pipefail
cd "$(dirname "$0")/.."
work=$(mktemp -d)
trap 'rm -rf "$work"' EXIT
cp -R crates crates.txt "$work"
if [ -f HANDLES ]; then cp HANDLES "$work"; fi
cd "$work"
rm -f crates/*/must-fail/*.edit
for edits in crates/*/more-edits; do
  if compgen -G "$edits/*.edit" > /dev/null; then
    mkdir -p "${edits%more-edits}must-fail"
    mv "$edits"/*.edit "${edits%more-edits}must-fail"
  fi
done
if ! compgen -G 'crates/*/must-fail/*.edit' > /dev/null; then
  echo 'no edits in crates/*/more-edits' >&2
  exit 1
fi
said=$work/said
if ! rt must-fail "$@" 2>&1 | tee "$said"; then
  grep -E 'must-fail .*: (NOT |BAD EDIT)|: BAD EDIT' "$said" \
    | grep -vE 'BAD EDIT: .*: error: [0-9]+ declarations? that depends? on .*, which was rejected, w' > "$work/failed" || true
  if [ -s "$work/failed" ] || ! grep -q 'BAD EDIT' "$said"; then exit 1; fi
fi
