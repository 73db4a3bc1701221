#!/bin/bash
# Builds the oracle: upstream's files with the edits below, the stubs for the files that were not supplied, and the oracle's own modules.
# Arguments go to cargo. Writes generated/oracle and upstream.diff; with --features hash, which keeps upstream's own proposer map,
# generated/oracle_hash.
set -e
here=$(cd "$(dirname "$0")" && pwd)
sources=$here/generated/sound/src
packages="librust-bit-set-dev librust-tokio-dev librust-serde-dev librust-bincode-dev librust-log-dev librust-futures-dev \
librust-tokio-util-dev librust-toml-dev"

if ! dpkg -s $packages > /dev/null 2>&1; then
  apt-get update
  apt-get install -y $packages
fi

rm -rf "$sources"
mkdir -p "$sources"
cp -r "$here/upstream/src/." "$sources"
cp -r "$here/stubs/." "$sources"
cp -r "$here/program/." "$sources"
mkdir -p "$sources/consensus/paxos_family/round_state" "$sources/consensus/read_tracker" "$sources/topology"
cp "$here/inside/round_state.rs" "$sources/consensus/paxos_family/round_state/inside.rs"
cp "$here/inside/read_tracker.rs" "$sources/consensus/read_tracker/inside.rs"
cp "$here/inside/topology.rs" "$sources/topology/inside.rs"
cp "$here/manifest.toml" "$here/generated/sound/Cargo.toml"

# All edits of upstream.
# get_requester gives the host's answer of the call in place of its own
perl -0pi -e 's/fn get_requester\(&self, v: usize\) -> Option<usize> \{\n.*?\n    \}\n/fn get_requester(&self, v: usize) -> Option<usize> {\n        crate::host::requester(v)\n    }\n/s' "$sources/consensus.rs"
# modules inside, which see private fields; and is_empty, which Debian's tokio does not have yet
echo 'pub(crate) mod inside;' >> "$sources/consensus/paxos_family/round_state.rs"
echo 'pub(crate) use round_state::inside;' >> "$sources/consensus/paxos_family.rs"
echo 'pub(crate) mod inside;' >> "$sources/consensus/read_tracker.rs"
echo 'pub(crate) mod inside;' >> "$sources/topology.rs"
echo 'use crate::host::IsEmpty;' >> "$sources/consensus.rs"
# what is handed to the sinks is recorded
perl -0pi -e 's/(trace!\("Broadcasting \{msg:\?\}"\);\n)/$1        crate::host::record(&msg, None, priority);\n/; s/(trace!\("Sending to \{dest\}: \{msg:\?\}"\);\n)/$1        crate::host::record(&msg, Some(dest), None);\n/' "$sources/multi_sink.rs"
# the proposer map is walked in an order that the oracle sets
perl -0pi -e 's/use std::collections::HashMap;/#[cfg(not(feature = "hash"))]\nuse crate::proposer_map::HashMap;\n#[cfg(feature = "hash")]\nuse std::collections::HashMap;/' "$sources/consensus/paxos_family/round_state.rs"

(cd "$here/upstream/src" && find * -name '*.rs' | sort | while read -r file; do
  diff -u --label "upstream/$file" --label "built/$file" "$file" "$sources/$file"
done > "$here/upstream.diff") || true

cd "$here"
CARGO_TARGET_DIR=$here/generated/target cargo build --release --offline --quiet --manifest-path generated/sound/Cargo.toml "$@"
case " $* " in
  *hash*) cp generated/target/release/oracle generated/oracle_hash ;;
  *) cp generated/target/release/oracle generated/oracle ;;
esac
