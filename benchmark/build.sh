#!/bin/bash
# Builds the benchmark: upstream's files twice as a library, with the edits below, and the engine's Rust crate beside them in one program.
# Arguments go to cargo. Upstream, the stubs for the files that were not supplied and the Debian packages are those of the oracle.
set -e
here=$(cd "$(dirname "$0")" && pwd)
oracle=$here/../oracle
packages="librust-bit-set-dev librust-tokio-dev librust-serde-dev librust-bincode-dev librust-log-dev librust-futures-dev \
librust-tokio-util-dev librust-toml-dev"

if ! dpkg -s $packages > /dev/null 2>&1; then
  apt-get update
  apt-get install -y $packages
fi

# bare: the shard's handle on the sinks builds a message and drops it; no lock, no encoding. full: all of upstream's way to a sink.
put_together() {
  local crate=$here/generated/$1 sources=$here/generated/$1/src
  rm -rf "$crate"
  mkdir -p "$sources"
  cp -r "$oracle/upstream/src/." "$oracle/stubs/." "$sources"
  mkdir -p "$sources/consensus/paxos_family/round_state" "$sources/consensus/read_tracker" "$sources/topology"
  cp "$oracle/inside/topology.rs" "$sources/topology/inside.rs"
  cp "$here/original/round_state.rs" "$sources/consensus/paxos_family/round_state/inside.rs"
  cp "$here/original/read_tracker.rs" "$sources/consensus/read_tracker/inside.rs"
  cp "$here/original/lib.rs" "$here/original/host.rs" "$here/original/connector.rs" "$sources"
  sed "s/^name = .*/name = \"original_$1\"/" "$here/original/manifest.toml" > "$crate/Cargo.toml"

  # modules inside, which see private fields; and is_empty, which Debian's tokio does not have yet
  echo 'pub mod inside;' >> "$sources/consensus/paxos_family/round_state.rs"
  echo 'pub use round_state::inside;' >> "$sources/consensus/paxos_family.rs"
  echo 'pub(crate) mod inside;' >> "$sources/consensus/read_tracker.rs"
  echo 'pub(crate) mod inside;' >> "$sources/topology.rs"
  echo 'use crate::host::IsEmpty;' >> "$sources/consensus.rs"
}

put_together bare
put_together full
# the own number is in shard_id, so that the lock is not needed for it
perl -0pi -e 's/(priority: Option<usize>,\n    \) -> io::Result<\(\)> \{\n)(        let mut multi_sink)/$1        let _ = priority;\n        crate::host::sent(self.build_msg(msg, value, self.shard_id, last_v), None, self.shard_id);\n        return Ok(());\n        #[allow(unreachable_code)]\n$2/; s/(last_v: Option<usize>,\n    \) -> io::Result<\(\)> \{\n)(        let mut multi_sink)/$1        crate::host::sent(self.build_msg(msg, value, self.shard_id, last_v), Some(pid), self.shard_id);\n        return Ok(());\n        #[allow(unreachable_code)]\n$2/' "$here/generated/bare/src/multi_sink.rs"
grep -c 'crate::host::sent' "$here/generated/bare/src/multi_sink.rs" | grep -qx 2

cd "$here" # for .cargo/config.toml, which names the folder of the Debian packages
cargo build --release --offline --quiet "$@"
