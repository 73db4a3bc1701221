#!/bin/bash
# Seeded faults: each is an edit of upstream's files, built as a variant of the oracle. `oracle compare` must tell the variant from the sound
# Rust within the given number of calls. Prints a table; fails where a fault is not found.
here=$(cd "$(dirname "$0")" && pwd)
bound=${CALLS:-1000000}
sound=$here/generated/oracle
faulty=$here/generated/faulty
round_state=consensus/paxos_family/round_state.rs
paxos_family=consensus/paxos_family.rs
missed=0

[ -x "$sound" ] || "$here/build.sh"
mkdir -p "$faulty"
cp "$here/manifest.toml" "$faulty/Cargo.toml"

# fault NAME FILE OLD NEW: the first place where OLD stands in the file
fault() {
  rm -rf "$faulty/src"
  cp -r "$here/generated/sound/src" "$faulty/src"
  OLD=$3 NEW=$4 perl -0pi -e 's/\Q$ENV{OLD}\E/$ENV{NEW}/' "$faulty/src/$2"
  if cmp -s "$faulty/src/$2" "$here/generated/sound/src/$2"; then
    echo "$1: the edit changes nothing"; missed=1; return
  fi
  if ! (cd "$here" && CARGO_TARGET_DIR=$here/generated/faulty_target cargo build --release --offline --quiet \
      --manifest-path "$faulty/Cargo.toml" 2> "$faulty/errors"); then
    echo "$1: does not build, see $faulty/errors"; missed=1; return
  fi
  "$sound" compare --replay "$here/generated/faulty_target/release/oracle" --calls "$bound" --seed 1 > "$faulty/found"
  local call lines
  call=$(sed -n 's/^difference at call \([0-9]*\) of.*/\1/p' "$faulty/found")
  lines=$(sed -n 's/^shortest run, \([0-9]*\) lines:/\1/p' "$faulty/found")
  [ -n "$call" ] || missed=1
  printf '%-58s %12s %14s\n' "$1" "${call:-not found}" "${lines:--}"
}

printf '%-58s %12s %14s\n' "fault" "found at call" "shortest run"
fault "majority of accepts less one" $round_state 'self.accepted >= self.majority' 'self.accepted + 1 >= self.majority'
fault "majority of promises less one" $round_state 'self.prepared >= self.majority' 'self.prepared + 1 >= self.majority'
fault "an equal round counts as older" $paxos_family 'Some(*round) < self.round_state.round' 'Some(*round) <= self.round_state.round'
fault "a promise of an equal accept round replaces the held one" $round_state \
  'self.get_last_accepted_round() < rv.get_accept_round()' 'self.get_last_accepted_round() <= rv.get_accept_round()'
fault "the held promise is cleared with the round" $round_state 'self.prepared_set.clear();' 'self.prepared_set.clear(); self.max_rv = None;'
fault "a commit keeps the held promise" $round_state $'self.next_round();\n        self.max_rv = None;' 'self.next_round();'
fault "a commit keeps the fast answers" $round_state 'self.fast_answer_set.clear();' ''
fault "the own process is not counted with an accept" $round_state 'if self.replica && self.accepted_set.insert(self.my_pid)' \
  'if src == self.my_pid && self.replica && self.accepted_set.insert(self.my_pid)'
fault "an Accept goes without the last value" $paxos_family 'self.sinks.send(PaxosM(msg), None, dest, self.last_v)' \
  'self.sinks.send(PaxosM(msg), None, dest, None)'
fault "a Commit carries the value that it commits as last" $paxos_family \
  'None, self.last_v, self.get_requester(v)' 'None, Some(v), self.get_requester(v)'
fault "the delegate of the own process for the leader's" $paxos_family 'delegates[round.leader]' 'delegates[self.my_pid]'
fault "the committer of the own process for the requester's" $paxos_family '|proposer| committers[proposer]' '|_| committers[self.my_pid]'
fault "a read is served one response late" consensus/read_tracker.rs 'roc.ready_count >= self.read_quorum {
            self.read_commands' 'roc.ready_count > self.read_quorum {
            self.read_commands'
fault "a commit does not count as the own answer of a read" consensus/read_tracker.rs 'if !roc.local_ready {
                roc.ready_count += 1;' 'if !roc.local_ready {'
fault "the fast quorum less one" $round_state '(replica_count * 3 - 1) / 4 + 1)' '(replica_count * 3 - 1) / 4)'
fault "the EPaxos quorum less one" $round_state 'self.fast_preaccepted >= self.e_paxos_quorum' 'self.fast_preaccepted + 1 >= self.e_paxos_quorum'
fault "EPaxos adopts the last of the best" $round_state 'if score > best_score' 'if score >= best_score'
fault "EPaxos adopts the lowest score" $round_state 'if score > best_score' 'if best_score == 0 || score < best_score'
fault "the proposer's own answer is not deducted" $round_state 'self.epaxos_proposer_scores[proposer] -= 1;' ''
fault "SwiftPaxos: an answer from outside the quorum leaves no trace" $round_state \
  'if self.fast_answer_set.insert(src) {
            self.fast_proposer_to_v.insert(proposer, v);

            if let Some(fixed_quorum)' \
  'if self.fast_answer_set.insert(src) {
            if fixed_quorum.as_ref().is_none_or(|quorum| quorum.contains(src)) {
                self.fast_proposer_to_v.insert(proposer, v);
            }

            if let Some(fixed_quorum)'
fault "a Commit of an older slot commits" consensus.rs 'if slot < self.slot {
                return Ok(None);
            }
            debug_assert_eq!(slot, self.slot);' ''
fault "the mark of the fast path outlives the commit" consensus.rs 'let my_pid = self.my_pid;
            self.slot_left_fast_path = false;' 'let my_pid = self.my_pid;'
fault "next_leader_round adds one for the same leader" consensus/paxos_family/message.rs 'if my_pid >= self.leader' 'if my_pid > self.leader'
exit $missed
