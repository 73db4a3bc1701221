#!/usr/bin/env python3
"""Which definitions of the engine come to a sum, a difference, or a look-up or a store in a table or a list, in whatever words, and whether crates/sums has
each of them with these as parameters.

usage: tools/sum_places.py          at the top of the repository

It reads the pages of crates/*/specs and goes from `call_of` and `new_shard` (crates/consensus/specs/Call.antt) along the names that each definition uses. A
place is where a definition uses a name of FORMS, or `increment`, `look_up` or `store`, or a name that comes from no page of specs and is not in HARMLESS: so
a sum in words that this page does not know is a place as well. It prints

- a definition of the engine that comes to a place and has no `name_by` in crates/sums (another name by NAMED_OTHERWISE),
- a definition of crates/sums that comes to a place other than by a parameter,
- a line that it cannot read, and a name of LEFT_OUT that is not met,

but for what LEFT_OUT leaves out on purpose, and fails where it prints any of these.
"""

import glob
import os
import re
import sys

OWN = {("message.Rounds", "increment"), ("basics.tables.Tables", "look_up"), ("basics.tables.Tables", "store")}
FORMS = {"+", "-", "*", "/", "%", "^", "suc", "pred", "get_or", "set", "take", "drop", "zip"}
# of the standard library: names that add nothing, take nothing off, and look up and store nothing
HARMLESS = set("""Bool true false T not && || cond eqb leb ltb ≡ < ≤ ⊎ × ℕ min max zero List [] ∷ ++ length map replicate Option Optional None Some is_some
    Result Ok Err option_map option_and_then unwrap_or result_unwrap_or""".split())

# What is left out, with the names that it may use without being a place, and why.
LEFT_OUT = {
    ("read_tracker.Reads", "serve"): ({"-"}, "the time that a read waited: slot minus arrival, or 0, by document 01"),
    ("read_tracker.Reads", "open_reads"): ({"take"}, "the open reads: no more than the 128 places of the table, by `open_places`"),
    ("basics.elements.Places", "at_front"): ({"drop"}, "the reads that stay or are served, in the first places: no more than were open, so 128 at most"),
    ("basics.sets.Sets", "contains"): ({"/", "^", "%"}, "sets of processes: a number above 63 is in none, and is not put in (`sets_hold_processes`)"),
    ("basics.sets.Sets", "insert"): ({"^", "bit_or"}, "as `contains`"),
    ("basics.sets.Sets", "fits"): ({"^"}, "as `contains`: the bound is the process count, 64 at most"),
    ("basics.sets.Sets", "count"): ({"+", "suc"}, "the size of a set: 64 at most"),
    ("quorum.Quorum", "majority_of"): ({"/", "+"}, "of 64 replicas at most"),
    ("sums.Parts", "epaxos_of_by"): ({"*", "/"}, "of 64 replicas at most; the difference is a parameter"),
    ("sums.Parts", "fast_of_by"): ({"*", "/", "+"}, "as `epaxos_of_by`"),
    ("basics.tables.Tables", "every"): ({"suc", "get_or"}, "a test of the settings' tables, over the numbers below `min bound 64` (`all_below`)"),
    ("fast_state.Adopt", "best_below"): ({"suc"}, "the numbers below 64 one by one; each score is looked up by a parameter"),
}
# the same under another name, or the definitions that crates/sums has in one
NAMED_OTHERWISE = {
    ("consensus.Call", "call_of"): "call_by",
    ("consensus.Call", "call_with"): "call_by",
    ("consensus.Call", "new_core"): "new_state_by",
    ("calls.Asked", "gatherer_of"): "heard_of_by",
    ("settings.Questions", "committer_of"): "heard_of_by",
    ("settings.Questions", "delegate_of"): "gatherer_in_by",
    ("settings.Questions", "quorums_of"): "row_of_by",
    ("settings.Questions", "starting_round_of"): "starting_round_by",
    ("quorum.Quorum", "rule_of"): "row_of_by",
}
USE = re.compile(r"^[ ]*(?:pub |unfoldable )*use\s+([\w.]+)(?:\.\{([^}]*)\}| as (\w+)|)[ ]*$", re.M)
HEAD = re.compile(r"\s*(?:(?:unfoldable|abbrev|pub)\s+)*([^\s(){}:=]+)\s+:(?:\s|$)")
TOKEN = re.compile(r"[^\s(){};,.λ]+")


def declared(head):
    """Whether a page is of types: their records and cases, which rt writes from the Rust, or crates/*/specs/Lib.antt."""
    return ".specs.declared." in head


def read():
    """The tokens of each definition, by page and name, and what each page imports."""
    bodies, imports, unread = {}, {}, []
    for path in sorted(glob.glob("crates/*/specs/**/*.antt", recursive=True)):
        page = ".".join([path.split("/")[1], *path[:-5].split("/")[3:]])
        text = re.sub(r"--.*", "", open(path, encoding="utf-8").read())
        imports[page] = {}
        for found in USE.finditer(text):
            head = re.fullmatch(r"Rattle\.(\w+)\.specs\.(?!declared\b)([\w.]+)", found[1])
            place = head[1] + "." + head[2] if head and head[1] != "std" else None
            if found[2] is None:
                unread.append((page, found[1]))
            for item in (found[2] or "").split(","):
                old, _, new = item.strip().partition(" as ")
                old, new = old.strip().replace("◌", ""), new.strip().replace("◌", "")
                imports[page][new or old] = (place or ("declared" if declared(found[1]) else "library"), old)
        text = USE.sub("", text)
        if re.search(r"^\s*(?:pub |unfoldable )*use\s", text, re.M):
            unread.append((page, re.search(r"^\s*(?:pub |unfoldable )*use\s.*", text, re.M)[0].strip()))
        name = None
        for line in text.split("\n"):
            head = HEAD.match(line)
            if head:
                name = head[1].replace("◌", "")
                bodies.setdefault((page, name), set())
            elif re.match(r"\s*(pub|unfoldable|abbrev)\s(?!record |data |mod )", line):
                unread.append((page, line.strip()))
            if name:
                bodies[page, name] |= set(TOKEN.findall(line))
            if re.search(r"\b(Rattle|mathlib|lib|Prim)\.\w+\.", line):
                unread.append((page, line.strip()))
    return bodies, imports, unread


BODIES, IMPORTS, UNREAD = read()


def meant(page, token):
    """The definition that a name means on a page, the name of the library that it means, or none."""
    place = (page, token)
    while place not in BODIES:
        place = IMPORTS.get(place[0], {}).get(place[1])
        if place is None or place[0] in ("library", "declared"):
            return place
    return place


def names(place):
    """What the names of a definition mean."""
    return {meant(place[0], token) for token in BODIES[place]} - {None, place}


def used(place):
    """The definitions that a definition uses."""
    return {d for d in names(place) if d in BODIES}


def places(place):
    """The sums, differences, look-ups and stores that a definition has itself."""
    words = {d[1] for d in names(place) if d[0] == "library"} | (BODIES[place] & {"+", "-", "*", "/", "%", "^"})
    return (words - HARMLESS - LEFT_OUT.get(place, (set(), ""))[0]) | {d[1] for d in names(place) if d in OWN}


def closure(starts):
    found, left = set(), list(starts)
    while left:
        place = left.pop()
        if place not in found and place not in OWN:
            found.add(place)
            left += used(place)
    return found


def met(place):
    """The places that a definition comes to, each with the definition that has it."""
    return {(d[1], word) for d in closure([place]) for word in places(d)}


def main():
    ours = {place for place in BODIES if place[0].startswith("sums.") and place[0] != "sums.Sums"}
    sums = {name for _, name in ours}
    engine = closure([("consensus.Call", "call_of"), ("consensus.Call", "new_shard")])
    summing = {place for place in engine if met(place)}
    faults = []
    for place in sorted(summing):
        if NAMED_OTHERWISE.get(place, place[1] + "_by") not in sums:
            faults.append(("not in crates/sums:", *place, sorted(met(place))))
    for place in sorted(ours):
        if met(place):
            faults.append(("a place that is no parameter:", *place, sorted(met(place))))
    reached = {place[0] for place in engine | closure(ours)}
    faults += [("a line that is not read:", *u) for u in UNREAD if u[0] in reached]
    faults += [("left out, and not met:", *place) for place in sorted(LEFT_OUT) if place not in engine | ours]
    for fault in faults:
        print(*fault)
    print(f"{len(summing)} definitions of the engine come to a sum, a difference, a look-up or a store; {len(ours)} of crates/sums; {len(faults)} faults")
    sys.exit(bool(faults))


main()
