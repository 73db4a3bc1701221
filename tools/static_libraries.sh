#!/usr/bin/env bash
# static_libraries.sh [NAME ..]: proves and compiles the libraries for hosts in C and Rust, and puts them at target/staticlib/libNAME.a: those that are named,
# else all four, each where it is missing or older than a file of the crates that it is made of. It says what is proved and compiled as it goes. A crate that
# other crates use is no static library; what it exports is then the crate NAME_c.
# The crates below are proved by `rt ci`, in a copy that has these alone and no must-fail edits: side by side, and what a run on this machine proved before of
# the same files, the gate too, is taken over. `rt lib` would take nothing over from the gate.
set -euo pipefail
cd "$(dirname "$0")/.."
root=$PWD
[ $# -gt 0 ] || set -- host direct direct_fast planning_host
page=$(rt doc)
kit=${page%/*}
work=$(mktemp -d)
trap 'kill $(jobs -p) 2> /dev/null || true; rm -rf "$work"' EXIT

# The crate of the static library NAME.
crate_of() {
    if [ -d "crates/$1_c" ]; then echo "$1_c"; else echo "$1"; fi
}

# What crates.txt lists behind the name of a crate.
listed() {
    sed -n "s/^$1\( staticlib\)\?://p" crates.txt
}

# The lines of crates.txt of all crates that the given ones stand on, each behind those that it stands on.
lines_below() {
    awk -v given="$*" '
        function add(name,  words, count, at) {
            if (!(name in line) || name in seen) return
            seen[name]
            count = split(line[name], words, " ")
            for (at = 2; at <= count; at++) add(words[at])
            if (!(name in is_given)) print line[name]
        }
        { name = $1; sub(":.*", "", name); line[name] = $0 }
        END {
            number = split(given, names, " ")
            for (at = 1; at <= number; at++) is_given[names[at]]
            for (at = 1; at <= number; at++) add(names[at])
        }' crates.txt
}

names_below() {
    lines_below "$@" | sed 's/:.*//'
}

# The folders of the given crates that a proof reads.
parts_of() {
    local crate part
    for crate in "$@"; do
        for part in src specs proofs; do
            if [ -d "crates/$crate/$part" ]; then echo "crates/$crate/$part"; fi
        done
    done
}

# Whether the static library NAME is there, and no file that it is made from is newer.
is_current() {
    local library=target/staticlib/lib$1.a crate
    crate=$(crate_of "$1")
    [ -f "$library" ] && [ -z "$(find crates.txt $(parts_of "$crate" $(names_below "$crate")) -newer "$library" -print -quit)" ]
}

# A copy of the crates below the given ones, which `rt ci` takes for a repository.
copy_below() {
    local crate part
    mkdir "$work/.git"
    if [ -f HANDLES ]; then cp HANDLES "$work"; fi
    lines_below "$@" > "$work/crates.txt"
    for crate in $(names_below "$@"); do
        mkdir -p "$work/crates/$crate"
        for part in $(parts_of "$crate"); do cp -R "$part" "$work/crates/$crate"; done
    done
}

# From the lines that rt writes, how far it is with so many crates.
tell() {
    local line at=0
    while IFS= read -r line; do
        if [[ $line =~ ^rt:\ ([a-z0-9_]+)\ (proved$|is kept:) ]]; then
            at=$((at + 1))
            if [ "${BASH_REMATCH[2]}" = proved ]; then echo "proved ${BASH_REMATCH[1]}, $at of $1"; fi
        fi
    done
}

prove_below() {
    local count
    copy_below "$@"
    count=$(wc -l < "$work/crates.txt")
    echo "proving the $count crates below $*"
    if ! (cd "$work" && rt ci 2>&1) | tee "$work/said" | tell "$count"; then
        cat "$work/said" >&2
        return 1
    fi
}

# Proves the crate of the static library NAME over those below, and compiles it.
compile() {
    local crate word words=()
    crate=$(crate_of "$1")
    for word in std $(listed "$crate"); do
        if [ -d "$work/crates/$word" ]; then
            words+=(--extern "$word=$work/crates/$word/out/rlib/$word.rlib")
        else
            words+=(--extern "$word=$kit/rlibs/$word.rlib")
        fi
    done
    for word in "$kit/rlibs" "$work"/crates/*/out/rlib; do words+=(-L "dependency=$word"); done
    cd "crates/$crate"
    "$kit/bin/rattle" build --crate-name "$crate" --crate-type staticlib src/lib.rt "${words[@]}" --antt-project "$kit/rattle/logic/antt-project.json" \
        --logic-built "$kit/logic_built" --toolchain "$kit/toolchain" --backend llvm -o "$root/target/staticlib/lib$1.a"
}

# Compiles the given libraries side by side. Each has the time at which its files were copied, so that what is changed meanwhile is newer.
compile_all() {
    local name status=0 jobs=()
    mkdir -p target/staticlib
    for name in "$@"; do
        echo "compiling lib$name.a"
        compile "$name" > "$work/$name.said" 2>&1 &
        jobs+=($!)
    done
    for name in "$@"; do
        if wait "${jobs[0]}"; then
            touch -r "$work/crates.txt" "target/staticlib/lib$name.a"
            echo "made target/staticlib/lib$name.a"
        else
            cat "$work/$name.said" >&2
            echo "lib$name.a was not made" >&2
            status=1
        fi
        jobs=("${jobs[@]:1}")
    done
    return $status
}

needed=()
for name in "$@"; do is_current "$name" || needed+=("$name"); done
if [ ${#needed[@]} -gt 0 ]; then
    prove_below $(for name in "${needed[@]}"; do crate_of "$name"; done)
    compile_all "${needed[@]}"
fi
