#!/bin/sh
# For whoever edits: builds the program and the player of scenarios without their proofs, plays all scenarios, and all examples of
# the pages. It proves nothing: what it finds wrong is wrong, and no more is said.
#
#     scripts/quick.sh [NAME..]
#
# With names of folders and files of crates/ddf_rig/data, as `write` and `label/once`, those scenarios alone are played, and what the player
# prints is printed.
#
# The kit's trial run makes code for clang of a crate, with checks of sums and of places, and has clang compile it as it stands, with a watch over
# each access: a player of that takes hours. So the code is taken once clang has begun to read it, and compiled here without the watch. Programs are
# kept in target/quick, and built again where a source is newer.
set -eu
top=$(cd "$(dirname "$0")/.." && pwd)
data=$top/crates/ddf_rig/data
keep=$top/target/quick
work=$(mktemp -d)
trap 'kill $(jobs -p) 2>/dev/null || true; rm -rf "$work"' EXIT
trap 'exit 1' INT TERM
begun=$(date +%s)

fail() {
    echo "quick: $*" >&2
    exit 1
}

tell() {
    echo "quick: $* ($((($(date +%s) - begun) / 60)) min $((($(date +%s) - begun) % 60)) s)"
}

# The files that are played of the names of some, which the list of all may lack as yet, and of folders.
files_of() {
    for name; do
        if [ -f "$data/$name" ]; then
            echo "$name"
        elif [ -f "$data/$name.txt" ]; then
            echo "$name.txt"
        else
            grep "^${name%/}/" "$top/crates/ddf_rig/args" || fail "no scenario is $name, and no folder"
        fi
    done
}

# The code that clang has begun to read: of what it is given only that of the program isn't text.
code_in() {
    find "$1" -name 'module*.o*' -printf '%h/module.bc\n' 2>/dev/null | while read -r code; do
        if [ "$(head -c 2 "$code" 2>/dev/null)" = BC ]; then
            echo "$code"
            break
        fi
    done
}

# Compiles the program of a crate without its proofs, unless that was done and no source is newer.
build() {
    program=$keep/$1
    [ ! -x "$program" ] || [ -n "$(find "$top/crates.txt" "$top"/crates/*/src -newer "$program" -print -quit)" ] || return 0
    room=$work/trial.$1
    mkdir -p "$keep" "$room"
    touch "$room/begun"
    (cd "$top/crates/$1" && TMPDIR=$room exec rt try) >/dev/null 2>"$room/log" </dev/null &
    trial=$!
    until code=$(code_in "$room") && [ -n "$code" ] && cp "$code" "$room/code.bc" 2>/dev/null; do
        kill -0 "$trial" 2>/dev/null || fail "$1 isn't built: the trial run refuses it, or keeps its code elsewhere: $(tail -n 20 "$room/log")"
        sleep 0.2
    done
    kill "$trial" 2>/dev/null || true
    wait "$trial" 2>/dev/null || true
    kit=$(dirname "$(rt doc)")
    "$kit/toolchain/bin/clang" --target=x86_64-unknown-linux-gnu --no-default-config -O1 -fPIE -x ir -c "$room/code.bc" -o "$room/code.o"
    "$kit/bin/rattle-link" --target x86_64-unknown-linux-gnu --toolchain "$kit/toolchain" -o "$room/program" "$room/code.o" \
        "$kit/c/libos_c.a" "$kit/c/liblibc_c.a" 2>"$room/log" || fail "$1 isn't linked: $(cat "$room/log")"
    touch -r "$room/begun" "$room/program"
    mv "$room/program" "$program"
}

# Builds the player, and plays these scenarios, as many side by side as there are processors. What they print stands in their order.
# shellcheck disable=SC2016
play() {
    build ddf_rig
    mkdir "$work/played"
    number=0
    for file; do
        number=$((number + 1))
        printf '%s %04d\n' "$file" "$number"
    done | (
        cd "$data"
        xargs -L 1 -P "$(nproc)" sh -c '"$0/ddf_rig" "$2" >"$1/played/$3" 2>>"$1/said" || echo "$2 ended with $?" >>"$1/failed"' "$keep" "$work"
    )
}

command -v rt >/dev/null || fail "there is no rt on the PATH"
if [ $# -gt 0 ]; then
    files=$(files_of "$@") || exit 1
    # shellcheck disable=SC2086
    play $files
    cat "$work"/played/*
    [ ! -e "$work/failed" ] || fail "$(cat "$work/said" "$work/failed")"
    tell "played"
    exit 0
fi

# shellcheck disable=SC2046
(
    trap 'kill $(jobs -p) 2>/dev/null || true' EXIT
    trap 'exit 1' INT TERM
    play $(cat "$top/crates/ddf_rig/args")
) &
player=$!
build ddf
tell "the program is built, without proofs"
status=0
"$top/scripts/examples.py" "$keep/ddf" >"$work/examples" || status=$?
cat "$work/examples"
# 77: all that could be played here was answered as it should be.
case $status in 0 | 77) ;; *) fail "an example of a page is answered otherwise" ;; esac
tell "the examples of the pages are played"
wait "$player" || exit 1
cat "$work"/played/* >"$work/printed"
diff "$top/crates/ddf_rig/stdout" "$work/printed" || fail "scenarios are answered otherwise than crates/ddf_rig/stdout says: $(cat "$work/said")"
tell "the scenarios are played: $(awk '/ steps, / { n += $2 } END { print n }' "$work/printed") steps, answered as they should be"
[ "$status" = 0 ] || echo "quick: $(tail -n 1 "$work/examples" | sed 's/^examples: //')"
exit "$status"
