#!/bin/sh
# A plugin for nbdkit's `sh`: an array of a DDF group as a block device, for reading alone.
#
#     nbdkit sh ddf-nbd.sh array=NAME IMAGE..
#
# IMAGE.. are all disks of the group that are there, files or block devices. An array that is short of disks is served as far as its level allows.
# Nothing is written to a disk: only `show` and `read` are called. tools/ddf-nbd.py does the same faster, where nbdkit has Python. Further words:
#
#     image=IMAGE     the same as IMAGE
#     group=GUID      which group it is, where the disks show several
#     program=PATH    the program, where it isn't the one that was installed with this plugin, nor `ddf` of the folders of commands
set -eu
tmpdir=${tmpdir:?nbdkit calls this plugin, and gives it a folder}

# Tells nbdkit why a call fails.
fail() {
    echo "EIO $*" >&2
    exit 1
}

# Calls a command of the program over the disks.
ask() {
    program=$(dirname "$0")/../../bin/ddf
    [ -x "$program" ] || program=ddf
    [ ! -f "$tmpdir/program" ] || program=$(cat "$tmpdir/program")
    words=$*
    set --
    for link in "$tmpdir"/image.*; do set -- "$@" "$(readlink "$link")"; done
    group=
    [ ! -f "$tmpdir/group" ] || group=@$(cat "$tmpdir/group")
    # Names of arrays have no spaces.
    # shellcheck disable=SC2086
    "$program" "$@" -- $group $words 2>"$tmpdir/said.$$"
}

# Why a call of the program ended as it did, given what it printed: what it said to people, or else its answer.
why() {
    said=$tmpdir/said.$$
    [ -s "$said" ] || said=$1
    tail -n 1 "$said" | tr -cd '[:print:]' | cut -c 1-200
}

# Keeps a word of the configuration.
configure() {
    case $1 in
    image)
        [ -e "$2" ] || fail "there is no $2"
        count=$(find "$tmpdir" -name 'image.*' | wc -l)
        ln -s "$(realpath "$2")" "$tmpdir/image.$(printf %03d "$count")"
        ;;
    array | group) printf '%s' "$2" >"$tmpdir/$1" ;;
    program) realpath "$2" >"$tmpdir/program" ;;
    *) fail "there is no word $1: it wants array, image, group or program" ;;
    esac
}

# The size of the array in bytes, where it can be read.
size() {
    shown=$tmpdir/shown.$$
    trap 'rm -f "$shown" "$tmpdir/said.$$"' EXIT
    status=0
    ask show >"$shown" || status=$?
    [ "$status" = 0 ] || fail "show ended with $status: $(why "$shown")"
    line=$(NAME=$(cat "$tmpdir/array") awk '$1 == "array" && $2 == ENVIRON["NAME"]' "$shown")
    case $line in
    "") fail "no array has the name $(cat "$tmpdir/array")" ;;
    *" blocks "*" optimal"* | *" blocks "*" degraded"*) echo $(($(echo "$line" | cut -d ' ' -f 4) * 512)) ;;
    *) fail "it can't be read: $line" ;;
    esac
}

# Prints so many bytes from an offset on, of whole blocks that are read first, 2048 at a time.
give() {
    at=$(($2 / 512))
    end=$((($2 + $1 + 511) / 512))
    piece=$tmpdir/piece.$$
    trap 'rm -f "$piece" "$piece.whole" "$tmpdir/said.$$"' EXIT
    : >"$piece.whole"
    while [ "$at" -lt "$end" ]; do
        count=$((end - at))
        [ "$count" -le 2048 ] || count=2048
        status=0
        ask read "$(cat "$tmpdir/array")" "$at" "$count" >"$piece" || status=$?
        [ "$status" = 0 ] || fail "read of $count blocks from $at on ended with $status: $(why "$piece")"
        cat "$piece" >>"$piece.whole"
        at=$((at + count))
    done
    tail -c +$(($2 % 512 + 1)) "$piece.whole" | head -c "$1"
}

case ${1-} in
magic_config_key) echo image ;;
config) configure "$2" "$3" ;;
config_complete)
    [ -s "$tmpdir/array" ] || fail "it wants array=NAME"
    [ -h "$tmpdir/image.000" ] || fail "it wants the images of the group"
    size >/dev/null
    ;;
thread_model) echo parallel ;;
get_size) size ;;
pread) give "$3" "$4" ;;
block_size) echo 512 4096 1048576 ;;
# Readers of one array see the same bytes.
can_multi_conn) exit 0 ;;
can_write) exit 3 ;;
dump_plugin) ;;
*) exit 2 ;;
esac
