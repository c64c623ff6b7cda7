#!/bin/sh
# Measures `examine` beside mdadm, blkid and zlib, where they are at hand, `read`, `scrub` and `resync` beside cat, `write` beside dd, and the exclusive-or beside a
# copy, and prints the table of docs/SPEED.md. It is no part of the gate. ROUNDS is the number of rounds (40); in each round every program runs
# once, one after another.
#
# - Linux's disks: both read them as Linux left them (DDF_LINUX_DISKS, a folder of NAME.tar.xz). Then `ddf` reads them beside the same
#   disks turned, with their checksums as the standard counts them (DDF_DISKS).
# - CRC: how much longer `examine` takes over slots that are sealed than over slots of which none is, so that it reads and
#   copies as much, counts no CRC and compares no slots. So a comparison of the two copies is in it. zlib's is that of Python.
# - Memory: the peak of the process, where the sections that are kept in memory have the most sectors that they may have.
# - `read` of 1 MiB, a piece of a call, in pieces of arrays over three labelled disks, whole and without their first disk, beside cat
#   of a file of the same bytes. The bytes and the parity are placed without `ddf`, and what it gives is compared with them once. Both
#   write over a file that is there, in memory where /dev/shm is, so that the kernel doesn't copy for cat within one file system. The
#   same of no block tells what the start and the assembly cost. Ratios are of throughput.
# - `scrub` of an array of random bytes, whose copies and parity agree, beside cat of what its members hold, to nowhere. It takes an eighth
#   of the rounds, and room for 1.4 GB in the folder of temporary files.
# - `resync` of the same arrays, beside cat of what their members hold; and `write` of 1 MiB, a piece of a call, with its start, the two changes of the group around
#   it and their syncs, beside dd of as many bytes as reach the disks, with one sync.
# - One `read` of 512 MiB of RAID 5, whole and without its first disk, beside cat of the same bytes, which were placed without `ddf`; and one `write` of 512 MiB beside dd of
#   as many bytes as reach the disks, with one sync, and its peak of memory above that of a write of no block.
# - The same of RAID 10 of four disks, and of both kinds of RAID 1E of four beside that, all in the same rounds. It needs room for 6 GB in the folder of temporary files.
# - One `read` of 512 MiB on a disk whose bad block log has 1,000 entries, beside the same on one without any: both disks are laid out without `ddf` (handmade.py).
# - `rebuild` of the second disk of such arrays on a spare, with the loss, the notes of its progress and their syncs, beside cat of what it reads, to nowhere, and then dd
#   of what it writes, with one sync.
# - On a medium, by the clock and with the syncs that it costs (medium_speed.py): `examine` of Linux's disks beside mdadm, a change of 15 disks beside as many syncs
#   by dd, `resync`, `write` and `read` of 64 MiB beside cat and dd, and `rebuild` beside both. Before each look and read the system is told to forget the files.
#   MEDIUM is a folder there (that of temporary files); in memory these rows aren't measured. They need room for 700 MB.
# - The exclusive-or of sectors in cache beside a copy of as many, in one small program (xor_speed.rt.txt: only a crate has files
#   named .rt), which `rt` proves and builds first. That takes a minute or more.
#
# Times are the least and the median of all rounds, of processor time and on the clock.
set -eu
top=$(cd "$(dirname "$0")/.." && pwd)
PATH=$PATH:/sbin:/usr/sbin
if ! command -v python3 >/dev/null; then
    echo "bench: python3 isn't here, nothing measured"
    exit 0
fi

work=$(mktemp -d)
trap 'rm -rf "$work"' EXIT

# Sixteen disks of the archives in a folder, each a file of its own.
sixteen() {
    [ -d "$1" ] || return 0
    mkdir "$work/sets" "$2"
    for archive in "$1"/*.tar.xz; do
        mkdir "$work/sets/$(basename "$archive" .tar.xz)"
        tar -xJf "$archive" -C "$work/sets/$(basename "$archive" .tar.xz)"
    done
    count=0
    for image in $(find "$work/sets" -name '*.img' | sort) $(find "$work/sets" -name '*.img' | sort); do
        [ "$count" -lt 16 ] || break
        cp --sparse=always "$image" "$2/$(printf %02d "$count").img"
        count=$((count + 1))
    done
    rm -rf "$work/sets"
}

# The program that times the exclusive-or, in a repository of its own with the crates that it stands on.
build_xor() {
    mkdir -p "$1/crates/xor_speed/src"
    for crate in ddf_lemmas ddf_bytes ddf_parity; do
        mkdir "$1/crates/$crate"
        for part in src specs proofs; do
            [ ! -d "$top/crates/$crate/$part" ] || cp -r "$top/crates/$crate/$part" "$1/crates/$crate"
        done
        grep "^$crate:" "$top/crates.txt" >>"$1/crates.txt"
    done
    echo "xor_speed: ddf_bytes ddf_parity anyhow" >>"$1/crates.txt"
    cp "$top/scripts/xor_speed.rt.txt" "$1/crates/xor_speed/src/main.rt"
    cd "$1/crates/xor_speed" && nice rt run -- 1 1 1
}

"$top/ddf" --version >/dev/null
sixteen "${DDF_DISKS:-$top/../shared/disks}" "$work/turned"
sixteen "${DDF_LINUX_DISKS:-$top/../shared/linux-disks}" "$work/linux"
truncate -s 32M "$work/labelled.img"
"$top/ddf" "$work/labelled.img" -- label >/dev/null
if ! command -v rt >/dev/null; then
    echo "bench: rt isn't here, the exclusive-or isn't measured" >&2
elif ! (build_xor "$work/xor") >"$work/xor.log" 2>&1; then
    tail -n 20 "$work/xor.log" >&2
    echo "bench: the exclusive-or isn't measured" >&2
fi
python3 -B "$top/scripts/bench.py" "$top/crates/ddf/out/ddf" "$work" "${ROUNDS:-40}"
medium=${MEDIUM:-$work}
if [ "$(stat -f -c %T "$medium")" = tmpfs ]; then
    echo "bench: $medium is in memory, the rows of a medium aren't measured" >&2
else
    python3 -B "$top/scripts/medium_speed.py" "$top/crates/ddf/out/ddf" "$medium" "$work/linux" "$((${ROUNDS:-40} / 4 + 1))"
fi
