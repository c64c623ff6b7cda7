#!/bin/sh
# Runs `examine`, `show` and `assemble` over disks as Linux's mdadm left them, and compares what they print with what an independent
# reader found; and reads their arrays, whole and without each disk that the level can do without, and compares the checksum of all
# blocks with the one that Linux found. Linux has resynced these arrays, so `scrub` finds them clean; a copy of one with a byte changed it doesn't.
# By these commands nothing may be written to an image (promise:looks). Then blocks are written to a copy of each set by `write`, and are read back with all
# others as they were, whole and without each disk; a second resync of the array finds it as it was. Disks of one of the groups join another one by `import`. An
# image that `label` made has the standard's checksums. The disks lie in scripts/linux-disks; DDF_DISKS names another folder of NAME.tar.xz with the images, and
# NAME.examine.txt and NAME.assemble.txt with the wanted texts. A set without texts is a mirror whose first resync Linux didn't finish. DDF names a built
# program.
set -eu
top=$(cd "$(dirname "$0")/.." && pwd)
# shellcheck disable=SC1091
. "$top/scripts/lacking.sh"
ddf=$(readlink -f "${DDF:-$top/ddf}")
disks=${DDF_DISKS:-$top/scripts/linux-disks}
[ -d "$disks" ] || lacks "no folder $disks"
command -v xz >/dev/null || lacks "no xz"
all_tried linux-disks
exec </dev/null

fail() {
    echo "linux-disks: $1" >&2
    exit 1
}

# Prints all blocks of the array `data`, so many, of these images.
blocks_of() {
    count=$1
    shift
    "$ddf" "$@" -- read data 0 "$count" 2>/dev/null
}

# The blocks of each array, and the SHA-256 of its bytes as Linux's kernel read them.
sum_of() {
    case $1 in
    r1-spare) echo 8192 36f12a3e2d182d648599a20824c410ad31a03248266e85d0d335f4a3d9ed11ce ;;
    r5-ra) echo 16384 873c3d422e22e41454f0116cccbb66724b5ee8dc8df2a5e3f6c03e7c91878ee6 ;;
    r10) echo 16384 500e083aa73794c37d4056ff9fa1f5bdcc45eb7e5733c54dcc88d3319405f035 ;;
    r1e-near) echo 8192 7f2402d4748865d6af0568465cccf0ce909dce7c7f4ae7cae7eb31ad02c97064 ;;
    *) echo 0 none ;;
    esac
}

# Reads the array of a set of images, and compares its checksum.
compare_blocks() {
    label=$1
    blocks=$2
    wanted=$3
    shift 3
    blocks_of "$blocks" "$@" >"$work/blocks" || fail "read of $label failed"
    found=$(sha256sum <"$work/blocks" | cut -d' ' -f1)
    [ "$found" = "$wanted" ] || fail "the blocks of $label differ"
}

# Scrubs the array of a set of images, and a copy of them with one byte changed in the array's first sector on the first disk.
compare_copies() {
    label=$1
    shift
    [ "$("$ddf" "$@" -- scrub data 2>/dev/null)" = clean ] || fail "scrub doesn't find $label clean"
    cp "$1" "$work/changed"
    byte=$(od -An -tu1 -N1 "$1" | tr -d ' ')
    # shellcheck disable=SC2059
    printf "\\$(printf %03o $(((byte + 1) % 256)))" | dd of="$work/changed" conv=notrunc 2>/dev/null
    shift
    found=$("$ddf" "$work/changed" "$@" -- scrub data 2>/dev/null) || fail "scrub of a changed $label failed"
    [ "$found" = "differs element 0 row 0" ] || fail "scrub of a changed $label says $found"
}

# Reads the array of a set of images whole and without each disk, and compares the checksum of all blocks.
compare_all() {
    label=$1
    blocks=$2
    wanted=$3
    shift 3
    compare_blocks "$label" "$blocks" "$wanted" "$@"
    all=$*
    for left in $all; do
        others=
        for image in $all; do
            [ "$image" = "$left" ] || others="$others $image"
        done
        # shellcheck disable=SC2086
        compare_blocks "$label without $(basename "$left")" "$blocks" "$wanted" $others
    done
}

# Gives blocks of the array `data` of a set of images other bytes, and resyncs it: all its blocks are then as they should be.
write_blocks() {
    label=$1
    blocks=$2
    shift 2
    blocks_of "$blocks" "$@" >"$work/blocks"
    head -c $((5000 * 512)) /dev/urandom >"$work/new"
    dd if="$work/new" of="$work/blocks" bs=512 seek=1000 conv=notrunc 2>/dev/null
    wanted=$(sha256sum <"$work/blocks" | cut -d' ' -f1)
    "$ddf" "$@" -- write data 1000 5000 <"$work/new" >"$work/told" 2>/dev/null || fail "write of $label says $(cat "$work/told")"
    compare_all "a written $label" "$blocks" "$wanted" "$@"
    [ "$("$ddf" "$@" -- scrub data 2>/dev/null)" = clean ] || fail "scrub doesn't find a written $label clean"
    "$ddf" "$@" -- resync data >"$work/told" 2>/dev/null || fail "resync of $label says $(cat "$work/told")"
    compare_all "a resynced $label" "$blocks" "$wanted" "$@"
}

# An array whose blocks Linux keeps at other places than its codes say: none is read, or written, or checked.
refuse_blocks() {
    label=$1
    shift
    for command in "read data 0 1" "write data 0 1" "scrub data" "resync data" "rebuild data"; do
        # shellcheck disable=SC2086
        told=$(head -c 512 /dev/zero | "$ddf" "$@" -- $command 2>/dev/null) || true
        [ "$told" = "refused 18 level 11 RAID 1E" ] || fail "$command of $label says $told"
    done
}

# The group that a set of images shows.
group_of() {
    "$ddf" "$@" -- show 2>/dev/null | sed -n 's/^group \([0-9a-f]*\) .*/\1/p'
}

# Takes the disks of one of Linux's groups into another one, whose tables are as large, and compares the blocks of their array. A disk that was labelled here
# has smaller tables, and can't join.
import_group() {
    mkdir "$work/own" "$work/its"
    tar -xJf "$disks/r10.tar.xz" -C "$work/own"
    tar -xJf "$disks/r5-ra.tar.xz" -C "$work/its"
    own=$(group_of "$work/own"/*.img) its=$(group_of "$work/its"/*.img)
    told=$("$ddf" "$work/own"/*.img "$work/its"/*.img -- "@$own" import "$its" 2>/dev/null) || true
    [ "$told" = "refused 17 name taken" ] || fail "an import of an array with a name that is taken says $told"
    "$ddf" "$work/own"/*.img -- delete data >/dev/null 2>&1 || fail "delete of Linux's array failed"
    told=$("$ddf" "$work/own"/*.img "$work/its"/*.img -- "@$own" import "$its" 2>/dev/null) || fail "an import of Linux's disks says $told"
    sums=$(sum_of r5-ra)
    compare_all "an imported r5-ra" "${sums% *}" "${sums#* }" "$work/own"/*.img "$work/its"/*.img
    truncate -s 64M "$work/linux.img"
    "$ddf" "$work/linux.img" -- label linux >/dev/null 2>&1 || fail "label linux failed"
    told=$("$ddf" "$work/own"/*.img "$work/its"/*.img "$work/linux.img" -- "@$own" import "$(group_of "$work/linux.img")" 2>"$work/said") || true
    [ "$told" = "refused 29 geometry" ] || fail "an import of a disk with smaller tables says $told"
    grep -q "has tables for 15 disks, 15 arrays" "$work/said" || fail "an import says of tables: $(cat "$work/said")"
    echo "linux-disks: disks of one group joined another one with their array, and one with smaller tables was refused"
}

work=$(mktemp -d)
trap 'rm -rf "$work"' EXIT
for text in "$disks"/*.examine.txt; do
    name=$(basename "$text" .examine.txt)
    mkdir "$work/$name"
    tar -xJf "$disks/$name.tar.xz" -C "$work/$name"
    sha256sum "$work/$name"/*.img >"$work/before"
    "$ddf" "$work/$name"/*.img -- examine >"$work/told" 2>"$work/notes" || fail "examine of $name failed"
    diff -u "$disks/$name.examine.txt" "$work/told" || fail "$name differs"
    for command in show assemble; do
        "$ddf" "$work/$name"/*.img -- "$command" >"$work/told" 2>"$work/said" || fail "$command of $name failed"
        diff -u "$disks/$name.assemble.txt" "$work/told" || fail "the group of $name differs for $command"
        ! grep "first resync" "$work/said" || fail "$command of $name speaks of a resync that was finished"
    done
    sums=$(sum_of "$name")
    blocks=${sums% *}
    if [ "$blocks" -gt 0 ]; then
        compare_copies "$name" "$work/$name"/*.img
        compare_all "$name" "$blocks" "${sums#* }" "$work/$name"/*.img
    fi
    [ "$name" != r1e-far ] || refuse_blocks "$name" "$work/$name"/*.img
    sha256sum "$work/$name"/*.img >"$work/after"
    cmp -s "$work/before" "$work/after" || fail "an image of $name was written to"
    slots=$(grep -c "^ddf: slot [0-9]*: checksums as Linux's mdadm counts them$" "$work/notes" || true)
    [ "$slots" -eq "$(wc -l <"$work/before")" ] || fail "$slots slots of $name are turned"
    [ "$blocks" = 0 ] || write_blocks "$name" "$blocks" "$work/$name"/*.img
    rm -rf "${work:?}/$name"
    echo "linux-disks: $name is as wanted, and no image was written to but by write and resync"
done

if [ -f "$disks/r10.tar.xz" ] && [ -f "$disks/r5-ra.tar.xz" ]; then
    import_group
fi

# A mirror that Linux left within its first resync: its records call it consistent, and standard error names it.
archive=$disks/r1-midsync-quiet.tar.xz
if [ -f "$archive" ]; then
    mkdir "$work/midsync"
    tar -xJf "$archive" -C "$work/midsync"
    sha256sum "$work/midsync"/*.img >"$work/before"
    said="ddf: array data: Linux had not finished its first resync; blocks that need parity may be wrong"
    for command in show assemble "read data 0 8"; do
        # shellcheck disable=SC2086
        "$ddf" "$work/midsync"/*.img -- $command >"$work/told" 2>"$work/said" || fail "$command of an unfinished array failed"
        grep -q -x "$said" "$work/said" || fail "$command doesn't name an unfinished array: $(cat "$work/said")"
        ! grep -q -i resync "$work/told" || fail "$command prints what is for standard error"
    done
    sha256sum "$work/midsync"/*.img >"$work/after"
    cmp -s "$work/before" "$work/after" || fail "an image of an unfinished array was written to"
    echo "linux-disks: an array whose first resync Linux didn't finish is named"
fi

image=$work/new.img
truncate -s 32M "$image"
"$ddf" "$image" -- label >/dev/null || fail "label failed"
"$ddf" "$image" -- examine >"$work/told" 2>"$work/notes" || fail "examine of a new image failed"
! grep -q "checksums as Linux's mdadm counts them" "$work/notes" || fail "a new image is turned"
"$ddf" "$image" -- show 2>&1 | grep -q "first resync" && fail "a new image speaks of Linux"
echo "linux-disks: an image that label made is not turned"
