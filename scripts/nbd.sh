#!/bin/sh
# Tries scripts/ddf-nbd.sh; where a tool that it takes isn't here it ends with 77. Of an array of each level what nbdcopy gets equals what `read` gives, whole and
# short of each disk that the level can do without, and short of another one nothing is served. No image is written to. Then the files of an
# ext4 on an array are read by debugfs, short of a disk, where mke2fs and debugfs are at hand.
set -eu
PATH=$PATH:/sbin:/usr/sbin
top=$(cd "$(dirname "$0")/.." && pwd)
# shellcheck disable=SC1091
. "$top/scripts/lacking.sh"
command -v nbdkit >/dev/null || lacks "no nbdkit"
command -v nbdcopy >/dev/null || lacks "no nbdcopy"
all_tried nbd
plugin=$top/scripts/ddf-nbd.sh
work=$(mktemp -d)
trap 'rm -rf "$work"' EXIT
cd "$work"

fail() {
    echo "nbd: $*" >&2
    exit 1
}

# Runs the program, without what it says to people.
ddf() {
    "$top/ddf" --yes "$@" 2>/dev/null
}

# Serves the array `data` of these images while a command runs, in which $uri names it.
serve() {
    command=$1
    shift
    nbdkit -U - sh "$plugin" "program=$top/ddf" array=data "$@" --run "$command"
}

# Prints all blocks of the array `data` of these images.
blocks_of() {
    count=$(ddf "$@" -- show | sed -n 's/^array data blocks \([0-9]*\) .*/\1/p')
    ddf "$@" -- read data 0 "$count"
}

# Fills the extents of disks: with random bytes, or with what makes their copies or parity agree.
fill() {
    python3 - "$@" <<'TEXT'
import os, sys
size = 1024 * 512

def put(disk, data):
    with open(f"d{disk}.img", "r+b") as image:
        image.write(data)

for group in sys.argv[1:]:
    kind, disks = group[0], group[1:]
    held = [os.urandom(size) for _ in disks]
    if kind == "=":
        held = held[:1] * len(disks)
    if kind == "+":
        total = 0
        for data in held[:-1]:
            total ^= int.from_bytes(data, "little")
        held[-1] = total.to_bytes(size, "little")
    for disk, data in zip(disks, held):
        put(disk, data)
TEXT
}

# Compares what nbdcopy gets over these images with a file.
compare() {
    wanted=$1
    shift
    rm -f got
    # shellcheck disable=SC2016
    serve 'nbdcopy "$uri" got' "$@" || fail "$level isn't copied over $*"
    cmp -s "$wanted" got || fail "$level is copied otherwise than read gives it over $*"
}

# Makes an array of these words over fresh disks, fills it, and compares. The first word is how many disks it has, the second which of them it
# can be without, one at a time, and the third how they are filled.
try_level() {
    disks=$1
    spare=$2
    filled=$3
    shift 3
    level=$*
    rm -f d?.img
    images=
    for disk in $(seq 0 $((disks - 1))); do images="$images d$disk.img"; done
    # shellcheck disable=SC2086
    truncate -s 32M $images
    # shellcheck disable=SC2086
    {
        ddf $images -- label >/dev/null
        ddf $images -- create data "$@" >/dev/null || fail "$level isn't made"
        fill $filled
        [ "$(ddf $images -- scrub data)" = clean ] || fail "$level isn't filled rightly"
        ddf $images -- accept data >/dev/null
        before=$(cksum $images)
        blocks_of $images >wanted
        compare wanted $images
    }
    for left in $images; do
        others=$(echo "$images" | sed "s/$left//")
        [ "$disks" -gt 1 ] || continue
        case $spare in
        *"${left%.img}"*)
            # shellcheck disable=SC2086
            compare wanted $others
            ;;
        *)
            # shellcheck disable=SC2086
            ! serve true $others 2>said || fail "$level is served without $left"
            grep -q "it can't be read" said || fail "of $level without $left it says: $(cat said)"
            ;;
        esac
    done
    # shellcheck disable=SC2086
    [ "$(cksum $images)" = "$before" ] || fail "an image of $level was written to"
    echo "nbd: $level is served as read gives it"
}

try_level 3 "" "*012" raid0 3 single 0,1,2@1024
try_level 3 "d0 d1 d2" "=012" raid1 0 single 0,1,2@1024
for name in raid4.first raid4.last raid5.r0 raid5.rn raid5.rnc; do
    try_level 3 "d0 d1 d2" "+012" "$name" 3 single 0,1,2@1024
done
try_level 1 "" "*0" jbod 0 single 0@1024
try_level 3 "" "*012" concat 0 single 0,1,2@1024
for name in striped concat spanned; do
    try_level 4 "d0 d1 d2 d3" "=01 =23" raid1 3 "$name" 0,1@1024 2,3@1024
done
try_level 4 "d0 d1 d2 d3" "=02 =13" raid0 3 mirrored 0,1@1024 2,3@1024
try_level 6 "d0 d1 d2 d3 d4 d5" "+012 +345" raid5.rnc 3 striped 0,1,2@1024 3,4,5@1024

# A call of the plugin by itself, for bytes that are no whole blocks.
mkdir hand
for word in "program $top/ddf" "array data" "image d0.img" "image d1.img" "image d2.img" "image d3.img" "image d4.img" "image d5.img"; do
    # shellcheck disable=SC2086
    tmpdir=$work/hand "$plugin" config $word
done
for range in "1 0" "1000 700" "1900000 100001"; do
    # shellcheck disable=SC2086
    tmpdir=$work/hand "$plugin" pread "" $range >got
    tail -c +$((${range#* } + 1)) wanted | head -c "${range% *}" | cmp -s - got || fail "it gives other bytes for $range"
done
! serve true d0.img array=none 2>said || fail "an array that isn't there is served"
grep -q "no array has the name none" said || fail "of an array that isn't there it says: $(cat said)"
# shellcheck disable=SC2016
serve 'nbdinfo "$uri"' d?.img | grep -q 'is_read_only: true' || fail "it isn't read only"
echo "nbd: bytes that are no whole blocks are given, and nothing can be written"

if ! command -v mke2fs >/dev/null || ! command -v debugfs >/dev/null; then
    lacks "a file system: no mke2fs or no debugfs"
    all_tried nbd
fi

# Puts a file onto the array `data` of these images.
put_file() {
    file=$1
    shift
    blocks=$(($(stat -c %s "$file") / 512))
    ddf "$@" -- write data 0 "$blocks" <"$file" >/dev/null || fail "write of $file failed"
}

mkdir files files/folder
seq 1 200000 >files/numbers
head -c 3000000 /dev/urandom >files/folder/random
echo short >"files/folder/with a space"
truncate -s 12M fs.img
mke2fs -q -t ext4 -d files fs.img
rm -f d?.img
truncate -s 32M d0.img d1.img d2.img
ddf d0.img d1.img d2.img -- label >/dev/null
if ddf --help | grep -q '^  write '; then
    level="RAID 5"
    ddf d0.img d1.img d2.img -- create data raid5.rnc 7 single 0,1,2@12288 >/dev/null
    ddf d0.img d1.img d2.img -- resync data >/dev/null || fail "resync failed"
    put_file fs.img d0.img d1.img d2.img
else
    # With no command that writes blocks they are put onto the disks of a mirror, whose extents begin with them.
    level="RAID 1"
    ddf d0.img d1.img d2.img -- create data raid1 0 single 0,1@24576 >/dev/null
    for image in d0.img d1.img; do dd if=fs.img of=$image conv=notrunc bs=1M 2>/dev/null; done
    ddf d0.img d1.img d2.img -- accept data >/dev/null
fi
for images in "d0.img d1.img d2.img" "d1.img d2.img"; do
    rm -rf copied got
    mkdir copied
    # shellcheck disable=SC2016,SC2086
    serve 'nbdcopy "$uri" got' $images
    debugfs -R 'rdump / copied' got 2>/dev/null
    rmdir copied/lost+found 2>/dev/null || true
    diff -r files copied || fail "the files of $level over $images differ"
done
echo "nbd: the files of an ext4 on $level are read, whole and short of a disk"

if ! command -v nbdfuse >/dev/null || ! command -v fusermount3 >/dev/null || [ ! -w /dev/fuse ]; then
    lacks "a file system in place: no nbdfuse, no fusermount3 or no /dev/fuse"
    all_tried nbd
fi
rm -rf copied
mkdir copied mounted
nbdfuse mounted --command nbdkit -s sh "$plugin" "program=$top/ddf" array=data d1.img d2.img &
server=$!
trap 'fusermount3 -u "$work/mounted" 2>/dev/null || true; rm -rf "$work"' EXIT
tries=0
until [ -e mounted/nbd ]; do
    tries=$((tries + 1))
    [ "$tries" -lt 300 ] || fail "nbdfuse shows nothing"
    if ! kill -0 "$server" 2>/dev/null; then
        lacks "a file system in place: nbdfuse can't mount here"
        all_tried nbd
    fi
    sleep 0.1
done
debugfs -R 'rdump / copied' mounted/nbd 2>/dev/null
rmdir copied/lost+found 2>/dev/null || true
diff -r files copied || fail "the files of $level differ where they are read in place"
fusermount3 -u mounted
wait "$server"
echo "nbd: and by nbdfuse, in place"
