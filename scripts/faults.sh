#!/bin/sh
# Runs the program over disks that fail: a call of it that fails, is interrupted or moves a part alone, a power cut or a kill at any moment of a change, a file system that
# is full or read only, sectors that can't be read or written, and a disk that grows or shrinks between two commands. What was acknowledged
# is there after it (promise:acknowledged, promise:written), also beside one range of sectors anywhere that can't be read.
#
#   scripts/faults.sh [STEP]
#
# Of the calls each STEP-th one is tried, each 11th where there is none. The faults are made by scripts/faults.c, which gcc builds. DDF names a built program.
set -eu
step=${1:-11}
top=$(cd "$(dirname "$0")/.." && pwd)
# shellcheck disable=SC1091
. "$top/scripts/lacking.sh"
work=$(mktemp -d)
trap 'rm -rf "$work"' EXIT
command -v gcc >/dev/null || lacks "no gcc"
all_tried faults
[ -n "${DDF:-}" ] || "$top/ddf" --version >/dev/null
cp "${DDF:-$top/crates/ddf/out/ddf}" "$work/ddf"
gcc -O1 -shared -fPIC -o "$work/faults.so" "$top/scripts/faults.c" -ldl
cd "$work"
images="a.img b.img c.img"
# The group that is named, by `@`, and the group that joins it: none but in an import.
named='' other=''
# How many members it has lost.
lost=0

fail() {
    echo "faults: $*; it printed $(cat out), and said $(cat err)" >&2
    exit 1
}

# runs WORDS..: the program with these words, over what `fault` says. `status` is how it ended.
fault=
runs() {
    status=0
    env $fault LD_PRELOAD=./faults.so ./ddf "$@" <input >out 2>err || status=$?
}

# ends STATUS OUTPUT WORDS..: the program, with these words, ends so and prints what begins with OUTPUT.
ends() {
    wanted=$1 printed=$2
    shift 2
    runs "$@"
    [ "$status" = "$wanted" ] || fail "status $status, not $wanted, of: $*"
    [ -n "$printed" ] || return 0
    case $(cat out) in "$printed"*) ;; *) fail "no $printed of: $*" ;; esac
}

# over_bad IMAGE CALLS RANGE STATUS OUTPUT WORDS..: the same over an image with bad sectors, or several with commas between, where CALLS is BAD_READS or BAD_WRITES.
over_bad() {
    fault="BAD_IMAGE=$1 $2=$3"
    shift 3
    ends "$@"
    fault=
}

# A group of three disks, of which two are a mirror whose blocks are full of the byte 11.
new_group() {
    rm -f $images
    truncate -s $((33000 * 512)) $images
    head -c 65536 /dev/zero | tr '\0' '\021' >input
    ends 0 "ok sequence 1" $images -- label
    ends 0 "ok sequence 2" $images -- create v raid1 0 single 0,1@128
    ends 0 "ok sequence 3" $images -- resync v
    ends 0 "ok sequence 5" $images -- write v 0 128
    head -c 65536 /dev/zero | tr '\0' '\042' >input
}

# Keeps the images as they are, and brings them back.
keep() {
    for image in $images; do cp --sparse=always "$image" "kept-$image"; done
}
restore() {
    for image in $images; do cp --sparse=always "kept-$image" "$image"; done
}

# Whether no image was written to since `mark_time`.
mark_time() {
    touch -d 2001-01-01 $images
}
is_untouched() {
    [ -z "$(find $images -newermt 2002-01-01)" ]
}

# The number of the group that `assemble` gives, which settles it: the next one writes nothing.
sequence() {
    ends 0 "group" $images -- $named assemble
    sed -n 's/^group .* sequence //p' out
    mark_time
    ends 0 "group" $images -- $named assemble
    is_untouched || fail "a second assemble wrote to an image"
}

# met KIND HOW NUMBER WORDS..: gives a command of which the call NUMBER of a kind ends so, and answers whether there was that call. `status` is how the command ended,
# and `told` its output.
met() {
    rm -f hit
    fault="FAULT_CALLS=$1 FAULT_HOW=$2 FAULT_AT=$3 FAULT_TOLD=hit"
    shift 3
    runs $images -- "$@"
    fault=
    told=$(cat out)
    [ -e hit ]
}

# each_call KIND HOW JUDGE WORDS..: gives a command over the kept images with a call of a kind ending otherwise, each STEP-th one in turn, as long as there is such a
# call, and has JUDGE look at what came of it.
each_call() {
    kind=$1 how=$2 judge=$3
    shift 3
    number=0 tried=0
    restore
    while met "$kind" "$how" "$number" "$@"; do
        $judge "$how call $number ($kind) of $*"
        number=$((number + step)) tried=$((tried + 1))
        restore
    done
    [ "$tried" -gt 0 ] || fail "no call of $kind in $*"
    [ "$status" = 0 ] || fail "status $status without a fault, of $*"
    echo "faults: $tried calls ($kind) of $* that end so: $how"
}

# The command is done, as if nothing had happened.
is_done() {
    case $status$told in "0ok sequence $after") ;; *) fail "status $status: $1" ;; esac
    [ "$(sequence)" = "$after" ] || fail "not done: $1"
}

# The command was stopped, or failed: it has happened or it hasn't, and where it printed `ok` it has. No member is lost by a stop. An import that hasn't happened is given again.
is_whole() {
    now=$(sequence)
    case $status$told in
    "0ok sequence $after") [ "$now" = "$after" ] || fail "ok was printed, and is gone: $1" ;;
    1*refused* | 3* | 137*) is_one_of "$now" || fail "sequence $now: $1" ;;
    *) fail "status $status: $1" ;;
    esac
    [ "$(grep -c missing out)" = "$lost" ] || fail "a member is lost: $1"
    [ -z "$other" ] || [ "$now" = "$after" ] || ends 0 "ok sequence $after" $images -- $named import "$other"
    are_blocks_right || fail "a block has other bytes than old or new ones: $1"
}

# A write or a sync failed: the command ends so, and never as if all were sure, since a later sync that is good says nothing of what the failed one dropped.
is_told() {
    [ "$status" = 3 ] || fail "status $status: $1"
    is_whole "$1"
}

# Where one read alone fails a member may be lost by it, which raises the number by two, and the command is done without it.
is_whole_or_short() {
    if [ "$status" = 0 ] && [ "$told" = "ok sequence $((after + 2))" ]; then
        [ "$(sequence)" = $((after + 2)) ] || fail "ok was printed, and is gone: $1"
        [ "$(grep -c "^member .* slot " out)" = "$(($(echo $images | wc -w) - 1 - lost))" ] || fail "other members are lost than the one that failed: $1"
        are_blocks_right || fail "a block has other bytes than old or new ones: $1"
    else
        is_whole "$1"
    fi
}

is_one_of() {
    for number_of in $numbers; do
        [ "$1" != "$number_of" ] || return 0
    done
    return 1
}

# Whether each block of the mirror is an old one or a new one, and those of a group that has joined are what they were.
are_blocks_right() {
    if [ -n "$other" ]; then
        ends 0 "" $images -- $named read w 0 64
        cmp -s out blocks_of_other || return 1
    fi
    ends 0 "" $images -- $named read v 0 128
    [ "$(wc -c <out)" = 65536 ] && ! fold -b -w 512 out | LC_ALL=C grep -a -v -x -F -q -f either
}

# The faults of one command: `after` is the number that it gives, and `numbers` those that a stop may leave.
try_command() {
    each_call read fails is_whole_or_short "$@"
    for kind in write sync; do
        each_call $kind fails is_told "$@"
    done
    each_call any gone is_whole "$@"
    for how in kill cut-none cut-second; do
        each_call any $how is_whole "$@"
    done
    each_call write full is_told "$@"
    for how in interrupted short; do
        each_call read $how is_done "$@"
        each_call write $how is_done "$@"
    done
    each_call sync interrupted is_done "$@"
    try_end "$@"
}

# Each sync of a command over blocks fails in turn.
try_syncs() {
    tried_before=$step step=1
    each_call sync fails is_told "$@"
    step=$tried_before
}

# What a command printed `ok` for is sure when it ends: nothing is lost that no sync made sure.
try_end() {
    restore
    fault=CUT_AT_END=yes
    ends 0 "ok sequence $after" $images -- "$@"
    fault=
    [ "$(sequence)" = "$after" ] || fail "what ok was printed for wasn't made sure: $*"
    are_blocks_right || fail "a block has other bytes than old or new ones"
    [ "$1" != write ] || cmp -s out input || fail "blocks weren't made sure: $*"
    echo "faults: what $* printed ok for is sure"
}

# Sectors of a disk that can't be read or written.
try_bad_sectors() {
    restore
    over_bad a.img BAD_READS 5-6 0 "" $images -- read v 0 128
    cmp -s out blocks_of_group || fail "a mirror with a bad sector gave other blocks"
    over_bad b.img BAD_READS 32999-32999 0 "group" $images -- show
    grep -q " absent$" out || fail "a disk whose anchor can't be read was taken into its group"
    over_bad b.img BAD_READS 32900-32998 0 "group" $images -- show
    grep -q " absent$" out || fail "a disk whose records can't be read was taken into its group"
    mark_time
    for command in "create x jbod 0 single 2@8" "delete v" "spare 2 global"; do
        over_bad a.img BAD_WRITES 32900-32999 3 "disk fault slot 0" $images -- $command
        ends 0 "group" $images -- show
        ! grep -q "absent\|sequence 6" out || fail "a change that no disk took counts"
    done
    over_bad a.img BAD_WRITES 5-6 3 "disk fault slot 0" $images -- write v 0 128
    ends 1 "refused 24 marked" $images -- write v 0 128
    over_bad b.img BAD_WRITES 5-6 3 "disk fault slot 1" $images -- resync v
    over_bad b.img BAD_WRITES 5-6 0 "ok sequence" $images -- fail b.img
    over_bad b.img BAD_WRITES 5-6 0 "ok sequence" $images -- resync v
    over_bad b.img BAD_WRITES 5-6 0 "ok sequence" $images -- write v 0 128
    ends 0 "" $images -- read v 0 128
    cmp -s out input || fail "what was written behind a bad disk isn't there"
    echo "faults: a disk with bad sectors is passed over, told, and taken out of use"
    truncate -s $((37000 * 512)) p.img
    ends 0 "ok sequence 1" p.img -- label
    ends 0 "ok sequence 2" p.img -- create w jbod 0 single 0@4100
    over_bad p.img BAD_READS 2050-2050 3 "" p.img -- read w 1 4099
    [ "$(wc -c <out)" = 1048576 ] || fail "other blocks are printed than those of whole pieces: $(wc -c <out) bytes"
    grep -q "^ddf: read stopped at block 2049: " err || fail "said $(cat err), of a read that stopped"
    over_bad p.img BAD_READS 2050-2050 3 "disk fault slot 0" p.img -- read w 2049 2
    echo "faults: a read that stops at a bad sector prints whole pieces, and tells the block"
}

# A disk that grows or shrinks between two commands. Its anchor isn't in its last sector then.
try_sizes() {
    restore
    size=$((33000 * 512))
    truncate -s $((size + 100)) b.img
    ends 0 "group" $images -- show
    ! grep -q absent out || fail "a disk that grew by less than a sector is absent"
    for other in $((size + 512)) $((size * 2)); do
        truncate -s $other b.img
        ends 0 "slot 0 sectors 33000" $images -- examine
        grep -q "^slot 1 blank$" out || fail "a disk that grew isn't blank"
        ends 0 "group" $images -- show
        grep -q " absent$" out || fail "a disk that grew is taken into its group"
        truncate -s $size b.img
        ends 0 "group" $images -- show
        ! grep -q absent out || fail "a disk that has its size again is absent"
    done
    for other in $((size - 1)) $((size - 512)) 512 0; do
        truncate -s $other b.img
        ends 0 "group" $images -- show
        grep -q " absent$" out || fail "a disk that shrank is taken into its group"
        ends 0 "" $images -- read v 0 128
        cmp -s out blocks_of_group || fail "a mirror with a disk that shrank gave other blocks"
        restore
    done
    truncate -s $((size + 512)) b.img
    ends 0 "ok sequence 8" $images -- spare 2 global
    truncate -s $size b.img
    ends 0 "group" $images -- assemble
    grep -q "^member .* missing$" out || fail "a disk that was away came back by itself"
    echo "faults: a disk that grows or shrinks isn't there, and comes back where no command changed the group meanwhile"
}

# Images in a file system that is full, and then in one that is read only.
try_file_system() {
    mkdir full
    if ! mount -t tmpfs -o size=20k none full 2>/dev/null; then
        lacks "a full file system: nothing can be mounted"
        return
    fi
    trap 'umount "$work/full"; rm -rf "$work"' EXIT
    truncate -s $((34000 * 512)) full/d.img full/e.img
    ends 3 "disk fault slot 0" full/d.img full/e.img -- label
    ends 0 "slot 0 blank" full/d.img -- examine
    mount -o remount,size=100k full
    ends 0 "ok sequence 1" full/d.img full/e.img -- label
    ends 0 "ok sequence 2" full/d.img full/e.img -- create w raid1 0 single 0,1@1024
    ends 0 "ok sequence 3" full/d.img full/e.img -- accept w
    head -c 524288 /dev/urandom >input
    ends 3 "disk fault slot 0" full/d.img full/e.img -- write w 0 1024
    ends 1 "refused 24 marked" full/d.img full/e.img -- write w 0 1024
    mount -o remount,size=10m full
    ends 0 "ok sequence 5" full/d.img full/e.img -- resync w
    ends 0 "ok sequence 7" full/d.img full/e.img -- write w 0 1024
    ends 0 "" full/e.img -- read w 0 1024
    cmp -s out input || fail "blocks were lost in a file system that was full"
    mount -o remount,ro full
    ends 0 "group" full/d.img full/e.img -- show
    ends 0 "" full/d.img full/e.img -- read w 0 1024
    cmp -s out input || fail "a file system that is read only gave other blocks"
    for command in assemble "delete w" "write w 0 1024"; do
        ends 3 "" full/d.img full/e.img -- $command
        grep -q "can't be opened: Read-only file system" err || fail "said no reason of: $command"
    done
    ends 3 "disk fault slot 0" full/d.img full/e.img -- label
    umount full
    trap 'rm -rf "$work"' EXIT
    echo "faults: a file system that is full or read only is told, and takes nothing that was acknowledged"
}

# Another disk, which is a group of its own with an array, joins that of the mirror. No block of either changes.
try_import() {
    restore
    truncate -s $((33000 * 512)) d.img
    ends 0 "ok sequence 1" d.img -- label
    ends 0 "ok sequence 2" d.img -- create w jbod 0 single 0@64
    head -c 32768 /dev/zero | tr '\0' '\063' >input
    ends 0 "ok sequence 2" d.img -- write w 0 64
    cp input blocks_of_other
    fold -b -w 512 blocks_of_group | LC_ALL=C sort -u >either
    named=@$(group_of a.img) other=$(group_of d.img) images="$images d.img"
    keep
    after=6 numbers="5 6"
    try_command "$named" import "$other"
}

# A disk of a mirror is taken out of use, and the third gets its blocks.
try_rebuild() {
    images="a.img b.img c.img" named='' other='' lost=1
    new_group
    ends 0 "ok sequence 6" $images -- spare 2 global
    ends 0 "ok sequence 8" $images -- fail b.img
    keep
    after=10 numbers="8 9 10"
    try_syncs rebuild v
}

# A copyback that a write or a sync ended which failed says which disk holds the position: that one does once the group is assembled, and it has all blocks by itself.
is_told_back() {
    case $(cat err) in
    *"slot 2 (c.img) holds the position still"*) place=10 ;;
    *"say by now that slot 3 (d.img) holds the position"*"give assemble"*) place=11 ;;
    *) fail "it isn't told where the position is: $1" ;;
    esac
    is_told "$1"
    [ "$now" = "$place" ] || fail "the position isn't where it was said to be: $1"
    holds_alone
}

# The disk that holds the position has all blocks by itself.
holds_alone() {
    if [ "$now" = 11 ]; then last=d.img; else last=c.img; fi
    ends 0 "" $last -- read v 0 128
    cmp -s out blocks_of_group || fail "$last hasn't the blocks of the position that it holds"
}

# A copyback that was stopped is given again before anything else: it is done, or refused. Where not all disks have its change then that is told, and assemble makes it sure.
is_given_again() {
    runs $images -- copyback v d.img
    case $status$(cat out) in "0ok sequence 11" | "1refused 38 no stand-in") ;; *) fail "given again: $1" ;; esac
    cp err again
    ends 0 "group" $images -- show
    ! grep -q " behind$" out || grep -q "is behind: the last change of the group isn't on each disk.*give assemble" again || fail "it said $(cat again), and a disk is behind: $1"
    now=$(sequence)
    [ "$now" = 11 ] || fail "sequence $now: $1"
    holds_alone
}

# A revertible spare stands in for a disk of a mirror, and a new disk gets what it holds.
try_copyback() {
    images="a.img b.img c.img d.img" named='' other='' lost=1
    new_group
    ends 0 "ok sequence 6" $images -- spare c.img revertible
    ends 0 "ok sequence 8" $images -- fail b.img
    ends 0 "ok sequence 10" $images -- rebuild v
    keep
    after=11 numbers="10 11"
    try_command copyback v d.img
    try_syncs copyback v d.img
    each_call write fails is_told_back copyback v d.img
    for how in kill cut-none cut-second; do
        each_call any $how is_given_again copyback v d.img
    done
}

# is_behind: a disk has the last change of the group, and another one hasn't.
is_behind() {
    ends 0 "group" $images -- show
    grep -q " behind$" out
}

# A read of the `assemble` behind a copyback that was cut in its step fails: the group may go on without that disk. Its array has all blocks, or is told to have failed, and
# the disk whose read failed is named, then, and by the next command as one that is to be left as it is; the spare and the new disk have all blocks still, where they lay.
is_kept_or_told() {
    [ "$status" = 0 ] || [ "$status" = 3 ] || fail "status $status: $1"
    if echo "$told" | grep -q "^array v blocks 128 failed$"; then
        grep -q "a call on it failed" err || fail "no line names the disk that failed: $1"
        for image in c.img d.img; do
            head -c 65536 $image | cmp -s - blocks_of_group || fail "$image hasn't the blocks any more: $1"
        done
        ends 0 "group" $images -- show
        grep -q "this disk may be all that has some of its blocks, so wipe nothing and write nothing to it" err || fail "the next command doesn't name the disk: $1"
        gone=$((gone + 1))
        return
    fi
    ends 0 "" $images -- read v 0 128
    cmp -s out blocks_of_group || fail "a block is other than it was: $1"
}

# behind_cuts: the copyback is killed at each seventh write, and where that leaves a disk behind each STEP-th read of the `assemble` fails.
behind_cuts() {
    cut=0 cuts=0 gone=0
    restore
    while met write kill "$cut" copyback v d.img; do
        if is_behind; then
            keep
            each_call read fails is_kept_or_told assemble >calls
            cuts=$((cuts + 1))
            for image in $images; do cp --sparse=always "stood-$image" "kept-$image"; done
        fi
        cut=$((cut + 7))
        restore
    done
    restore
    [ "$cuts" -gt 1 ] || fail "no copyback was cut in its step"
}

# A copyback that was cut in its step, and then a look that fails: whatever the array is short of before.
try_behind() {
    images="a.img b.img c.img d.img" named='' other=''
    new_group
    ends 0 "ok sequence 6" $images -- spare c.img revertible
    ends 0 "ok sequence 8" $images -- fail b.img
    ends 0 "ok sequence 10" $images -- rebuild v
    for images in "a.img c.img d.img" "c.img d.img"; do
        ends 0 "group" $images -- assemble
        keep
        for image in $images; do cp --sparse=always "$image" "stood-$image"; done
        behind_cuts
        echo "faults: $cuts copybacks that were cut in their step, over $images: no block was lost where a read of the next assemble fails, but $gone times by an array that failed, and was told to"
    done
}

# holds FILE: the array has the blocks of this file, over the image with bad sectors that is tried.
holds() {
    over_bad "$bad" BAD_READS "$range" 0 "" $images -- read v 0 "$blocks"
    cmp -s out "$1" || fail "other blocks are read than $1 has, over $bad $range of $level"
}

# each_block FILE: what is read of each block by itself, over the image with bad sectors that is tried, and nothing of those that can't be read.
each_block() {
    : >"$1"
    block=0
    while [ "$block" -lt "$blocks" ]; do
        fault="BAD_IMAGE=$bad BAD_READS=$range"
        runs $images -- read v "$block" 1
        fault=
        [ "$status" != 0 ] || { echo "block $block" && base64 out; } >>"$1"
        block=$((block + 1))
    done
}

# beside_writes: a write of two blocks at several places, over a range of sectors that can't be read. It is done, and every other block is what it was.
beside_writes() {
    for at in 0 5 $((blocks / 2 - 1)) $((blocks - 2)); do
        restore
        cp small input
        cp whole now
        dd if=small of=now bs=512 seek="$at" conv=notrunc status=none
        over_bad "$bad" BAD_READS "$range" 0 "ok" $images -- write v "$at" 2
        holds now
    done
}

# beside_resync: a resync is done, or it says what is to be done, and that way leads out.
beside_resync() {
    restore
    fault="BAD_IMAGE=$bad BAD_READS=$range"
    runs $images -- resync v
    fault=
    [ "$status" = 0 ] || {
        [ "$status" = 3 ] || fail "status $status of a resync over $bad $range of $level"
        slot=$(sed -n 's/^disk fault slot //p' out)
        grep -q "before any other write or resync: make a disk a spare, fail $slot, rebuild v" err || fail "a resync over $bad $range of $level says no way"
        holds whole
        for command in "spare 6 global" "fail $slot" "rebuild v"; do
            over_bad "$bad" BAD_READS "$range" 0 "ok" $images -- $command
        done
        [ "$bad" = g.img ] || over_bad "$bad" BAD_READS "$range" 0 "ok" $images -- resync v
    }
    holds whole
}

# beside_rebuild: a disk is lost, and another has the range. A rebuild fills the spare, or ends at a block that no disk has; each block that could be read can be read.
beside_rebuild() {
    restore
    ends 0 "ok" $images -- spare 6 global
    ends 0 "ok" $images -- fail 0
    each_block before
    fault="BAD_IMAGE=$bad BAD_READS=$range"
    runs $images -- rebuild v
    fault=
    [ "$status" = 0 ] || grep -q "rebuild v: slot .* has blocks that no other disk has" err || fail "status $status of a rebuild over $bad $range of $level"
    each_block behind
    cmp -s before behind || fail "a rebuild over $bad $range of $level changed a block that could be read"
}

# Arrays of each level with one range of sectors that can't be read, on each of their disks in turn: every block that could be read before a command can be read behind it,
# or the command says what to do, and that way leads out.
try_beside() {
    images="a.img b.img c.img d.img e.img f.img g.img" named='' other='' lost=0
    tried=0
    while read -r members level; do
        rm -f $images
        truncate -s $((33000 * 512)) $images
        ends 0 "ok sequence 1" $images -- label
        ends 0 "ok sequence 2" $images -- create v $level
        ends 0 "ok sequence 3" $images -- resync v
        ends 0 "group" $images -- show
        blocks=$(sed -n 's/^array v blocks \([0-9]*\) .*/\1/p' out)
        head -c $((blocks * 512)) /dev/urandom >input
        ends 0 "ok sequence 5" $images -- write v 0 "$blocks"
        cp input whole
        head -c 1024 /dev/urandom >small
        keep
        for bad in $(echo $images | cut -d ' ' -f "1-$members"); do
            for range in 0-2 3-8 15-15; do
                restore
                holds whole
                beside_writes
                beside_resync
                tried=$((tried + 1))
            done
            [ "$members" -gt 3 ] || [ "$bad" = a.img ] || beside_rebuild
        done
    done <<'LEVELS'
2 raid1 0 single 0,1@16
3 raid4.last 2 single 0,1,2@16
3 raid5.rnc 2 single 0,1,2@16
4 raid1 2 striped 0,1@16 2,3@16
4 raid1 2 spanned 0,1@16 2,3@16
3 raid1e.offset 2 single 0,1,2@16
6 raid5.rnc 2 mirrored 0,1,2@16 3,4,5@16
6 raid5.rn 2 striped 0,1,2@16 3,4,5@16
6 raid4.first 2 concat 0,1,2@16 3,4,5@16
LEVELS
    # Two disks of a RAID 5 can't be read in one row: a write beside it writes nothing, says so, and one of the whole stripe is done.
    level="raid5.rnc 2 single 0,1,2@16"
    rm -f $images
    truncate -s $((33000 * 512)) $images
    ends 0 "ok sequence 1" $images -- label
    ends 0 "ok sequence 2" $images -- create v $level
    ends 0 "ok sequence 3" $images -- resync v
    mark_time
    head -c 512 /dev/urandom >input
    over_bad a.img,b.img BAD_READS 1-1 3 "disk fault slot 0" $images -- write v 5 1
    is_untouched || fail "a write whose look failed wrote to an image"
    grep -q "array v isn't marked, and nothing of it was written: a block beside block 5" err || fail "said $(cat err), of a write whose look failed"
    over_bad a.img,b.img BAD_READS 1-1 0 "ok sequence 5" $images -- write v 4 1
    head -c 4096 /dev/urandom >input
    over_bad a.img,b.img BAD_READS 1-1 0 "ok sequence 7" $images -- write v 0 8
    ends 0 "" $images -- read v 0 8
    cmp -s out input || fail "a stripe that was written over sectors that can't be read isn't there"
    echo "faults: one range of sectors that can't be read, on each disk of nine arrays: $tried times, and no block was lost"
}

# group_of IMAGE: the GUID of the group that this image shows.
group_of() {
    ends 0 "slot 0" "$1" -- examine
    sed -n 's/^slot 0 .* group \([0-9a-f]*\) .*/\1/p' out
}

# The blocks of the mirror, and those that are written to it: one block of each kind is a line of `either`.
new_group
keep
ends 0 "" $images -- read v 0 128
cp out blocks_of_group
cat blocks_of_group input | fold -b -w 512 | LC_ALL=C sort -u >either
after=6 numbers="5 6"
try_command spare 2 global
after=7 numbers="5 6 7"
try_command write v 0 128
try_syncs resync v
try_bad_sectors
try_sizes
try_file_system
try_import
try_rebuild
try_copyback
try_behind
try_beside
all_tried faults
