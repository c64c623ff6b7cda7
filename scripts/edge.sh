#!/bin/sh
# Runs the program in hard surroundings: closed streams, paths that can't be opened, disks that may not be written, that are
# locked, absent or not empty, one disk under two names, wrong words, a system that gives too little, the largest disks. Each run
# ends with the wanted status and output, and no image changes but those that a command is to change. Disks that fail are
# scripts/faults.sh. DDF names a built program.
set -eu
PATH=$PATH:/sbin:/usr/sbin
top=$(cd "$(dirname "$0")/.." && pwd)
# shellcheck disable=SC1091
. "$top/scripts/lacking.sh"
work=$(mktemp -d)
trap 'rm -rf "$work"' EXIT
[ -n "${DDF:-}" ] || "$top/ddf" --version >/dev/null
cp "${DDF:-$top/crates/ddf/out/ddf}" "$work/ddf"
cd "$work"
exec </dev/null
chmod 755 .
truncate -s 32M d0.img d1.img new.img
: >empty.img
./ddf d0.img -- label >/dev/null
ln -s d0.img link.img
ln d0.img hard.img
mkfifo pipe
before=$(cksum d0.img d1.img)

fail() {
    echo "edge: $*" >&2
    exit 1
}

# ends STATUS OUTPUT ERROR COMMAND: the shell runs the command, which ends so, prints what begins with OUTPUT, and says what has
# ERROR in it.
ends() {
    status=0
    sh -c "$4" >out 2>err || status=$?
    [ "$status" = "$1" ] || fail "status $status, not $1, of: $4"
    case $(cat out) in "$2"*) ;; *) fail "printed $(cat out), of: $4" ;; esac
    case $(cat err) in *"$3"*) ;; *) fail "said $(cat err), of: $4" ;; esac
    [ "$(cksum d0.img d1.img)" = "$before" ] || fail "an image was changed, of: $4"
}

for input in "" "<&-"; do
    for error in "" "2>&-"; do
        ends 0 "slot 0 sectors 65536" "" "./ddf d0.img d1.img -- examine $input $error"
        ends 6 "" "" "./ddf d0.img d1.img -- examine $input >&- $error"
        ends 1 "refused 11 slot 0 not blank" "" "./ddf d0.img d1.img -- label $input $error"
        ends 6 "" "" "./ddf d0.img d1.img -- label $input >&- $error"
        ends 6 "" "" "./ddf d0.img d1.img $input >&- $error"
        ends 3 "slot 0 fault" "" "./ddf missing.img d0.img -- examine $input $error"
        ends 6 "" "" "./ddf missing.img d0.img -- examine $input >&- $error"
    done
done
ends 6 "" "ddf: the output failed" "./ddf d0.img -- examine >&-"
./ddf d0.img -- examine >&- 2>err || true
case $(cat err) in *"may have been done"*) fail "said that examine may have done something" ;; esac
echo "edge: no image becomes a closed stream"

ends 3 "slot 0 fault" "missing.img can't be opened: No such file" "./ddf missing.img -- examine"
ends 3 "disk fault slot 0" "missing.img can't be opened: No such file" "./ddf missing.img d1.img -- label"
[ ! -e missing.img ] || fail "missing.img was made"
ends 3 "slot 0 fault" ". can't be opened: is a directory" "./ddf . -- examine"
ends 3 "disk fault slot 0" ". can't be opened: is a directory" "./ddf . d1.img -- label"
ends 0 "slot 0 blank" "" "./ddf empty.img -- examine"
for command in assemble "create a raid0 0 single 0@8" "delete a" "spare 0 off" "fail 0"; do
    ends 3 "" "nothing was done" "./ddf d0.img missing.img -- $command"
done
ends 3 "slot 0 fault" "pipe can't be opened" "timeout 20 ./ddf pipe -- examine"
echo "edge: paths that are no disks are told with their reasons"

for other in ./d0.img link.img hard.img; do
    ends 2 "refused 10 word 1" "$other is the same disk as slot 0" "./ddf d0.img $other -- examine"
    ends 2 "refused 10 word 2" "$other is the same disk as slot 0" "./ddf d0.img d1.img $other -- label"
done
echo "edge: one disk under two names is refused"

ends 2 "refused 10 word 0" "Usage: ddf" "./ddf"
ends 2 "refused 10 word 1" "d0.img is named twice" "./ddf d0.img d0.img -- examine"
ends 2 "refused 10 word 64" "more than 64 images" "./ddf $(seq -s ' ' 65) -- examine"
ends 2 "refused 10 word 2" "there is no command list" "./ddf d0.img -- list"
ends 2 "refused 10 word 3" "64 is no slot's number" "./ddf d0.img -- label 64"
ends 2 "refused 10 word 4" "slot 0 is named twice" "./ddf d0.img -- label 0 d0.img"
ends 1 "refused 11 slot 0" "" "./ddf d0.img d1.img -- label d1.img d0.img"
ends 2 "refused 10 word 1" "there is no --" "./ddf d0.img"
ends 2 "refused 10 word 4" "it wants a level: raid0" "./ddf d0.img -- create a raid9"
ends 2 "refused 10 word 4" "read wants more arguments: the first block" "./ddf d0.img -- read a"
ends 2 "refused 10 word 0" "isn't UTF-8 text" "./ddf \"\$(printf 'a\\377')\" -- examine"
ends 3 "slot 0 fault" 'a\nb\u{1b}[2J can'"'"'t be opened' "./ddf \"\$(printf 'a\\nb\\033[2J')\" -- examine"
for word in --help -h help; do
    ends 0 "Usage: ddf" "" "./ddf $word"
done
echo "edge: wrong words are told"

ends 0 "" "" "./ddf d0.img -- batch </dev/null"
ends 0 "group" "" "echo show | ./ddf d0.img -- batch"
ends 1 "refused 10 word 0" "" "echo read a 0 1 | ./ddf d0.img -- batch"
ends 1 "refused 36 batch over 65536" "" "yes show | head -c 65537 | ./ddf d0.img -- batch"
ends 1 "refused 12 no group" "" "echo show | ./ddf d1.img -- batch"
ends 2 "refused 10 word 3" "batch doesn't take the argument x: it wants nothing more there" "./ddf d0.img -- batch x"
ends 3 "" "nothing was done" "echo show | ./ddf d0.img missing.img -- batch"
ends 6 "" "ddf: standard input failed: no line was run" "./ddf d0.img -- batch <&-"
ends 6 "" "ddf: the output failed" "echo show | ./ddf d0.img -- batch >&-"
# A byte past 7F of an input that is no text is no byte of an image's path, such as the 7F that it counted as once.
cp --sparse=always d0.img "$(printf 'e\177.img')"
for byte in 200 377; do
    ends 1 "refused 10 word 1" "" "printf 'spare e\\$byte.img global\\n' | ./ddf e?.img -- batch"
done
ends 0 "ok sequence 2" "" "printf 'spare e\\177.img global\\n' | ./ddf e?.img -- batch"
rm e?.img
echo "edge: lines of a batch are run"

# Root may write to everything, so that another user is asked for.
user=
if [ "$(id -u)" = 0 ]; then
    user="setpriv --reuid=65534 --regid=65534 --clear-groups"
fi
chmod 444 d0.img d1.img
if $user true 2>/dev/null; then
    ends 0 "slot 0 sectors 65536" "" "$user ./ddf d0.img d1.img -- examine"
    ends 0 "group" "" "$user ./ddf d0.img d1.img -- show"
    ends 3 "disk fault slot 0" "d1.img can't be opened: Permission denied" "$user ./ddf d1.img -- label"
    echo "edge: disks that may not be written are examined and shown, and not labelled"
else
    lacks "disks that may not be written: no other user can be asked"
fi
chmod 644 d0.img d1.img

if command -v flock >/dev/null; then
    for command in label assemble "fail 0"; do
        ends 3 "" "another program holds a lock on it" "flock d0.img ./ddf d0.img -- $command"
        ends 3 "" "another program holds a lock on it" "flock -s d0.img ./ddf d0.img -- $command"
    done
    ends 3 "slot 0 fault" "another program holds a lock on it" "flock d1.img ./ddf d1.img -- examine"
    ends 0 "slot 0 blank" "" "flock -s d1.img ./ddf d1.img -- examine"
    ends 0 "group" "" "flock -s d0.img ./ddf d0.img -- show"
    ends 3 "" "another program holds a lock on it" "flock d0.img ./ddf d0.img -- show"
    echo "edge: a disk that another program has locked isn't written, and isn't read while that one writes"
else
    lacks "locked disks: no flock"
fi

if loop=$(losetup -r -f --show d1.img 2>/dev/null); then
    trap 'losetup -d "$loop"; rm -rf "$work"' EXIT
    ends 3 "disk fault slot 0" "it is protected from writes" "./ddf $loop -- label"
    ends 0 "slot 0 blank" "" "./ddf $loop -- examine"
    losetup -d "$loop"
    trap 'rm -rf "$work"' EXIT
    echo "edge: a protected device is examined, and not labelled"
else
    lacks "a protected device: no loop devices"
fi

mkdir folder
if mkfs.ext4 -q new.img 2>/dev/null && mount -o loop new.img folder 2>/dev/null; then
    trap 'umount folder; rm -rf "$work"' EXIT
    loop=$(findmnt -n -o SOURCE folder)
    ends 3 "disk fault slot 0" "it is mounted" "./ddf $loop -- label"
    umount folder
    trap 'rm -rf "$work"' EXIT
    echo "edge: a mounted device isn't labelled"
else
    lacks "a mounted device: nothing can be mounted"
fi

if command -v strace >/dev/null; then
    strace -o calls -e trace=write,pwrite64,fsync ./ddf new.img -- label >/dev/null
    case $(grep -B 1 '"ok sequence 1' calls | head -n 1) in
    "fsync("*" = 0") echo "edge: a disk is synced before it is said to be labelled" ;;
    *) fail "no sync of a labelled disk" ;;
    esac
else
    lacks "syncs: no strace"
fi

# Groups of their own, which commands may change.
truncate -s 32M g0.img g1.img g2.img
printf x | dd of=g2.img bs=1 seek=1000 conv=notrunc 2>/dev/null
ends 0 "ok sequence 1" "slot 2 (g2.img) isn't empty" "./ddf g0.img g1.img g2.img -- label"
case $(cat err) in *"slot 0 (g0.img) isn't empty"*) fail "called an empty disk not empty" ;; esac
ends 0 "ok sequence 2" "" "./ddf g0.img g1.img g2.img -- create v raid1 0 single 0,1@64"
echo "edge: a disk that isn't empty is named before it is labelled"

group_of() {
    ./ddf "$1" -- examine 2>/dev/null | sed -n 's/^slot 0 .* group \([0-9a-f]*\) .*/\1/p'
}
in_one=
for attempt in 1 2 3 4 5 6 7 8; do
    rm -f a.img b.img
    truncate -s 32M a.img b.img
    second=$(date +%s)
    ./ddf a.img -- label >/dev/null
    ./ddf b.img -- label >/dev/null
    if [ "$(date +%s)" = "$second" ]; then
        in_one=yes
        break
    fi
done
if [ -n "$in_one" ]; then
    [ "$(group_of a.img)" != "$(group_of b.img)" ] || fail "two groups have one GUID"
    echo "edge: two groups that were made in one second have different GUIDs"
else
    echo "edge: no two groups were made in one second here"
fi

for name in 0 1 2; do
    cp "g$name.img" "h$name.img"
    cp "g$name.img" "k$name.img"
done
ends 6 "" "may have been done; show tells" "./ddf h0.img h1.img h2.img -- spare 2 global >&-"
ends 0 "ok sequence" "slot 2 (h2.img) is a spare for all arrays now" "./ddf h0.img h1.img h2.img -- spare h2.img global"
ends 0 "ok sequence" "slot 2 (h2.img) is out of use now" "./ddf h0.img h1.img h2.img -- fail h2.img"
printf x | dd of=h1.img bs=1 seek=$((32 * 1024 * 1024 - 400)) conv=notrunc 2>/dev/null
ends 0 "group" "slot 1 (h1.img) shows no member: the anchor in its last sector is damaged" "./ddf h0.img h1.img h2.img -- assemble"
case $(cat err) in
*"is absent, and the group goes on without it for good: no image shows it"*"array v blocks 64 degraded"*) ;;
*) fail "said $(cat err), of a disk that was lost" ;;
esac
sum=$(cksum k0.img k2.img)
ends 0 "group" "missing.img can't be opened: No such file" "./ddf k0.img missing.img k2.img -- show"
case $(cat out) in *" absent"*"array v blocks 64 degraded marked"*) ;; *) fail "showed $(cat out)" ;; esac
ends 0 "group" "" "./ddf k0.img k2.img -- show"
[ ! -s err ] || fail "said $(cat err), where nothing is lost"
[ "$(cksum k0.img k2.img)" = "$sum" ] || fail "show changed an image"
ends 0 "group" "a batch does so at its first line that changes the group" "echo show | ./ddf k0.img k2.img -- batch"
[ "$(cksum k0.img k2.img)" = "$sum" ] || fail "show in a batch changed an image"
ends 0 "group" "for good: no image of it was named" "./ddf k0.img k2.img -- assemble"
ends 0 "group" "" "./ddf k0.img k2.img -- assemble"
[ ! -s err ] || fail "said $(cat err), where nothing was lost"
echo "edge: what a command loses and does is told on standard error"

# The input of `write`: a file, a pipe that gives its bytes slowly, one that ends too soon, none at all, a folder, of which a read fails, and one that ends in the second
# piece of 2048 blocks.
truncate -s 32M w0.img w1.img
ends 0 "ok sequence 1" "" "./ddf w0.img w1.img -- label"
ends 0 "ok sequence 2" "" "./ddf w0.img w1.img -- create v raid1 0 single 0,1@4096"
ends 1 "refused 24 marked" "" "./ddf w0.img w1.img -- write v 0 4 <d0.img"
ends 0 "ok sequence 3" "" "./ddf w0.img w1.img -- resync v"
head -c 1048576 /dev/urandom >bytes
ends 0 "ok sequence 5" "" "./ddf w0.img w1.img -- write v 5 2048 <bytes"
./ddf w0.img w1.img -- read v 5 2048 | cmp - bytes || fail "other bytes were written than a file has"
ends 0 "ok sequence 7" "" "{ head -c 700; sleep 1; head -c 3396; } <bytes | ./ddf w0.img w1.img -- write v 0 8"
./ddf w1.img -- read v 0 8 | cmp -n 4096 - bytes || fail "other bytes were written than a pipe gives"
sum=$(cksum w0.img w1.img)
ends 1 "refused 32 short payload 1000" "" "head -c 1000 bytes | ./ddf w0.img w1.img -- write v 0 2"
ends 1 "refused 26 range 4096" "" "./ddf w0.img w1.img -- write v 4095 2 <bytes"
for input in "<&-" "<."; do
    ends 6 "" "standard input failed: nothing was written, or whole pieces of 2048 blocks were; show tells whether the array is marked" "./ddf w0.img w1.img -- write v 0 2 $input"
done
[ "$(cksum w0.img w1.img)" = "$sum" ] || fail "an image was written to without the bytes of its blocks"
ends 0 "ok sequence 9" "" "{ ./ddf w0.img w1.img -- write v 0 1; cat >rest; } <bytes"
[ "$(wc -c <rest)" = $((1048576 - 512)) ] || fail "write took other bytes than those of its block: $(wc -c <rest) were left"
head -c 2097152 /dev/urandom >long
ends 7 "cut 2048 sequence 11" "" "head -c 1572864 long | ./ddf w0.img w1.img -- write v 0 4096"
[ ! -s err ] || fail "said $(cat err), of an input that ended behind the first piece"
./ddf w1.img -- read v 0 2053 2>/dev/null | tail -c 2560 >behind
tail -c 2560 bytes | cmp - behind || fail "blocks were written of which only some bytes came"
./ddf w1.img -- read v 0 2048 2>/dev/null | cmp -n 1048576 - long || fail "the first piece of an input that ended early isn't written"
ends 0 "ok sequence 13" "" "{ ./ddf w0.img w1.img -- write v 0 4095; cat >rest; } <long"
[ "$(wc -c <rest)" = 512 ] || fail "write took other bytes than those of its pieces: $(wc -c <rest) were left"
./ddf w1.img -- read v 0 4095 2>/dev/null | cmp -n 2096640 - long || fail "other bytes were written than a file of two pieces has"
echo "edge: write takes the bytes of its blocks from files and pipes, and no more"

# A disk of an array is left out of the words, and a spare is filled in its place. Once more there is nothing to fill.
truncate -s 32M r0.img r1.img r2.img
ends 0 "ok sequence 1" "" "./ddf r0.img r1.img r2.img -- label"
ends 0 "ok sequence 2" "" "./ddf r0.img r1.img r2.img -- create v raid1 3 single 0,1@4096"
ends 0 "ok sequence 3" "" "./ddf r0.img r1.img r2.img -- resync v"
ends 0 "ok sequence 5" "" "./ddf r0.img r1.img r2.img -- write v 0 2048 <bytes"
ends 2 "refused 10 word 5" "the name of an array" "./ddf r0.img r1.img r2.img -- rebuild"
ends 0 "ok sequence 6" "" "./ddf r0.img r1.img r2.img -- spare 2 global"
ends 0 "ok sequence 10" "is absent, and the group goes on without it for good: no image of it was named" "./ddf r0.img r2.img -- rebuild v"
./ddf r0.img r2.img -- show | grep -q "^array v blocks 4096 optimal$" || fail "an array isn't optimal once it was rebuilt"
./ddf r2.img -- read v 0 2048 2>/dev/null | cmp - bytes || fail "a rebuilt disk holds other bytes than those that were written"
sum=$(cksum r0.img r2.img)
ends 0 "ok sequence 10" "" "./ddf r0.img r2.img -- rebuild v"
[ "$(cksum r0.img r2.img)" = "$sum" ] || fail "an image was written to though there was nothing to rebuild"
echo "edge: a spare is filled in the place of a disk that was left out of the words"

# A revertible spare gives its place back to a new disk.
truncate -s 32M c0.img c1.img c2.img c3.img
ends 0 "ok sequence 1" "" "./ddf c0.img c1.img c2.img c3.img -- label"
ends 0 "ok sequence 2" "" "./ddf c0.img c1.img c2.img c3.img -- create v raid1 3 single 0,1@4096"
ends 0 "ok sequence 3" "" "./ddf c0.img c1.img c2.img c3.img -- resync v"
ends 0 "ok sequence 5" "" "./ddf c0.img c1.img c2.img c3.img -- write v 0 2048 <bytes"
ends 0 "ok sequence 6" "slot 2 (c2.img) is a revertible spare for all arrays now" "./ddf c0.img c1.img c2.img c3.img -- spare c2.img revertible"
ends 2 "refused 10 word 7" "a slot's number from 0 to 63, or its image" "./ddf c0.img c1.img c2.img c3.img -- copyback v x"
ends 1 "refused 38" "No position of the array is held by a revertible spare" "./ddf c0.img c1.img c2.img c3.img -- copyback v c3.img"
ends 0 "ok sequence 10" "" "./ddf c0.img c2.img c3.img -- rebuild v"
for command in show assemble; do
    ends 0 "group" "array v: slot 1 (c2.img) is a revertible spare that stands in for a lost disk; copyback v SLOT moves what it holds" "./ddf c0.img c2.img c3.img -- $command"
done
ends 1 "refused 33" "The disk in the slot is a spare, or the array lies on it" "./ddf c0.img c2.img c3.img -- copyback v c0.img"
! grep -q "holds the position" err || fail "said $(cat err) of a disk that the position can't go to"
ends 0 "ok sequence 11" "array v: slot 1 (c2.img) holds the position until a copyback to slot 2 (c3.img) is done" "./ddf c0.img c2.img c3.img -- copyback v c3.img"
grep -q "slot 2 (c3.img) holds the position now; slot 1 (c2.img) is a spare again" err || fail "said $(cat err), and not which image holds the position"
./ddf c3.img -- read v 0 2048 2>/dev/null | cmp - bytes || fail "a position that went back holds other bytes than those that were written"
ends 1 "refused 38" "No position of the array is held by a revertible spare" "./ddf c0.img c2.img c3.img -- copyback v c3.img"
! grep -q "is behind\|is absent" err || fail "said $(cat err), where all disks have the last change"
ends 1 "refused 38" "a member of the group is absent, and it may be the one that holds the position" "./ddf c0.img c3.img -- copyback v c3.img"
ends 0 "group" "" "./ddf c0.img c2.img c3.img -- show"
! grep -q "stands in" err || fail "said $(cat err), and no spare stands in"
echo "edge: a revertible spare gives its place back to a new disk"

# Disks for Linux.
silent_on_linux() {
    case $(cat err) in *Linux*) fail "said $(cat err), where nothing is to be said of Linux" ;; esac
}
linux_disks="l0.img l1.img l2.img l3.img l4.img l5.img"
new_linux_disks() {
    rm -f $linux_disks
    truncate -s 64M $linux_disks
    number=1
}
new_linux_group() {
    new_linux_disks
    ends 0 "ok sequence 1" "" "./ddf $linux_disks -- label linux"
    silent_on_linux
}
makes() {
    number=$((number + 1))
    ends 0 "ok sequence $number" "$2" "./ddf $linux_disks -- create a$number $1"
}
truncate -s 32M small.img plain.img
truncate -s $((512 * 65537)) enough.img
new_linux_disks
ends 0 "slot 0 blank" "" "./ddf l0.img -- examine"
silent_on_linux
ends 0 "ok sequence 1" "slot 0 (small.img): Linux doesn't take it: it has no more than 65536 sectors" "./ddf small.img l0.img -- label linux 0"
ends 0 "ok sequence 1" "" "./ddf small.img $linux_disks -- label linux $linux_disks"
silent_on_linux
ends 0 "ok sequence 1" "" "./ddf enough.img -- label linux"
silent_on_linux
for words in "raid0 3 single 0,1@128" "raid1 0 single 0,1@128" "raid1 0 single 0,1,2@128" "raid1 3 striped 0,1@128 2,3@128" "raid1 3 spanned 0,1@128 2,3@128" "raid1 3 striped 0,1,2@128 3,4,5@128" \
    "raid1e.adjacent 3 single 0,1,2@128" "raid1e.adjacent 3 single 0,1,2,3@128"; do
    makes "$words" ""
    silent_on_linux
done
new_linux_group
few_strips=": Linux doesn't start it: it has no strips of less than 4 KiB (code 3)"
makes "raid0 2 single 0,1@128" ""
makes "raid0 1 single 0,1@128" ": its strips are shorter than 2 KiB"
for words in "raid5.rn 2 single 0,1,2@128" "raid1 2 striped 0,1@128 2,3@128" "raid1e.adjacent 2 single 0,1,2@128"; do
    makes "$words" "$few_strips"
done
makes "raid1 0 single 0,1,2,3@128" ": Linux doesn't start it: it has no RAID 1 of four disks and more"
makes "raid4.first 7 single 0,1,2@128" ": Linux doesn't start it: it has no RAID 4 with its parity first"
makes "jbod 0 single 0@128" ": Linux doesn't start it: it has no JBOD"
makes "concat 0 single 0,1@128" ": Linux doesn't start it: it has no concatenation"
new_linux_group
for words in "raid0 7 striped 0,1@128 2,3@128" "raid1 7 concat 0,1@128 2,3@128" "raid1e.adjacent 3 striped 0,1,2@128 3,4,5@128"; do
    makes "$words" ": Linux doesn't start it: of several elements it has those of RAID 1 alone, striped or spanned"
done
for words in "raid1 7 striped 0,1@128 2,3,4@128" "raid1 3 spanned 0,1,2@128 3,4@128"; do
    makes "$words" ": Linux doesn't start it: of several elements it has those of equally many disks alone"
done
for words in "raid5.r0 3 single 0,1,2@128" "raid5.rn 7 single 0,1,2@128" "raid4.last 7 single 0,1,2@128"; do
    makes "$words" ": Linux doesn't start it without --force: nothing has made its parity agree with its data yet"
done
# Linux would read this level as another one, so it isn't made on its disks.
ends 1 "refused 18 level 11 RAID 1E" "a disk that Linux reads" "./ddf $linux_disks -- create e raid1e.offset 3 single 0,1,2@128"
truncate -s 64M m1.img m2.img
truncate -s 32M m0.img
ends 0 "ok sequence 1" "slot 0 (m0.img): Linux doesn't take it" "./ddf m0.img m1.img m2.img -- label linux"
small=" with all its disks: it takes none of 65536 sectors or less"
ends 0 "ok sequence 2" "array m: Linux doesn't start it$small" "./ddf m0.img m1.img m2.img -- create m raid1 0 single 0,1@128"
ends 0 "ok sequence 3" "array p: Linux doesn't start it$small" "./ddf m0.img m1.img m2.img -- create p raid5.rn 7 single 1,2,0@128"
ends 0 "ok sequence 4" "array j: Linux doesn't start it: it has no JBOD" "./ddf m0.img m1.img m2.img -- create j jbod 0 single 0@128"
ends 0 "ok sequence 5" "" "./ddf m0.img m1.img m2.img -- create n raid1 0 single 1,2@128"
silent_on_linux
echo "edge: what Linux doesn't take of its disks is told on standard error"

# Disks of the standard's kind, and the same commands.
ends 0 "ok sequence 1" "" "./ddf plain.img small.img -- label 0"
silent_on_linux
ends 0 "ok sequence 2" "" "./ddf plain.img -- create j jbod 0 single 0@128"
silent_on_linux
truncate -s 32M s0.img s1.img
ends 0 "ok sequence 1" "" "./ddf s0.img s1.img -- label"
silent_on_linux
ends 0 "ok sequence 2" "" "./ddf s0.img s1.img -- create mir raid1 0 single 0,1@128"
ends 0 "ok sequence 3" "" "./ddf s0.img s1.img -- accept mir"
for command in show assemble "read mir 0 1"; do
    ends 0 "" "" "./ddf s0.img s1.img -- $command"
    silent_on_linux
done
echo "edge: of disks of the standard's kind nothing is told of Linux"

# Arrays whose first resync Linux may have left: redundant ones that aren't marked, and none else.
new_linux_group
makes "raid0 3 single 0,1@128" ""
makes "raid1 0 single 0,1@128" ""
makes "raid1 0 single 2,3@128" ""
makes "raid5.rn 7 single 0,1,2@128" ""
for command in show assemble "read a3 0 1"; do
    ends 0 "" "" "./ddf $linux_disks -- $command"
    ! grep -q "first resync" err || fail "said $(cat err), of arrays that are marked or not redundant"
done
ends 0 "ok sequence 6" "" "./ddf $linux_disks -- accept a3"
for command in show assemble "read a2 0 1"; do
    ends 0 "" "ddf: array a3: Linux had not finished its first resync; blocks that need parity may be wrong" "./ddf $linux_disks -- $command"
    [ "$(grep -c "first resync" err)" = 1 ] || fail "said $(cat err), where one array is accepted"
done
echo "edge: the arrays whose first resync Linux may have left are told, and no others"

# The word linux, and an image of that name.
rm -f enough.img
truncate -s 64M ./linux enough.img
once="label doesn't take the argument linux: it wants linux first and once, and a slot's number or image there"
ends 2 "refused 10 word 4" "$once" "./ddf enough.img -- label linux linux"
ends 2 "refused 10 word 4" "$once" "./ddf enough.img -- label 0 linux"
taken="ddf: linux is taken for the image of slot 1: with ./linux for that image it makes disks for Linux"
ends 1 "refused 14 no slot 5" "$taken" "./ddf enough.img linux -- label linux 5"
ends 0 "ok sequence 1" "$taken" "./ddf enough.img linux -- label linux"
case $(cat err) in *"slot 1 (linux) is labelled now"*) ;; *) fail "said $(cat err), of the image linux" ;; esac
ends 0 "slot 0 blank" "" "./ddf enough.img linux -- examine"
silent_on_linux
ends 1 "refused 11 slot 1" "" "./ddf enough.img linux -- label 1"
silent_on_linux
ends 0 "ok sequence 2" "" "./ddf linux -- spare linux global"
silent_on_linux
ends 1 "refused 11 slot 1" "" "./ddf enough.img ./linux -- label linux"
silent_on_linux
once="label doesn't take the argument large: it wants large once, first or directly behind linux, and a slot's number or image there"
ends 2 "refused 10 word 4" "$once" "./ddf enough.img -- label large large"
ends 2 "refused 10 word 4" "$once" "./ddf enough.img -- label 0 large"
truncate -s 64M ./large
taken="ddf: large is taken for the image of slot 1: with ./large for that image it makes disks of a large group"
ends 1 "refused 14 no slot 5" "$taken" "./ddf enough.img large -- label large 5"
ends 1 "refused 14 no slot 5" "$taken" "./ddf enough.img large -- label linux large 5"
ends 0 "ok sequence 1" "$taken" "./ddf enough.img large -- label large"
ends 0 "slot 0 blank" "" "./ddf enough.img large -- examine"
ends 0 "ok sequence 1" "" "./ddf enough.img ./large -- label large 0"
rm -f ./large
echo "edge: the words linux and large are told from images of these names"

if command -v script >/dev/null; then
    truncate -s 32M t.img
    printf x | dd of=t.img bs=1 seek=1000 conv=notrunc 2>/dev/null
    sum=$(cksum t.img)
    ends 3 "" "" "(sleep 1; echo n) | script -qec './ddf t.img -- label' /dev/null"
    case $(cat out) in *"t.img) isn't empty"*"go on?"*"nothing was done"*) ;; *) fail "asked $(cat out)" ;; esac
    [ "$(cksum t.img)" = "$sum" ] || fail "t.img was labelled"
    ends 0 "" "" "(sleep 1; echo y) | script -qec './ddf t.img -- label' /dev/null"
    case $(cat out) in *"ok sequence 1"*) ;; *) fail "answered $(cat out)" ;; esac
    echo "edge: on a terminal it asks before it labels a disk that isn't empty"

    # A command that writes for some seconds tells how far it is.
    far() {
        begun=$(date +%s)
        ends 0 "" "" "script -qec './ddf far0.img far1.img far2.img -- $1' /dev/null"
        if [ $(($(date +%s) - begun)) -ge 3 ]; then
            case $(cat out) in *"ddf: "*" %, "*" of "*"iB, "*"iB/s, "*" to go"*"ok sequence"*) ;; *) fail "$1 told $(cat out)" ;; esac
            echo "edge: $1 tells on a terminal how far it is"
        else
            echo "edge: $1 took too short a time to tell how far it was"
        fi
    }
    if [ "$(df --output=avail -m . | tail -1)" -gt 8000 ]; then
        truncate -s 2G far0.img far1.img far2.img
        ./ddf far0.img far1.img far2.img -- label >/dev/null 2>&1
        ./ddf far0.img far1.img far2.img -- create far raid1 0 single 0,1@4000000 >/dev/null 2>&1
        far "resync far"
        ./ddf far0.img far1.img far2.img -- spare 2 global >/dev/null 2>&1
        ./ddf --yes far0.img far1.img far2.img -- fail 1 >/dev/null 2>&1
        far "rebuild far"
        rm far0.img far1.img far2.img
    else
        lacks "how far a command is: no room for large disks"
    fi
else
    lacks "terminals: no script"
fi

# What the system gives too little of: room for the output, a reader of it, descriptors, room in files, chance. Nothing is done that wasn't told, or the line says so.
truncate -s 32M q0.img q1.img q2.img
ends 0 "ok sequence 1" "" "./ddf q0.img q1.img q2.img -- label"
ends 0 "ok sequence 2" "" "./ddf q0.img q1.img q2.img -- create v raid1 0 single 0,1@64"
ends 6 "" "ddf: the output failed" "./ddf q0.img q1.img q2.img -- show >/dev/full"
ends 6 "" "may have been done; show tells" "./ddf q0.img q1.img q2.img -- accept v >/dev/full"
ends 0 "" "may have been done; show tells" "{ sleep 1; ./ddf q0.img q1.img q2.img -- spare 2 global; } | true"
ends 0 "group" "" "./ddf q0.img q1.img q2.img -- show"
grep -q "sequence 4$" out || fail "a change whose output failed wasn't made: $(cat out)"
sum=$(cksum q0.img q1.img q2.img)
ends 3 "" "Too many open files" "ulimit -n 8; ./ddf q0.img q1.img q2.img -- spare 2 off"
ends 3 "" "nothing was done" "ulimit -n 8; ./ddf q0.img q1.img q2.img -- delete v"
[ "$(cksum q0.img q1.img q2.img)" = "$sum" ] || fail "a group was changed without descriptors for its disks"
ends 3 "disk fault slot 0" "" "trap '' XFSZ; ulimit -f 100; ./ddf q0.img q1.img q2.img -- spare 2 off"
status=0
sh -c "ulimit -f 100; exec ./ddf q0.img q1.img q2.img -- spare 2 off" >out 2>err || status=$?
[ "$status" -gt 128 ] || fail "status $status where the system kills who writes too far"
ends 0 "group" "" "./ddf q0.img q1.img q2.img -- assemble"
case $(cat out) in *"sequence 4"*"spare global"*) ;; *) fail "a change that no disk took counts: $(cat out)" ;; esac
if unshare -m true 2>/dev/null; then
    for command in label "create w jbod 0 single 0@4"; do
        ends 6 "" "no names can be made without random numbers" "unshare -m sh -c 'mount --bind /dev/null /dev/urandom && ./ddf q0.img q1.img q2.img -- $command'"
    done
    ends 0 "group" "" "unshare -m sh -c 'mount --bind /dev/null /dev/urandom && ./ddf q0.img q1.img q2.img -- show'"
    echo "edge: names are made by chance alone"
else
    echo "edge: nothing can be mounted here, so chance wasn't taken away"
fi
echo "edge: where the system gives too little nothing is done, or it is told"

# Files that are no disks, but can be opened, and the largest disks there can be.
for file in /dev/null /dev/zero /dev/full; do
    ends 3 "slot 0 fault" "$file can't be opened: it is a character device" "timeout 20 ./ddf $file -- examine"
    ends 3 "disk fault slot 0" "$file can't be opened: it is a character device" "timeout 20 ./ddf $file -- label"
    ends 3 "" "$file can't be opened: it is a character device" "timeout 20 ./ddf q0.img q1.img q2.img $file -- assemble"
done
mkdir -p large
if mount -t tmpfs -o size=1M none large 2>/dev/null; then
    trap 'umount "$work/large"; rm -rf "$work"' EXIT
    truncate -s 9223372036854775807 large/x.img
    ends 0 "slot 0 blank" "" "./ddf large/x.img -- examine"
    ends 0 "ok sequence 1" "" "./ddf large/x.img -- label"
    ends 0 "ok sequence 2" "" "./ddf large/x.img -- create j jbod 0 single 0@281474976710656"
    head -c 512 bytes >block
    ends 0 "ok sequence 2" "" "./ddf large/x.img -- write j 281474976710655 1 <block"
    ./ddf large/x.img -- read j 281474976710655 1 | cmp - block || fail "other bytes were read than were written, far out"
    ends 1 "refused 26 range 281474976710656" "" "./ddf large/x.img -- read j 281474976710656 1"
    umount large
    trap 'rm -rf "$work"' EXIT
    echo "edge: a disk of 8 EiB is labelled, written and read"
else
    echo "edge: nothing can be mounted here, so no disk of 8 EiB was tried"
fi

# Changes of the group, one after another.
change_often() {
    for round in 1 2 3 4 5 6 7 8 9 10; do
        ./ddf g0.img g1.img g2.img -- create u raid0 0 single 0,1@8 || true
        ./ddf g0.img g1.img g2.img -- delete u || true
    done
}
change_often >changes 2>/dev/null &
writer=$!
while kill -0 "$writer" 2>/dev/null; do
    status=0
    ./ddf g0.img g1.img g2.img -- read v 0 64 >out 2>err || status=$?
    [ "$status" != 4 ] || fail "a reader beside a writer printed $(cat out)"
done
wait "$writer" || true
echo "edge: readers beside $(grep -c '^ok' changes || true) changes met no contradiction"

if command -v flock >/dev/null && strace -o calls -e inject=fsync:delay_enter=1:when=1 true 2>/dev/null; then
    strace -o calls -e trace=fsync -e inject=fsync:delay_enter=6000000:when=1 \
        ./ddf g0.img g1.img g2.img -- spare 2 global >late 2>&1 &
    writer=$!
    sleep 2
    for image in g0.img g1.img g2.img; do
        ! flock -n -s "$image" true || fail "$image isn't locked while it may be written"
    done
    ends 3 "slot 0 fault" "another program holds a lock on it" "./ddf g0.img -- examine"
    wait "$writer" || fail "a writer ended so: $(cat late)"
    strace -o calls -e trace=pread64 -e inject=pread64:delay_enter=6000000:when=20 \
        ./ddf g0.img g1.img g2.img -- examine >late 2>&1 &
    reader=$!
    sleep 2
    for image in g0.img g1.img g2.img; do
        ! flock -n "$image" true || fail "$image isn't locked while it is read"
    done
    ends 0 "slot 0 sectors" "" "./ddf g0.img -- examine"
    ends 3 "" "nothing was done" "./ddf g0.img g1.img g2.img -- spare 2 off"
    wait "$reader" || fail "a reader ended so: $(cat late)"
    echo "edge: disks are locked as long as a command runs"
else
    lacks "the program's own locks: no flock, or no strace that delays calls"
fi
all_tried edge
