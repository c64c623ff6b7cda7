#!/bin/sh
# What the program asks, names and explains on standard error: questions at a terminal, --careful and --yes, disks that hold something, disks that can't be written
# to, readers beside writers, help, a line for each refusal, and what a command left that a disk failed under. scripts/edge.sh has what else is around the program.
#
#   asking.sh [PROGRAM [OTHER]]     with another program than the one that is built here, which DDF may name too, where OTHER makes the
#                                   groups that it is tried on
set -eu
LC_ALL=C
export LC_ALL
PATH=$PATH:/sbin:/usr/sbin
unset DDF_CAREFUL
top=$(cd "$(dirname "$0")/.." && pwd)
# shellcheck disable=SC1091
. "$top/scripts/lacking.sh"
work=$(mktemp -d)
last=
trap 'eval "$last"; rm -rf "$work"' EXIT
if [ $# -gt 0 ]; then
    cp "$1" "$work/ddf"
else
    [ -n "${DDF:-}" ] || "$top/ddf" --version >/dev/null
    cp "${DDF:-$top/crates/ddf/out/ddf}" "$work/ddf"
fi
cd "$work"
exec </dev/null
chmod 755 . ddf
maker=${2:-./ddf}
missed=0

# With KEEP_GOING in the environment what fails is told, and the others are tried.
fail() {
    echo "asking: $*" >&2
    missed=$((missed + 1))
    [ -n "${KEEP_GOING:-}" ] || exit 1
}

# ends STATUS OUTPUT ERROR COMMAND: the shell runs the command, which ends so, prints what begins with OUTPUT, and says what has ERROR in it.
ends() {
    status=0
    sh -c "$4" >out 2>err </dev/null || status=$?
    [ "$status" = "$1" ] || fail "status $status, not $1, of: $4 ($(cat out err))"
    case $(cat out) in "$2"*) ;; *) fail "printed $(cat out), of: $4" ;; esac
    says "$3" "$4"
}

# says TEXT COMMAND: standard error of the last run has the text in it.
says() {
    case $(cat err) in *"$1"*) ;; *) fail "said $(cat err), not $1, of: ${2:-the last}" ;; esac
}

# says_in FILE TEXT: the file has the text in it.
says_in() {
    case $(cat "$1") in *"$2"*) ;; *) fail "$1 has $(cat "$1"), and not $2" ;; esac
}

# silent TEXT: standard error of the last run doesn't have the text in it.
silent() {
    case $(cat err) in *"$1"*) fail "said $(cat err)" ;; esac
}

# same IMAGE..: they are as when `sum` was taken.
same() {
    [ "$(cksum "$@")" = "$sum" ] || fail "an image was changed: $*"
}

# group NAME: three disks NAME0.img to NAME2.img with an array v on the first two, of one group.
group() {
    for disk in 0 1 2; do
        cp --sparse=always "made$disk.img" "$1$disk.img"
    done
}

# make_group NAME: the same, as a group of its own.
make_group() {
    rm -f "$1"0.img "$1"1.img "$1"2.img
    truncate -s 17M "$1"0.img "$1"1.img "$1"2.img
    "$maker" "$1"0.img "$1"1.img "$1"2.img -- label >/dev/null 2>&1
    "$maker" "$1"0.img "$1"1.img "$1"2.img -- create v raid1 0 single 0,1@64 >/dev/null 2>&1
    "$maker" --yes "$1"0.img "$1"1.img "$1"2.img -- accept v >/dev/null 2>&1
}
make_group made

# typed ANSWER STATUS SHOWN COMMAND: somebody at a terminal answers so, the command ends so, and the terminal shows what has SHOWN in it.
typed() {
    status=0
    (sleep 1; printf '%s' "$1") | script -qec "$4" /dev/null >out 2>err || status=$?
    [ "$status" = "$2" ] || fail "status $status, not $2, where '$1' was typed at: $4 ($(cat out))"
    case $(cat out) in *"$3"*) ;; *) fail "the terminal shows $(cat out), where '$1' was typed at: $4" ;; esac
}

head -c 1048576 /dev/urandom >bytes
line='
'

# ---- questions

if command -v script >/dev/null; then
    for answer in y Y yes; do
        rm -f t.img
        truncate -s 17M t.img
        printf x | dd of=t.img bs=1 seek=1000 conv=notrunc 2>/dev/null
        typed "$answer$line" 0 "ok sequence 1" "./ddf t.img -- label"
    done
    rm -f t.img
    truncate -s 17M t.img
    printf x | dd of=t.img bs=1 seek=1000 conv=notrunc 2>/dev/null
    group a
    make_group b
    other=$(./ddf b0.img -- examine 2>/dev/null | sed -n 's/^slot 0 .* group \([0-9a-f]*\) .*/\1/p')
    own=$(./ddf a0.img -- examine 2>/dev/null | sed -n 's/^slot 0 .* group \([0-9a-f]*\) .*/\1/p')
    "$maker" a0.img a1.img a2.img -- create w raid1 0 single 1,2@64 >/dev/null 2>&1
    sum=$(cksum t.img a?.img b?.img)
    for answer in n "" no YES maybe yy "y n"; do
        typed "$answer$line" 3 "nothing was done" "./ddf t.img -- label"
    done
    typed "$(printf '\004')" 3 "nothing was done" "./ddf t.img -- label"
    for answer in n yess; do
        typed "$answer$line" 3 "nothing was done" "./ddf a0.img a2.img -- assemble"
        typed "$answer$line" 3 "nothing was done" "./ddf a0.img a2.img -- spare 1 global"
        typed "$answer$line" 3 "nothing was done" "./ddf a0.img a2.img b0.img b1.img b2.img -- @$own import $other"
        typed "$answer$line" 3 "nothing was done" "./ddf a0.img a1.img a2.img -- fail 1"
        typed "$answer$line" 3 "nothing was done" "./ddf a0.img a1.img a2.img -- delete v"
        typed "$answer$line" 3 "nothing was done" "./ddf a0.img a1.img a2.img -- accept w"
        typed "$answer$line" 3 "nothing was done" "echo fail 1 | ./ddf a0.img a1.img a2.img -- batch"
        typed "$answer$line" 3 "line 2 (accept w) takes the mark of an array away, and compares nothing" "printf 'show\\naccept w\\n' | ./ddf a0.img a1.img a2.img -- batch"
        typed "$answer$line" 3 "nothing was done" "./ddf a0.img a2.img -- write v 0 1 <bytes"
    done
    same t.img a?.img b?.img
    typed "y$line" 0 "array w is marked, and accept compares nothing: from then on nothing tells that its copies may differ" "./ddf a0.img a1.img a2.img -- accept w"
    # Of an array that isn't marked nothing is lost.
    typed "" 0 "ok sequence" "./ddf a0.img a1.img a2.img -- accept w"
    case $(cat out) in *"go on?"*) fail "asked before an array is accepted that isn't marked" ;; esac
    typed "y$line" 0 "after that: array v blocks 64 degraded" "./ddf a0.img a1.img a2.img -- fail 1"
    typed "y$line" 0 "ok sequence" "./ddf a0.img a2.img -- write v 0 1 <bytes"
    typed "y$line" 0 "goes out of the records" "./ddf a0.img a1.img a2.img -- delete v"
    typed "" 0 "group" "./ddf --yes b0.img b2.img -- assemble"
    case $(cat out) in *"go on?"*) fail "asked, though --yes was given" ;; esac
    echo "asking: y, Y and yes are a yes, and nothing else is"

    # Where one of the three standard streams is a terminal somebody is asked, at the terminal itself.
    group a
    sum=$(cksum a?.img)
    for input in "" "</dev/null"; do
        for output in "" ">printed"; do
            for error in "" "2>said"; do
                [ "$input$output$error" != "</dev/null>printed2>said" ] || continue
                typed "n$line" 3 "go on? (y or n)" "./ddf a0.img a2.img -- assemble $input $output $error"
                case $error:$(cat out) in
                :*"is absent, and the group goes on without it for good"*"ddf: go on? (y or n)"*) ;;
                2*"standard error, which isn't this terminal, says what would be lost; go on?"*) says_in said "is absent, and the group goes on without it for good" ;;
                *) fail "the terminal shows $(cat out), of: assemble $input $output $error" ;;
                esac
                same a?.img
            done
        done
    done
    typed "n$line" 0 "go on?" "./ddf a0.img a2.img -- assemble 2>&1 | tee log"
    says_in log "ddf: nothing was done"
    typed "n$line" 3 "go on?" "./ddf a0.img a2.img -- write v 0 1 <bytes 2>said"
    typed "" 3 "" "DDF_CAREFUL=1 ./ddf a0.img a2.img -- assemble 2>said"
    says_in said "nothing was done, since --careful or DDF_CAREFUL was given"
    same a?.img
    typed "y$line" 0 "go on?" "./ddf a0.img a2.img -- assemble </dev/null 2>said"
    group a
    typed "" 0 "" "./ddf --yes a0.img a2.img -- assemble </dev/null 2>said"
    case $(cat out) in *"go on?"*) fail "asked, though --yes was given" ;; esac
    # Where none is one nobody is, and where there is no terminal to be opened.
    group a
    typed "" 0 "" "./ddf a0.img a2.img -- assemble </dev/null >printed 2>said"
    case $(cat out printed said) in *"go on?"*) fail "asked, though no stream is a terminal" ;; esac
    if command -v setsid >/dev/null; then
        group a
        typed "" 0 "sequence" "setsid -w ./ddf a0.img a2.img -- assemble </dev/null"
        case $(cat out) in *"go on?"*) fail "asked, though there is no terminal to be opened" ;; esac
    else
        lacks "a program without a terminal of its own: no setsid"
    fi
    echo "asking: it asks where one of the three standard streams is a terminal"
else
    lacks "questions at a terminal: no script"
fi

group a
"$maker" a0.img a1.img a2.img -- create w raid1 0 single 1,2@64 >/dev/null 2>&1
sum=$(cksum a?.img)
for care in "./ddf --careful" "DDF_CAREFUL=1 ./ddf" "DDF_CAREFUL=yes ./ddf"; do
    ends 3 "" "nothing was done, since --careful or DDF_CAREFUL was given" "$care a0.img a2.img -- assemble"
    says "is absent, and the group goes on without it for good: no image of it was named"
    for command in "fail 1" "delete v" "accept w"; do
        ends 3 "" "nothing was done, since --careful" "$care a0.img a1.img a2.img -- $command"
    done
    ends 0 "ok sequence" "" "$care a0.img a1.img a2.img -- accept v"
    ends 3 "" "line 2 (accept w) takes the mark of an array away" "printf 'show\naccept w\n' | env $care a0.img a1.img a2.img -- batch"
    ends 3 "" "line 2 (delete v) takes an array out of the records" "printf 'show\ndelete v\n' | env $care a0.img a1.img a2.img -- batch"
    # A byte in another line that is no text hides none.
    ends 3 "" "line 1 (fail 1) takes a disk out of use for good" "printf 'fail 1\n\\377\n' | env $care a0.img a1.img a2.img -- batch"
    ends 3 "" "line 2 (no text) takes an array out of the records" "printf 'show\ndelete \\377\n' | env $care a0.img a1.img a2.img -- batch"
    ends 0 "group" "" "$care a0.img a1.img a2.img -- show"
    ends 0 "group" "" "$care a0.img a1.img a2.img -- assemble"
done
ends 3 "slot 0 fault" "--yes is no option and no file" "./ddf --careful --yes a0.img -- examine"
same a?.img
ends 0 "group" "" "DDF_CAREFUL=1 ./ddf --yes a0.img a2.img -- assemble"
group a
for value in 0 ""; do
    ends 0 "ok sequence" "" "DDF_CAREFUL=$value ./ddf a0.img a2.img -- fail 1"
    group a
done
ends 1 "refused 33" "nothing was written, so no member was lost" "./ddf a0.img a2.img -- spare 0 off"
echo "asking: --careful does nothing where something would be lost, and --yes does it"

# ---- what a disk holds that is to be labelled

# holds SECTOR BYTE OCTAL TEXT: with these bytes there a disk of 32 MiB is named so.
holds() {
    rm -f t.img
    truncate -s 32M t.img
    printf "$3" | dd of=t.img bs=1 seek=$(($1 * 512 + $2)) conv=notrunc 2>/dev/null
    ends 0 "ok sequence 1" "slot 0 (t.img) isn't empty ($4): label makes it a disk of a new group" "./ddf t.img -- label"
}
holds 65279 0 '\336\021\336\021' "DDF records of a controller, 257 sectors before the end"
holds 65279 0 '\021\336\021\336' "DDF records of a controller, 257 sectors before the end, which this program doesn't read"
holds 65535 0 '\021\336\021\336' "DDF records of a controller, in the other byte order, which this program doesn't read"
holds 128 64 '_BHRfS_M' "btrfs"
holds 128 52 'ReIsErFs' "reiserfs"
holds 65408 0 '\374N+\251' "md 0.90"
holds 8 0 '\374N+\251' "md"
holds 2 56 '\123\357' "ext2, ext3 or ext4"
holds 1 0 'EFI PART' "GPT partitions"
for place in 2047 65024 65535; do
    rm -f t.img
    truncate -s 32M t.img
    printf x | dd of=t.img bs=1 seek=$((place * 512 + 511)) conv=notrunc 2>/dev/null
    ends 0 "ok sequence 1" "slot 0 (t.img) isn't empty: label makes it" "./ddf t.img -- label"
done
rm -f t.img
truncate -s 32M t.img
ends 0 "ok sequence 1" "" "./ddf t.img -- label"
silent "isn't empty"
group a
rm -f t.img
truncate -s 32M t.img
printf '\021\336\021\336' | dd of=t.img bs=1 seek=$((65279 * 512)) conv=notrunc 2>/dev/null
ends 0 "slot 0 blank" "slot 0 (t.img) has DDF records of a controller, 257 sectors before the end, which this program doesn't read" "./ddf t.img -- examine"
ends 0 "group" "slot 0 (t.img) has DDF records of a controller" "./ddf t.img a0.img a1.img a2.img -- show"
cp a1.img cut.img
truncate -s -10K cut.img
cp a1.img grown.img
truncate -s +1M grown.img
for image in cut grown; do
    ends 0 "group" "slot 1 ($image.img) shows no member: its last sector is no anchor" "./ddf a0.img $image.img a2.img -- show"
    ends 1 "refused 12" "slot 0 ($image.img) shows no member: its last sector is no anchor" "./ddf $image.img -- show"
    cp $image.img t.img
    ends 0 "ok sequence 1" "slot 0 (t.img) isn't empty" "./ddf t.img -- label"
done
ends 0 "group" "" "./ddf a0.img a1.img a2.img -- show"
[ ! -s err ] || fail "said $(cat err), of a group that is whole"
echo "asking: what a disk holds is named before it is labelled, and what is odd about disks that are looked at"

# ---- disks whose records end 256 sectors before their last one

# The disks of group a, but that disk 1 has so many sectors behind its anchor.
grow() {
    group a
    truncate -s +131072 a1.img
}
grow
sum=$(cksum a?.img)
early="slot 1 (a1.img): its records end 256 sectors before its end, as some controllers write them; it is served so"
for command in examine show "read v 0 1" "scrub v"; do
    ends 0 "" "$early" "./ddf a0.img a1.img a2.img -- $command"
    [ "$(grep -c "256 sectors before" err)" = 1 ] || fail "said more than once: $(cat err)"
    silent "slot 0 (a0.img): its records"
done
ends 0 "slot 1 sectors 34816 group" "" "./ddf a0.img a1.img a2.img -- examine | grep '^slot 1 '"
for command in assemble "fail 1" "spare 0 global" "resync v" "write v 0 1 <bytes"; do
    ends 3 "" "as some controllers write them; nobody tried on such a controller what is written here" "./ddf --careful a0.img a1.img a2.img -- $command"
    says "nothing was done, since --careful"
done
ends 3 "" "nobody tried on such a controller" "echo show | ./ddf --careful a0.img a1.img a2.img -- batch"
same a?.img
# What is written leaves the sectors behind the anchor as they were.
printf x | dd of=a1.img bs=1 seek=$((34817 * 512)) conv=notrunc 2>/dev/null
tail -c 131072 a1.img >behind
head -c 512 bytes >one
ends 0 "ok" "nobody tried on such a controller" "./ddf --yes a0.img a1.img a2.img -- write v 0 1 <one"
tail -c 131072 a1.img | cmp -s - behind || fail "a sector behind the end was written"
truncate -s -131072 a1.img
ends 0 "group" "" "./ddf a0.img a1.img a2.img -- show"
[ ! -s err ] || fail "said $(cat err), of a disk that was cut"
./ddf a0.img a1.img a2.img -- read v 0 1 | cmp -s - one || fail "what was written isn't read from the disk that was cut"
# To label it is a disk that isn't empty, and then one of the standard.
grow
ends 3 "" "slot 0 (a1.img) isn't empty (DDF records of a controller, 257 sectors before the end): label makes it" "./ddf --careful a1.img -- label"
ends 0 "ok sequence 1" "" "./ddf --yes a1.img -- label"
ends 0 "slot 0 sectors 35072 group" "" "./ddf a1.img -- examine"
silent "256 sectors before"
echo "asking: disks whose records end 256 sectors before the end are named, served, and asked about before they are written"

# ---- disks with one copy of their records, and RAID 5 of a vendor

# resealed IMAGE OFFSET BYTES SECTOR..: these bytes stand there in these sectors, which are counted from the end and sealed anew.
resealed() {
    python3 - "$@" <<'END'
import sys
import zlib

name, offset, digits, *places = sys.argv[1:]
start, written = int(offset), bytes.fromhex(digits)
with open(name, "r+b") as image:
    for place in places:
        image.seek(-512 * int(place), 2)
        sector = bytearray(image.read(512))
        sector[start:start + len(written)] = written
        sector[4:8] = b"\xff" * 4
        sector[4:8] = zlib.crc32(sector).to_bytes(4, "big")
        image.seek(-512 * int(place), 2)
        image.write(sector)
END
}

if command -v python3 >/dev/null; then
    nowhere=ffffffffffffffff
    group a
    resealed a1.img 104 $nowhere 1 41
    sum=$(cksum a?.img)
    for command in examine show; do
        ends 0 "" "slot 1 (a1.img) has one copy of its DDF records, and this program reads disks with two: mdadm -E reads it, if mdadm wrote it" "./ddf a0.img a1.img a2.img -- $command"
        silent "(a0.img) has one copy"
    done
    ends 0 "slot 0 damaged place" "slot 0 (a1.img) has one copy of its DDF records" "./ddf a1.img -- examine"
    ends 1 "refused 12" "slot 0 (a1.img) has one copy of its DDF records" "./ddf a1.img -- show"
    ends 1 "refused 11 slot 0 not blank" "" "./ddf a1.img -- label"
    same a?.img
    resealed a1.img 96 $nowhere 1
    ends 0 "slot 0 damaged place" "" "./ddf a1.img -- examine"
    silent "one copy"
    group a
    resealed a1.img 96 $nowhere 1
    ends 0 "slot 0 damaged place" "" "./ddf a1.img -- examine"
    silent "one copy"
    echo "asking: a disk with one copy of its records is named"

    # Controller data have the vendor at 32, and stand behind either header.
    make_group f
    ends 0 "ok" "" "./ddf f0.img f1.img f2.img -- create w raid5.rnc 7 single 0,1,2@1024"
    resealed f2.img 32 0590 40 80
    ends 0 "group" "" "./ddf f0.img f1.img f2.img -- show"
    silent 9005
    resealed f2.img 32 9005 40 80
    sum=$(cksum f?.img)
    for command in show assemble "read w 0 1"; do
        ends 0 "" "array w: its controller is of PCI vendor 9005 (Adaptec), and dmraid reads RAID 5 of these as left-asymmetric, whatever the records say: compare some files before you trust it" "./ddf f0.img f1.img f2.img -- $command"
        silent "array v"
    done
    same f?.img
    ends 0 "group" "" "./ddf f0.img f1.img -- show"
    silent 9005
    ends 0 "ok" "array w: its controller is of PCI vendor 9005" "./ddf f0.img f1.img f2.img -- delete w"
    ends 0 "group" "" "./ddf f0.img f1.img f2.img -- show"
    silent 9005
    echo "asking: of a RAID 5 of PCI vendor 9005 it is told that dmraid reads it otherwise"

    # RAID 6, which isn't served, in the place of RAID 5: what a loss means to it nothing tells, but that a disk of it goes.
    make_group f
    ends 0 "ok" "" "./ddf f0.img f1.img f2.img -- create w raid5.rnc 7 single 0,1,2@1024"
    for image in f0.img f1.img f2.img; do
        python3 - $image <<'END'
import sys
import zlib


def seal(record):
    record[4:8] = b"\xff" * 4
    return zlib.crc32(record).to_bytes(4, "big")


with open(sys.argv[1], "r+b") as image:
    start = image.seek(-512 * 81, 2)
    sectors = image.read()
    for at in range(0, len(sectors), 512):
        for end in range(at + 512, at + 8 * 512, 512):
            record = bytearray(sectors[at:end])
            if record[:4] == b"\xee" * 4 and record[67] == 5 and sectors[at + 4:at + 8] == seal(record):
                record[67] = 6
                record[4:8] = seal(record)
                image.seek(start + at)
                image.write(record)
END
    done
    ends 0 "group" "" "./ddf f0.img f1.img f2.img -- show"
    says_in out "array w unusable 18"
    ends 1 "refused 22" "An array would be lost with the disk" "./ddf f0.img f1.img f2.img -- fail 2"
    ends 0 "group" "after that, without a disk of it: array w unusable 18" "./ddf f0.img f1.img -- assemble"
    echo "asking: an array that isn't served is named where a disk of it is lost"
else
    lacks "a disk with one copy of its records, and RAID 5 of a vendor (python3)"
fi

# ---- disks of members that were dropped

group a
cp a1.img old.img
./ddf a0.img a2.img -- assemble >/dev/null 2>&1
./ddf a0.img a2.img -- spare 1 global >/dev/null 2>&1
for command in show assemble "rebuild v"; do
    cp a0.img s0.img
    cp a2.img s2.img
    ends 0 "" "slot 1 (old.img) is the disk of member" "./ddf s0.img old.img s2.img -- $command"
    says "which the group lists as missing"
done
echo "asking: a disk that the group has dropped is named"

# Where an array is failed without it, that disk may be all that has some of its blocks.
for level in raid0 raid1; do
    make_group f
    ends 0 "ok" "" "./ddf f0.img f1.img f2.img -- create w $level 7 single 1,2@1024"
    cp f1.img old.img
    ends 0 "group" "" "./ddf f0.img f2.img -- assemble"
    for command in show assemble "spare 0 off" "scrub v"; do
        ends 0 "" "slot 1 (old.img) is the disk of member" "./ddf f0.img old.img f2.img -- $command || true"
        if [ $level = raid0 ]; then
            says "array w is failed, and this disk may be all that has some of its blocks, so wipe nothing and write nothing to it (docs/STOPS.md, under 'A disk wasn't named'"
            silent wipefs
        else
            says "wipe its records (wipefs -a -t ddf_raid_member), label it"
            silent "wipe nothing"
        fi
    done
done
# The members that are away count, as they do in what show tells.
make_group f
ends 0 "ok" "" "./ddf f0.img f1.img f2.img -- create w raid5.rnc 7 single 0,1,2@1024"
cp f1.img old.img
ends 0 "group" "" "./ddf f0.img f2.img -- assemble"
ends 0 "group" "wipe its records" "./ddf f0.img old.img f2.img -- show"
ends 0 "group" "array w is failed" "./ddf f0.img old.img -- show"
silent wipefs
echo "asking: nothing is to be wiped while an array is failed"

# ---- disks that must not be written over

group a
head -c 512 bytes >one
./ddf a0.img a1.img a2.img -- write v 0 1 <one >/dev/null 2>&1
cp a0.img older.img
for write in 1 2; do
    ./ddf a0.img a1.img a2.img -- write v 0 1 <one >/dev/null 2>&1
done
old="slot 0 (older.img) must not be written over, and nothing of an array is read from it: its records are older"
for command in show "read v 0 1" "scrub v"; do
    ends 0 "" "$old" "./ddf older.img a1.img a2.img -- $command"
done
ends 1 "refused 39" "$old" "./ddf older.img a1.img a2.img -- assemble"
silent "slot 1"
echo "asking: a disk that must not be written over is named, with the reason"

# ---- why a disk can't be opened

group a
sum=$(cksum a?.img)
not_left_out() {
    says "Don't leave it out"
    silent "leave it out of the words if it is"
}
if command -v flock >/dev/null; then
    ends 3 "" "nothing was done: another command uses the disk: wait until it is done" "flock -s a1.img ./ddf a0.img a1.img a2.img -- assemble"
    not_left_out
    for command in show "read v 0 1" "scrub v"; do
        ends 3 "" "nothing was read: another command may be writing to a disk" "flock a1.img ./ddf a0.img a1.img a2.img -- $command"
        says "a1.img can't be opened: another program holds a lock on it"
        [ ! -s out ] || fail "printed $(cat out), of a locked disk"
    done
    ends 3 "slot 0 sectors" "a1.img can't be opened: another program holds a lock on it" "flock a1.img ./ddf a0.img a1.img a2.img -- examine"
    flock a1.img sleep 1 &
    sleep 0.3
    ends 0 "group" "" "./ddf a0.img a1.img a2.img -- show"
    wait
    echo "asking: who reads waits for a lock, and says so where it isn't given up"
else
    lacks "locked disks: no flock"
fi
user=
if [ "$(id -u)" = 0 ]; then
    user="setpriv --reuid=65534 --regid=65534 --clear-groups"
fi
chmod 444 a?.img
if $user true 2>/dev/null; then
    ends 3 "" "nothing was done: you may not write to the disk: be root, or own it" "$user ./ddf a0.img a1.img a2.img -- assemble"
    not_left_out
fi
chmod 644 a?.img
if chattr +i a1.img 2>/dev/null; then
    ends 3 "" "nothing was done: nobody may write to the disk: chattr -i" "./ddf a0.img a1.img a2.img -- assemble"
    not_left_out
    chattr -i a1.img
fi
mkdir room
if mount -t tmpfs -o size=700K none room 2>/dev/null; then
    last="umount '$work/room'"
    cp --sparse=always a0.img a1.img a2.img room
    mount -o remount,ro room
    ends 3 "" "nothing was done: the disk is on a file system that is mounted for reading alone" "./ddf room/a0.img room/a1.img room/a2.img -- assemble"
    not_left_out
    mount -o remount,rw room
    ends 0 "ok" "" "./ddf room/a0.img room/a1.img room/a2.img -- delete v"
    ends 0 "ok" "" "./ddf room/a0.img room/a1.img room/a2.img -- create v raid1 0 single 0,1@1900"
    ends 3 "disk fault slot" "a call on it failed: No space left on device" "./ddf room/a0.img room/a1.img room/a2.img -- resync v"
    says "the disk is well, and the file system that its image is on is full"
    says "array v is marked"
    umount room
    last=
    echo "asking: a full file system is told, and one that is mounted for reading alone"
else
    lacks "a full file system: nothing can be mounted"
fi
ends 3 "" "nothing was done: there is no such file: check its path" "./ddf a0.img missing.img -- assemble"
not_left_out
ends 3 "disk fault slot 0" "a call on it failed: File too large" "trap '' XFSZ; ulimit -f 100; ./ddf a0.img a1.img a2.img -- spare 2 global"
group a
ends 3 "disk fault slot 0" "array v isn't marked: of what was to be written all is there, or nothing" "trap '' XFSZ; ulimit -f 100; ./ddf a0.img a1.img a2.img -- write v 0 1 <bytes"
group a
echo "asking: why a disk can't be opened is told, and what to do"

# ---- streams

if strace -o calls true 2>/dev/null; then
    group a
    ./ddf a0.img a1.img a2.img -- write v 0 64 <bytes >/dev/null 2>&1
    for when in 1 2; do
        status=0
        strace -o calls -P "$work/bytes" -e inject=read:error=EINTR:when=$when ./ddf a0.img a1.img a2.img -- write v 0 64 <bytes >out 2>err || status=$?
        [ "$status" = 0 ] || fail "status $status where a read of the input was interrupted: $(cat err)"
        grep -q EINTR calls || echo "asking: no read number $when of the input"
    done
    : >printed
    status=0
    strace -o calls -P "$work/printed" -e inject=write:error=EINTR:when=1 ./ddf a0.img a1.img a2.img -- read v 0 64 >printed 2>err || status=$?
    [ "$status" = 0 ] || fail "status $status where a write to the output was interrupted: $(cat err)"
    head -c 32768 bytes | cmp - printed || fail "other bytes were read where a write was interrupted"
    echo "asking: calls on streams that the system interrupts are made again"
    # An input that fails behind a piece leaves a mark, and the blocks are named.
    rm -f s?.img
    truncate -s 32M s0.img s1.img
    ends 0 "ok" "" "./ddf s0.img s1.img -- label"
    ends 0 "ok" "" "./ddf s0.img s1.img -- create v raid1 0 single 0,1@8192"
    ends 0 "ok" "" "./ddf s0.img s1.img -- accept v"
    cat bytes bytes >long
    ends 6 "" "array v is marked: blocks 100 to 4195 of it may be old or new" "strace -o calls -P '$work/long' -e inject=read:error=EIO:when=2 ./ddf s0.img s1.img -- write v 100 4096 <long"
    says "Give resync v, and then the same write again"
    ends 0 "ok" "" "./ddf s0.img s1.img -- resync v"
    ends 6 "" "standard input failed" "strace -o calls -P '$work/long' -e inject=read:error=EIO:when=1 ./ddf s0.img s1.img -- write v 100 4096 <long"
    silent "is marked:"
    echo "asking: the blocks of a write whose input failed are named"
else
    lacks "interrupted calls: no strace"
fi
group a
ends 0 "ok" "1048064 bytes of standard input lie beyond these blocks, and weren't written" "./ddf a0.img a1.img a2.img -- write v 0 1 <bytes"
ends 0 "ok" "" "head -c 512 bytes >one; ./ddf a0.img a1.img a2.img -- write v 0 1 <one"
silent "lie beyond"
echo "asking: input that write doesn't take is told"

# ---- arguments

rm -f d?.img d1?.img
truncate -s 17M d0.img d1.img d2.img d10.img d11.img
ends 0 "ok" "" "./ddf d*.img -- label"
ends 0 "ok" "array v lies on slot 0 (d0.img) slot 1 (d1.img)" "./ddf d*.img -- create v raid1 0 single d0.img,d1.img@64"
ends 0 "ok" "array w lies on slot 4 (d2.img) slot 0 (d0.img) slot 2 (d10.img)" "./ddf d*.img -- create w raid5.rnc 3 single d2.img,0,d10.img@64"
ends 0 "ok" "array x lies on slot 3 (d11.img) slot 4 (d2.img)" "./ddf d*.img -- create x raid1 3 striped d0.img,d1.img@64 3,d2.img@64"
ends 2 "refused 10 word 11" "slots or images with commas between" "./ddf d*.img -- create y raid1 0 single d0.img,e1.img@64"
ends 2 "refused 10 word 11" "a number from 1, a size as 4G, or 100%" "./ddf d*.img -- create y raid1 0 single 0,1@4m"
ends 2 "refused 10 word 7" "1 to 16 printable ASCII characters without space" "./ddf d*.img -- create 'my vol' raid1 0 single 0,1@64"
says "the arguments are: ddf IMAGE.. -- [@GROUP] create NAME LEVEL CODE SECONDARY"
ends 2 "refused 10 word 7" "the arguments are: ddf IMAGE.. -- [@GROUP] fail SLOT" "./ddf d*.img -- fail"
for word in -v -x --verbose; do
    ends 0 "group" "$word is no option and no file" "./ddf $word d*.img -- show"
    says "Usage: ddf [--careful | --yes] IMAGE.. -- [@GROUP] COMMAND"
    silent "can't be opened"
done
for word in -V --version version; do
    ends 0 "ddf " "" "./ddf $word"
done
for command in examine show read scrub assemble spare rebuild copyback fail import label create resync accept write delete batch exercise; do
    for words in "$command --help" "help $command" "--help $command" "d0.img -- $command --help" "d0.img -- $command -h"; do
        ends 0 "ddf " "" "./ddf $words"
        head -n 1 out | grep -q -- "-- .*$command" || fail "printed $(head -n 1 out), of: $words"
    done
    ./ddf --help | grep -q "^  $command\b" || fail "--help has no $command"
done
ends 2 "refused 10" "" "./ddf help nothing"
[ "$(./ddf --help | awk 'length > 100' | wc -l)" = 0 ] || fail "--help has lines of more than 100 columns"
echo "asking: arguments are explained, and elements may name images"

# ---- refusals

group a
ends 1 "refused 16" "No array has the name" "./ddf a0.img a1.img a2.img -- read w 0 1"
says "Use a name that show lists."
ends 1 "refused 11" "wipefs -a -t ddf_raid_member" "./ddf a0.img -- label"
ends 1 "refused 17" "Take another name" "./ddf a0.img a1.img a2.img -- create v raid1 0 single 0,1@64"
ends 1 "refused 19" "slot 0 is named twice" "./ddf a0.img a1.img a2.img -- create w raid1 0 single 0,0@64"
ends 1 "refused 19" "BLOCKS are 100, less than the 128 of one strip" "./ddf a0.img a1.img a2.img -- create w raid0 7 single 0,1@100"
ends 1 "refused 19" "raid1, raid4 and raid5 want 2 at least" "./ddf a0.img a1.img a2.img -- create w raid1 0 single 0@64"
ends 1 "refused 19" "raid1e wants 3" "./ddf a0.img a1.img a2.img -- create w raid1e.offset 0 single 0,1@64"
ends 1 "refused 19" "BLOCKS are 200, less than the 256 of two strips" "./ddf a0.img a1.img a2.img -- create w raid1e.adjacent 7 single 0,1,2@200"
ends 1 "refused 19" "SECONDARY is single for one element alone, and 2 are given" "./ddf a0.img a1.img a2.img -- create w raid1 0 single 0,1@64 1,2@64"
ends 1 "refused 20 no extent on slot 0" "and 200000 are wanted" "./ddf a0.img a1.img a2.img -- create w raid1 0 single 0,1@200000"
room=$(sed -n 's/.*slot 0 .*largest free run has \([0-9]*\) blocks.*/\1/p' err)
ends 1 "refused 20" "" "./ddf a0.img a1.img a2.img -- create w raid1 0 single 0,1@$((room + 1))"
ends 0 "ok" "" "./ddf a0.img a1.img a2.img -- create w raid1 0 single 0,1@$room"
group a
truncate -s 1M small.img
ends 1 "refused 28 small 33000 2048" "slot 0 (small.img) has 2048 sectors of the 33000 that it needs" "./ddf small.img -- label"
many=$(seq -f m%g.img 0 63)
# shellcheck disable=SC2086
rm -f $many
# shellcheck disable=SC2086
truncate -s 17M $many
ends 1 "refused 21 full disks" "64 disks are named, and a group has at most 63" "./ddf m?.img m??.img -- label"
truncate -s $((33000 * 512)) m9.img
ends 1 "refused 28 small 33320 33000" "slot 9 (m9.img) has 33000 sectors of the 33320 that it needs" "./ddf m?.img m1?.img -- label"
ends 1 "refused 28 small 33320 33000" "slot 0 (m9.img) has 33000 sectors of the 33320 that it needs" "./ddf m9.img -- label large"
printf 'spare 2 global\ndelete w\nshow\nexamine\nspare 9 off\n\n' >lines
ends 1 "ok sequence" "line 2 (delete w) was refused" "./ddf a0.img a1.img a2.img -- batch <lines"
says "line 5 (spare 9 off) was refused"
says "line 6 () was refused"
says "There is no such slot"
silent "line 3 (show) was refused"
ends 1 "refused 36" "The input has more than 65536 bytes; no line was run." "head -c 65537 bytes | ./ddf a0.img a1.img a2.img -- batch"
silent "was refused"
if command -v xz >/dev/null; then
    # Linux's own groups have larger tables than what is labelled here.
    mkdir linux
    tar -xJf "$top/scripts/linux-disks/r1-spare.tar.xz" -C linux
    truncate -s 64M linux/new.img
    ends 0 "ok" "" "./ddf linux/new.img -- label linux"
    own=$(./ddf linux/d?.img -- show 2>/dev/null | sed -n 's/^group \([0-9a-f]*\) .*/\1/p')
    its=$(./ddf linux/new.img -- show 2>/dev/null | sed -n 's/^group \([0-9a-f]*\) .*/\1/p')
    ends 1 "refused 29 geometry" "docs/NEW-DISK.md, under '1. A new disk'" "./ddf linux/d?.img linux/new.img -- @$own import $its"
else
    lacks "tables of other sizes: no xz"
fi
cp a0.img twin.img
ends 4 "conflict slots" "One disk is there twice" "./ddf a0.img twin.img a1.img a2.img -- show"
echo "asking: each refusal has its line for people"

# ---- Linux

rm -f l?.img
truncate -s 64M l0.img l1.img l2.img l3.img l4.img
disks="l0.img l1.img l2.img l3.img l4.img"
ends 0 "ok" "" "./ddf $disks -- label linux"
ends 3 "" "its BLOCKS are an odd number, and Linux counts whole KiB" "./ddf --careful $disks -- create odd raid1 7 single 0,1@10001"
ends 3 "" "its elements give different BLOCKS" "./ddf --careful $disks -- create uneven raid1 7 striped 0,1@1024 2,3@2048"
ends 3 "" "its elements give different BLOCKS" "./ddf --careful $disks -- create uneven raid1 7 spanned 0,1@1024 2,3@2048"
ends 0 "ok" "" "./ddf --careful $disks -- create even raid1 7 single 0,1@10000"
silent "whole KiB"
ends 0 "ok" "its BLOCKS are an odd number" "./ddf $disks -- create odd raid1 7 single 2,3@10001"
ends 0 "ok" "" "./ddf $disks -- resync even"
ends 0 "ok" "" "./ddf $disks -- spare 4 global"
lost="before Linux sees these disks take each lost one out of the machine, or wipe its records"
cp l0.img k0.img
ends 0 "ok" "$lost" "./ddf $disks -- fail 1"
ends 0 "ok" "$lost" "./ddf l0.img l1.img l3.img l4.img -- spare 3 off"
ends 0 "ok" "" "./ddf l0.img l1.img l3.img l4.img -- spare 3 off"
silent "$lost"
ends 0 "ok" "" "./ddf a0.img a1.img a2.img -- fail 1"
silent Linux
rm -f l?.img
truncate -s 64M l0.img l1.img l2.img
ends 0 "ok" "" "./ddf l0.img l1.img l2.img -- label linux"
ends 0 "ok" "" "./ddf l0.img l1.img l2.img -- create w raid0 7 single 0,1@1024"
ends 0 "ok" "before Linux sees these disks take each lost one out of the machine: Linux believes its records, old as they are. Wipe none of them: array w is failed" "./ddf l0.img l2.img -- spare 1 global"
silent wipefs
echo "asking: what Linux makes of lost disks and of new arrays is told before and after"

# ---- disks that fail while blocks are written

# bad IMAGE CALLS FIRST-LAST STATUS OUTPUT ERROR WORDS: the same as ends, over an image whose sectors can't be read or written, as CALLS says.
bad() {
    ends "$4" "$5" "$6" "BAD_IMAGE=$1 $2=$3 LD_PRELOAD=./faults.so ./ddf $7"
}

# Three disks with an array v of a level over the first two or all, full of bytes.
new_group() {
    rm -f n?.img
    truncate -s 17M n0.img n1.img n2.img n3.img
    ends 0 "ok" "" "./ddf n0.img n1.img n2.img n3.img -- label"
    ends 0 "ok" "" "./ddf n0.img n1.img n2.img n3.img -- create v $1"
    ends 0 "ok" "" "./ddf n0.img n1.img n2.img n3.img -- resync v"
    ends 0 "ok" "" "./ddf n0.img n1.img n2.img n3.img -- write v 0 1024 <bytes"
    ends 0 "ok" "" "./ddf n0.img n1.img n2.img n3.img -- spare 3 global"
}
four="n0.img n1.img n2.img n3.img"
if gcc -O1 -shared -fPIC -o faults.so "$top/scripts/faults.c" -ldl 2>/dev/null; then
    # A write: its blocks may be old or new.
    new_group "raid1 7 single 0,1@1024"
    bad n1.img BAD_WRITES 5-6 3 "disk fault slot 1" "array v is marked: blocks 4 to 11 of it may be old or new, or old on one disk and new on another; the others read as they did" "$four -- write v 4 8 <bytes"
    says "Give resync v, and then the same write again"
    says "where resync ends so too: make a disk a spare, fail 1, resync v, rebuild v, and the same write again"
    bad n1.img BAD_WRITES 5-6 3 "disk fault slot 1" "array v is marked: its copies or its parity may not agree, and each of its blocks reads as it did" "$four -- resync v"
    says "where resync ends so too: make a disk a spare, fail 1, resync v, rebuild v"
    silent "same write"
    # Refused for the mark: nothing tells which blocks.
    ends 1 "refused 24" "array v is marked, and which blocks were being written isn't recorded: each of its blocks reads as it did. Give resync v, and then this command again" "./ddf $four -- write v 4 8 <bytes"
    ends 1 "refused 24" "Resync it first" "./ddf $four -- write v 4 8 <bytes"
    # The way that is told leads out.
    for command in "spare 3 global" "fail 1" "resync v" "rebuild v" "write v 4 8 <bytes"; do
        bad n1.img BAD_WRITES 5-6 0 "ok" "" "$four -- $command"
    done
    bad n1.img BAD_WRITES 5-6 0 "group" "" "$four -- show"
    grep -q "array v blocks 1024 optimal" out || fail "the way out of a marked mirror leads to: $(cat out)"
    new_group "raid5.rnc 3 single 0,1,2@1024"
    bad n1.img BAD_WRITES 8-8 3 "disk fault slot 1" "array v is marked: " "$four -- write v 4 32 <bytes"
    says "blocks 4 to 35 of it may be old or new"
    says "where resync ends so too: accept v, make a disk a spare, fail 1, rebuild v, and the same write again"
    bad n1.img BAD_WRITES 8-8 3 "disk fault slot 1" "where resync ends so too: accept v, make a disk a spare, fail 1, rebuild v" "$four -- resync v"
    for command in "accept v" "spare 3 global" "fail 1" "rebuild v" "write v 4 32 <bytes"; do
        bad n1.img BAD_WRITES 8-8 0 "ok" "" "$four -- $command"
    done
    bad n1.img BAD_WRITES 8-8 0 "group" "" "$four -- show"
    grep -q "array v blocks 2048 optimal" out || fail "the way out of a marked RAID 5 leads to: $(cat out)"
    # A block beside those that a write is to write can't be read.
    new_group "raid5.rnc 3 single 0,1,2@1024"
    bad n0.img,n1.img BAD_READS 5-6 3 "disk fault slot 0" "array v isn't marked, and nothing of it was written: a block beside block 13, which the parity of their rows needs, can't be read from any disk" "$four -- write v 13 1 <bytes"
    says "where it ends so too: read v, block by block, tells which one it is; put the others away, and write whole stripes with that block from a backup: this reads nothing"
    bad n0.img,n1.img BAD_READS 5-6 3 "disk fault slot 0" "" "$four -- read v 5 1"
    bad n0.img,n1.img BAD_READS 5-6 0 "ok" "" "$four -- write v 0 16 <bytes"
    bad n0.img BAD_READS 5-6 0 "ok" "" "$four -- write v 13 1 <bytes"
    bad n0.img BAD_READS 5-6 0 "group" "" "$four -- show"
    grep -q "array v blocks 2048 optimal" out || fail "a write beside a block that can't be read leads to: $(cat out)"
    # Marked, and a disk is away: resync is refused.
    new_group "raid5.rnc 3 single 0,1,2@512"
    ends 0 "ok" "" "./ddf $four -- create w raid5.rnc 3 single 0,1,2@512"
    ends 3 "" "array w is marked, and accept compares nothing: from then on nothing tells that its parity may be wrong: where it is" "./ddf --careful $four -- accept w"
    mv n1.img away
    for command in "rebuild w:24" "resync w:23" "write w 0 1 <bytes:2"; do
        for disk in 0 2 3; do cp n$disk.img k$disk.img; done
        ends 1 "refused ${command##*:}" "array w is marked, and a disk of it is away; which blocks were being written isn't recorded" "./ddf k0.img k2.img k3.img -- ${command%:*}"
        says "Bring that disk back, and give resync w. If it is gone for good: accept w, and rebuild w"
    done
    ends 3 "" "its parity may be wrong, and the blocks of the disk that is away are taken from it" "./ddf --careful n0.img n2.img n3.img -- accept w"
    ends 0 "ok" "" "./ddf n0.img n2.img n3.img -- accept w"
    ends 0 "ok" "" "./ddf n0.img n2.img n3.img -- rebuild w"
    # An array that keeps its blocks once.
    new_group "raid0 3 single 0,1@1024"
    bad n1.img BAD_WRITES 5-6 3 "disk fault slot 1" "array v keeps its blocks once: blocks 0 to 31 of it may be old or new, and the others read as they did" "$four -- write v 0 32 <bytes"
    new_group "raid1 7 single 0,1@1024"
    bad n0.img BAD_WRITES 34000-34815 3 "disk fault slot 0" "array v isn't marked: of what was to be written all is there, or nothing (block 7)" "$four -- write v 7 1 <bytes"
    echo "asking: what a write or a resync left that a disk failed under, and a way that leads out"

    # A rebuild: a read of a source, or a write to the spare.
    new_group "raid5.rnc 3 single 0,1,2@1024"
    mv n1.img away
    three="n0.img n2.img n3.img"
    bad n0.img BAD_READS 800-801 3 "disk fault slot 0" "rebuild v: slot 0 (n0.img) has blocks that no other disk has, and a read of it failed" "$three -- rebuild v"
    says "The spare is as it was, with the rows that are noted, and so is each block of the array"
    says "docs/RESCUE.md, under 'Image each disk'"
    for command in show assemble; do
        ends 0 "group" "array v: slot 2 (n3.img), member" "./ddf $three -- $command"
        says "is being filled and doesn't count yet: 0 of 128 rows are noted; rebuild v goes on"
    done
    bad n0.img BAD_READS 800-801 3 "disk fault slot 0" "rebuild v: slot 0 (n0.img) has blocks that no other disk has" "$three -- rebuild v"
    bad n3.img BAD_WRITES 800-801 3 "disk fault slot 2" "rebuild v: slot 2 (n3.img), the disk that is being filled, couldn't be written: replace it" "$three -- rebuild v"
    says "or fail 2; make another disk a spare, and give rebuild v again"
    ends 0 "ok" "" "./ddf $three -- rebuild v"
    ends 0 "group" "" "./ddf $three -- show"
    silent "is being filled"
    # A row of RAID 1E is two strips, and a last one alone is one: 129 strips of each disk are 65 rows.
    new_group "raid1e.adjacent 3 single 0,1,2@1035"
    mv n1.img away
    bad n0.img BAD_READS 800-801 3 "disk fault slot 0" "rebuild v: slot 0 (n0.img) has blocks that no other disk has, and a read of it failed" "$three -- rebuild v"
    ends 0 "group" "array v: slot 2 (n3.img), member" "./ddf $three -- show"
    says "is being filled and doesn't count yet: 0 of 65 rows are noted; rebuild v goes on"
    new_group "raid5.rnc 3 single 0,1,2@1024"
    mv n1.img away
    bad n2.img BAD_WRITES 34000-34815 3 "disk fault slot 1" "rebuild v: the records of slot 1 (n2.img) couldn't be written" "$three -- rebuild v"
    echo "asking: of a rebuild that ended early which call failed, and which disk is being filled"

    # A copyback from the spare, slot 2, to slot 1. What no call changes is told as often as it is asked.
    stand() {
        new_group "raid1 7 single 0,1@1024"
        ends 0 "ok" "" "./ddf $four -- spare 3 revertible"
        mv n1.img away
        ends 0 "ok" "" "./ddf $three -- rebuild v"
    }
    # reads IMAGES: the blocks of the array are what they were.
    reads() {
        ./ddf $1 -- read v 0 1024 2>/dev/null | head -c 524288 | cmp -s - half || fail "other blocks are read of $1"
    }
    head -c 524288 bytes >half
    still="copyback v: slot 2 (n3.img) holds the position still, and no block of the array has changed; the next copyback begins anew"
    stand
    for command in show assemble; do
        ends 0 "group" "array v: slot 2 (n3.img) is a revertible spare that stands in for a lost disk; copyback v SLOT moves what it holds to the disk in SLOT" "./ddf $three -- $command"
    done
    # The disk that it would go to is told where it may go there.
    ends 1 "refused 33 slot 0" "" "./ddf $three -- copyback v n0.img"
    silent "holds the position until"
    for disk in 0 2 3; do cp n$disk.img k$disk.img; done
    bad n2.img BAD_WRITES 5-6 3 "disk fault slot 1" "copyback v: slot 1 (n2.img), the disk that the position goes to, couldn't be written. Give copyback v again with another disk" "$three -- copyback v n2.img"
    says "$still"
    reads "$three"
    bad n0.img BAD_WRITES 34000-34815 3 "disk fault slot 0" "copyback v: the records of slot 0 (n0.img) couldn't be written. Give copyback v 1 again" "$three -- copyback v 1"
    says "$still"
    for slot in 0:"of slot 0 (n0.img), of what no other disk gives, or a sync of it before that, failed" 1:"a sync of slot 1 (n2.img), the disk that the position goes to, failed before anything was written"; do
        ends 3 "disk fault slot ${slot%%:*}" "${slot#*:}" "FAULT_CALLS=sync FAULT_HOW=fails FAULT_AT=${slot%%:*} LD_PRELOAD=./faults.so ./ddf $three -- copyback v 1"
        says "$still"
    done
    ends 0 "ok" "array v: slot 2 (n3.img) holds the position until a copyback to slot 1 (n2.img) is done; one begins at the first sector" "./ddf $three -- copyback v n2.img"
    says "array v: slot 1 (n2.img) holds the position now; slot 2 (n3.img) is a spare again"
    reads "$three"
    reads "n0.img n2.img"
    ends 0 "group" "" "./ddf $three -- show"
    silent "stands in"
    # Records that can't be written behind those of a disk that says already that the position has moved: the spare may go once assemble is through.
    for image in n2.img:1 n3.img:2; do
        for disk in 0 2 3; do cp k$disk.img n$disk.img; done
        bad ${image%:*} BAD_WRITES 34000-34815 3 "disk fault slot ${image#*:}" "copyback v: a call of slot ${image#*:} (${image%:*}) failed once all was copied: some disks say by now that slot 1 (n2.img) holds the position" "$three -- copyback v 1"
        says "that slot 2 (n3.img) does. Leave both where they are, and look at show: once it shows each member give assemble, and look at show again once that has ended with status 0"
        silent "holds the position still"
        reads "$three"
        ends 1 "refused 38" "is behind: the last change of the group isn't on each disk, and it may be that of a copyback that was cut short. Leave each disk where it is, a spare too, and look at show: once it shows each member give assemble" "./ddf $three -- copyback v 1"
        ends 0 "group" "" "./ddf $three -- assemble"
        grep -q "slot 2 size .* spare revertible" out || fail "the way out of a moved position leads to: $(cat out)"
        reads "n0.img n2.img"
        ends 1 "refused 38" "" "./ddf $three -- copyback v 1"
        silent "is behind"
    done
    # No call of any disk is answered any more.
    for disk in 0 2 3; do cp k$disk.img n$disk.img; done
    ends 3 "disk fault slot" "and it can't be told now whether slot 2 holds the position or slot 1. Leave both where they are, and look at show" "FAULT_CALLS=any FAULT_HOW=gone FAULT_AT=350 LD_PRELOAD=./faults.so ./ddf $three -- copyback v 1"
    reads "$three"
    # The other disk of the mirror is lost too: the spare alone has its blocks. Of n2.img and n3.img they are slots 0 and 1.
    rm n0.img
    bad n3.img BAD_READS 800-801 3 "disk fault slot 1" "copyback v: slot 1 (n3.img) has what no other disk gives, and a read of it failed" "n2.img n3.img -- copyback v 0"
    says "copyback v: slot 1 (n3.img) holds the position still"
    bad n3.img BAD_READS 0-1 3 "disk fault slot 1" "copyback v: a read of slot 1 (n3.img), of what no other disk gives, or a sync of it before that, failed" "n2.img n3.img -- copyback v 0"
    says "copyback v: slot 1 (n3.img) holds the position still"
    ends 0 "ok" "" "./ddf n2.img n3.img -- copyback v 0"
    reads "n2.img n3.img"
    reads n2.img
    echo "asking: of a copyback that ended early which call failed, where the position is, and a way that leads out"

    # A disk whose anchor lies before its end, and can't be read there, isn't taken for a blank one.
    grow
    bad a1.img BAD_READS 34815-34815 3 "slot 0 fault" "" "a1.img -- examine"
    bad a1.img BAD_READS 34815-34815 0 "group" "slot 1 (a1.img) shows no member: a read of it failed" "a0.img a1.img a2.img -- show"
    echo "asking: a disk of which it can't be read where its records end fails"
else
    lacks "disks that fail: no gcc"
fi

# Each heading that a line names.
while read -r page heading; do
    grep -q "^##* \([0-9]\. \)*$heading$" "$top/docs/$page" || fail "docs/$page has no heading $heading"
done <<'TEXT'
FAILED-DISK.md A second disk fails meanwhile
FAILED-DISK.md While a `copyback` is at work
NEW-DISK.md A new disk
RESCUE.md Image each disk
STOPS.md A disk wasn't named
TEXT
[ "$missed" = 0 ] || { echo "asking: $missed failed" >&2; exit 1; }
all_tried asking
