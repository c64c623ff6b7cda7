#!/bin/sh
# Sizes with units, 100%, a group by the first digits of its GUID; and what somebody at a terminal sees: sizes after show, progress.
#
#   sizes.sh [PROGRAM]     with another program than the one that is built here, which DDF may name too
set -eu
LC_ALL=C
export LC_ALL
unset DDF_CAREFUL
top=$(cd "$(dirname "$0")/.." && pwd)
# shellcheck disable=SC1091
. "$top/scripts/lacking.sh"
work=$(mktemp -d)
trap 'rm -rf "$work"' EXIT
if [ $# -gt 0 ]; then
    cp "$1" "$work/ddf"
else
    [ -n "${DDF:-}" ] || "$top/ddf" --version >/dev/null
    cp "${DDF:-$top/crates/ddf/out/ddf}" "$work/ddf"
fi
cd "$work"

fail() {
    echo "sizes: $*" >&2
    exit 1
}

# ends STATUS OUTPUT ERROR ARGUMENT..: the program ends so, prints what begins with OUTPUT, and says what has ERROR in it.
ends() {
    wanted=$1 printed=$2 said=$3
    shift 3
    status=0
    ./ddf "$@" >out 2>err </dev/null || status=$?
    [ "$status" = "$wanted" ] || fail "status $status, not $wanted, of: $* ($(cat out err))"
    case $(cat out) in "$printed"*) ;; *) fail "printed $(cat out), of: $*" ;; esac
    case $(cat err) in *"$said"*) ;; *) fail "said $(cat err), not $said, of: $*" ;; esac
}

# blocks NAME: the blocks of an array, as show prints them.
blocks() { ./ddf d?.img -- show 2>err | sed -n "s/^array $1 blocks \([0-9]*\) .*/\1/p"; }

# Blocks and strips: K, M, G and T are 2^10, 2^20, 2^30 and 2^40 bytes.
truncate -s 32M d0.img d1.img d2.img d3.img
ends 0 "ok sequence 1" "" d?.img -- label
ends 0 "ok sequence 2" "4M is 8192 blocks" d?.img -- create home raid5.rnc 7 single 0,1,2@4M
[ "$(blocks home)" = 16384 ] || fail "4M of three disks are $(blocks home) blocks"
ends 0 "ok sequence 3" "64K is CODE 7: strips of 2^7 blocks" d?.img -- create strips raid0 64K single 0,1@1M
ends 0 "" "" d?.img -- examine
grep -q "strip 7 blocks 2048 " out || fail "no record has strips of code 7 and 2,048 blocks: $(cat out)"
ends 0 "ok sequence 4" "" d?.img -- resync home
yes | head -c 1048576 >bytes
./ddf d?.img -- write home 1M 1M <bytes >out 2>err || fail "$(cat err)"
grep -qx "ddf: 1M is 2048 blocks" err || fail "said $(cat err)"
./ddf d?.img -- read home 2048 2048 2>err | cmp -s - bytes || fail "what was written at 1M isn't at block 2048"
./ddf d?.img -- read home 1M 1K 2>err | cmp -s -n 1024 - bytes || fail "1K at 1M is something else"
# What is no such size is a wrong word: no whole blocks, no power of two, too much, a unit that there isn't.
for size in 1k 1KB 1MiB M 01M 1.5G -1M 18446744073709551615T 3B 100%%; do
    ends 2 "refused 10 word 10" "a number from 1, a size as 4G, or 100%" d?.img -- create x raid0 7 single "0,1@$size"
    ends 2 "refused 10" "" d?.img -- read home 0 "$size"
done
ends 2 "refused 10 word 8" "a number n from 0 to 15" d?.img -- create x raid0 6K single 0,1@1M
ends 2 "refused 10" "" d?.img -- create x raid0 1G single 0,1@1M

# All that is free: no block more can be had.
ends 0 "ok sequence" "100% is " d?.img -- create most jbod 7 single 3@100%
most=$(blocks most)
ends 1 "refused 20" "" d?.img -- create more jbod 0 single 3@128
ends 0 "ok sequence" "" d?.img -- delete most
ends 1 "refused 20" "" d?.img -- create most jbod 0 single 3@$((most + 128))
ends 0 "ok sequence" "blocks of each of the disks 0,1,2" d?.img -- create rest raid5.rnc 7 single 0,1,2@100%
ends 1 "refused 20" "" d?.img -- create more raid5.rnc 7 single 0,1,2@100%
ends 0 "ok sequence" "blocks of each of the disks 3" d?.img -- create named jbod 7 single d3.img@100%
[ "$(blocks named)" = "$most" ] || fail "an image is not its slot's"

# A group by the first digits of its GUID.
truncate -s 32M e0.img
ends 0 "ok sequence 1" "" e0.img -- label
first=$(./ddf d?.img -- show 2>err | sed -n 's/^group \([0-9a-f]*\) .*/\1/p')
other=$(./ddf e0.img -- show 2>err | sed -n 's/^group \([0-9a-f]*\) .*/\1/p')
start=
for digits in $(seq 1 47); do
    start=$(echo "$other" | cut -c "1-$digits")
    case $first in "$start"*) ;; *) break ;; esac
done
ends 0 "group $other" "$start begins the GUID of group $other" d?.img e0.img -- "@$start" show
ends 2 "refused 10 word 6" "isn't @ and the 48 digits of a group, or the first of them" d?.img e0.img -- "@$(echo "$start" | cut -c "1-$((digits - 1))")" show
grep -q "group $first" err && grep -q "group $other" err || fail "the groups aren't named: $(cat err)"
ends 2 "refused 10 word 6" "no disk shows a group whose GUID begins with ffffffff" d?.img e0.img -- @ffffffff show
ends 0 "ok sequence" "begins the GUID of group $other" d?.img e0.img -- "@$first" import "$start"

# What somebody sees at a terminal: standard error is one, standard output isn't.
if command -v script >/dev/null; then
    script -qec './ddf d?.img e0.img -- show >out' seen >/dev/null </dev/null
    grep -q "slot 0 is d0.img: 15.9 MiB" seen || fail "no image beside slot 0: $(cat seen)"
    grep -q "array home: 8 MiB" seen || fail "no size of an array: $(cat seen)"
    ! grep -q "MiB" out || fail "standard output has sizes with units"
    # A reader that waits, and an input that waits: a line tells how far it has come, and none stays.
    script -qec './ddf d?.img e0.img -- read home 0 16384 | { sleep 2; cat >out; }' seen >/dev/null </dev/null
    grep -q "MiB of 8 MiB, .*/s, [0-9]*:[0-9][0-9] to go" seen || fail "read tells no progress: $(cat seen)"
    script -qec '{ head -c 4M /dev/zero; sleep 2; head -c 4M /dev/zero; } | ./ddf d?.img e0.img -- write home 0 16384 >out' seen >/dev/null </dev/null
    grep -q "MiB of 12 MiB, .*/s, [0-9]*:[0-9][0-9] to go" seen || fail "write tells no progress: $(cat seen)"
    # Behind the last line of progress, what stood there is taken away.
    [ "$(tr '\r' '\n' <seen | grep -v '^Script ' | grep . | tail -n 1)" = "$(printf '\033[K')" ] || fail "a line of progress stays: $(cat -A seen)"
else
    lacks "the terminal: no script"
fi
all_tried sizes
