#!/bin/sh
# Tries scripts/picture.py: docs/walk.svg is what it draws of the disks of the walk in README, which the program is called for here, and of other
# groups it draws each thing that it is to draw. References and GUIDs are others each time, so they are numbered by their first place.
#
#     scripts/picture.sh [--make]     with --make docs/walk.svg is made anew
set -eu
top=$(cd "$(dirname "$0")/.." && pwd)
work=$(mktemp -d)
trap 'rm -rf "$work"' EXIT
cd "$work"

fail() {
    echo "picture: $*" >&2
    exit 1
}

# Runs the program, which has to end well, without what it says to people.
ddf() {
    "$top/ddf" --yes "$@" >told 2>/dev/null || fail "$* ended otherwise: $(cat told)"
}

# Draws disks, and looks whether the picture is sound XML.
draw() {
    "$top/scripts/picture.py" "$@" >"$work/picture.svg" || fail "nothing is drawn of $*"
    python3 -c 'import sys, xml.etree.ElementTree as tree; tree.parse(sys.argv[1])' "$work/picture.svg" || fail "the picture of $* is no XML"
}

# Whether the picture has so many lines with these words.
has() {
    found=$(grep -c -e "$2" picture.svg || true)
    [ "$found" = "$1" ] || fail "the picture has $found times '$2', not $1 times"
}

# The picture with a number in place of each GUID and each reference.
numbered() {
    python3 -c '
import re, sys
seen = {}
print(re.sub(r"\b(?:[0-9a-f]{48}|[0-9a-f]{8})\b", lambda it: f"<{seen.setdefault(it[0], len(seen))}>", open(sys.argv[1]).read()))' "$1"
}

disks="d0.img d1.img d2.img d3.img"
# shellcheck disable=SC2086
{
    truncate -s 32M $disks
    ddf $disks -- label
    ddf $disks -- create home raid5.rnc 7 single 0,1,2@8192
    ddf $disks -- resync home
    head -c 1048576 /dev/zero | ddf $disks -- write home 0 2048
    ddf $disks -- create fast raid0 5 single 0,1@4096
    ddf $disks -- spare 3 for home
    draw $disks
    has 1 '>home 0.2<'
    has 1 '>4 MiB (8192 blocks) optimal<'
    has 1 'title>fast 0.1: sectors 8192 to 12287, 2 MiB<'
    ddf $disks -- delete fast
    ddf $disks -- fail 2
    draw $disks
}
if [ "${1-}" = --make ]; then
    cp picture.svg "$top/docs/walk.svg"
    exit 0
fi
numbered picture.svg >found
numbered "$top/docs/walk.svg" >wanted
cmp -s found wanted || fail "docs/walk.svg is another picture: scripts/picture.sh --make makes it anew"

# A mirrored array whose first element fell behind with a disk, an array with copies, an absent disk, a blank one, one that is damaged, and one of no group.
rm -f d?.img
disks="d0.img d1.img d2.img d3.img"
# shellcheck disable=SC2086
{
    truncate -s 40M $disks
    ddf $disks -- label
    ddf $disks -- create both raid0 3 mirrored 0,1@8000 2,3@8000
    ddf $disks -- create 'a<b' raid1 3 striped 0,1@8000 2,3@8000
    ddf $disks -- fail 1
}
truncate -s 32M blank.img damaged.img
"$top/ddf" damaged.img -- label >/dev/null
printf x | dd of=damaged.img bs=1 seek=$((32 * 1024 * 1024 - 400)) conv=notrunc 2>/dev/null
draw d0.img d2.img blank.img damaged.img missing.img
has 1 '>a&lt;b<'
has 1 ', missing<'
has 1 ', absent<'
has 1 '>blank<'
has 1 '>damaged'
has 1 '>fault<'
# Out of sync are of `both` the two positions of the first element, and of the other array the one that lost its disk; each is drawn over its disk
# and over its array, and one is in the legend.
has 7 'url(#hatched)'
"$top/ddf" d0.img d2.img -- show >show.txt
"$top/ddf" d0.img d2.img -- examine >examine.txt
draw d0.img d2.img
mv picture.svg by.svg
draw --show show.txt --examine examine.txt d0.img d2.img
cmp -s by.svg picture.svg || fail "what the commands printed is drawn otherwise than what they print"
if "$top/scripts/picture.py" blank.img >/dev/null 2>told; then fail "disks of no group are drawn"; fi
grep -q "show ended with 1: refused 12 no group" told || fail "of no group it says: $(cat told)"
echo "picture: docs/walk.svg is the picture of the walk, and what is absent, missing, behind or no member is drawn"
