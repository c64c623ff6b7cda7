#!/bin/sh
# Hostile use, whole. Plays each case of the scenarios in the folders below, of which the gate plays a share; refuses the program each of its allocations, one at a time, in each
# command; tries each call of scripts/faults.sh; and plays random histories (scripts/histories.py). It says how many cases there were, and how many of them are faults. It
# takes half an hour. With the word `scenarios-memory` alone it refuses allocations over disks in memory, too, and by `rt try`: that takes another half an hour.
#
#   scripts/hostile.sh [scenarios|memory|faults|histories|scenarios-memory]..
#
# DDF and DDF_RIG name built programs.
set -eu
top=$(cd "$(dirname "$0")/.." && pwd)
work=$(mktemp -d)
trap 'rm -rf "$work"' EXIT
cd "$work"

# Folders of crates/ddf_rig/data whose scenarios have ranges with steps, and those beside them.
folders='calls|block-calls|import-calls|copyback|bad-bytes|pieces|logs'

# Builds what plays scenarios, where it isn't there.
rig=${DDF_RIG:-$top/crates/ddf_rig/out/ddf_rig}
build_rig() {
    [ -x "$rig" ] || (cd "$top/crates/ddf_rig" && rt run -- data/how.txt) >log 2>&1 || {
        tail -n 20 log >&2
        exit 1
    }
}

# Builds what refuses memory, where gcc is at hand.
build_faults() {
    if ! command -v gcc >/dev/null; then
        echo "hostile: no gcc here, so no memory was refused"
        return 1
    fi
    gcc -O1 -shared -fPIC -o faults.so "$top/scripts/faults.c" -ldl
}

# Plays the scenarios without the steps of their ranges, so that each value is played.
try_scenarios() {
    build_rig
    cp -r "$top/crates/ddf_rig/data" scenarios
    find scenarios -name '*.txt' -exec sed -i '/^% each /s#\(\.\.[0-9]*\)/[0-9]*#\1#g' {} +
    wrong=0
    for path in $(grep -E "^($folders)/" "$top/crates/ddf_rig/args"); do
        (cd scenarios && "$rig" "$path") || wrong=$((wrong + 1))
    done
    [ "$wrong" = 0 ]
}

images="a.img b.img c.img d.img e.img"

# Keeps the images as they are, and brings them back with an old time, by which it is seen whether one was written to.
keep() {
    for image in $images; do cp --sparse=always "$image" "kept-$image"; done
}
restore() {
    for image in $images; do cp --sparse=always "kept-$image" "$image"; done
    touch -d 2001-01-01 $images
}
is_untouched() {
    [ -z "$(find $images -newermt 2002-01-01)" ]
}

# runs NUMBER WORDS..: the program with these words, to which the allocation of this number is refused. `status` is how it ended.
runs() {
    number=$1
    shift
    status=0
    rm -f hit
    env FAULT_CALLS=memory FAULT_AT="$number" FAULT_TOLD=hit LD_PRELOAD=./faults.so ./ddf "$@" <input >out 2>err || status=$?
}

# judge WORDS..: memory ran out and no image was written to, or the allocation made no difference: what is told, and what the group is, is the same.
judge() {
    if [ "$status" = 5 ] && is_untouched; then
        refused=$((refused + 1))
        return
    fi
    same=$((same + 1))
    ./ddf $named -- show >shown 2>/dev/null || true
    restore
    if [ "$status" != "$wanted_status" ] || ! is_the_same "$1"; then
        wrong=$((wrong + 1))
        echo "hostile: status $status, allocation $number of: $named -- $*: $(head -c 200 out) $(head -c 200 err)"
    fi
}

# Whether the output, what standard error told, and the group are as with ample memory. Where disks are labelled the group has other names each time.
is_the_same() {
    cmp -s out wanted && cmp -s err wanted-err && { [ "$1" = label ] || cmp -s shown wanted-shown; }
}

# refuse WORDS..: gives a command over the images in `named` with each allocation refused in turn, and then with none refused.
refuse() {
    refused=0 same=0 wrong=0 allocation=0
    keep
    wanted_status=0
    ./ddf $named -- "$@" <input >wanted 2>wanted-err || wanted_status=$?
    ./ddf $named -- show >wanted-shown 2>/dev/null || true
    restore
    runs 0 $named -- "$@"
    while [ -e hit ]; do
        judge "$@"
        allocation=$((allocation + 1))
        runs "$allocation" $named -- "$@"
    done
    echo "hostile: $* with each of $allocation allocations refused: memory ran out $refused times, it made no difference $same times, $wrong faults"
    faults=$((faults + wrong))
}

# group_of IMAGE..: the GUID of the group that these images show.
group_of() {
    ./ddf "$@" -- show | sed -n 's/^group \([0-9a-f]*\) .*/\1/p'
}

# Each command, with all disks there, and then without one of them, which is lost. The last disk is a group of its own at first, which joins.
try_memory() {
    build_faults || return 0
    [ -n "${DDF:-}" ] || "$top/ddf" --version >/dev/null
    cp "${DDF:-$top/crates/ddf/out/ddf}" ddf
    truncate -s $((33000 * 512)) $images
    head -c 9216 /dev/urandom >input
    faults=0
    ./ddf e.img -- label >/dev/null 2>&1
    named="a.img b.img c.img d.img"
    refuse label
    refuse assemble
    refuse create vol raid5.rnc 0 single 0,1,2@9
    refuse accept vol
    refuse resync vol
    # Bytes beyond the blocks are told of in a line that needs memory.
    head -c 512 /dev/urandom >input
    refuse write vol 3 1
    head -c 9216 /dev/urandom >input
    refuse write vol 0 18
    refuse read vol 0 18
    refuse scrub vol
    refuse examine
    refuse show
    refuse create other raid1 1 striped 0,1@8 2,3@8
    refuse delete other
    refuse spare 3 for vol
    refuse spare 3 global
    refuse spare 3 revertible
    group=$(group_of a.img) other=$(group_of e.img)
    named="a.img b.img c.img d.img e.img"
    refuse "@$group" import "$other"
    named="a.img c.img d.img e.img"
    refuse show
    refuse read vol 0 18
    refuse rebuild vol
    refuse assemble
    refuse copyback vol e.img
    refuse rebuild vol
    refuse fail d.img
    named="a.img d.img e.img"
    refuse delete vol
    refuse assemble
    refuse_with_logs
    [ "$faults" = 0 ]
}

# The same on disks whose bad block logs have entries, which are written by hand.
refuse_with_logs() {
    images="hand0.img hand1.img"
    named=$images
    PYTHONPATH=$top/scripts python3 -B -c '
from handmade import Disk, Entry, Group
Group([Disk(place, 300, 10, 8, [Entry(12, 1, 2), Entry(20, 5, 1)]) for place in range(2)], 100).write(".")'
    refuse show
    refuse read pair 0 18
    refuse write pair 0 18
    refuse assemble
}

# Disks in memory, on which commands are refused each allocation: a mirror, and two groups of a disk each.
pads=2000
large=524444462d47202052854b00000000000000000000000007
small=524444462d47202052854b00000000000000000000000009
mirror='% disks 33000 33000
$ label 0 1
$ create own raid1 0 single 0,1@4
$ accept own
% fill 0,1 0 4 a1'
groups="% disks 33000 33000
$ label 0
$ create own jbod 0 single 0@4
% fill 0 0 4 a1
% stamp 1700000000 40 9
$ label 1
$ @$small create solo jbod 0 single 1@4"

# scenario ANSWERED LINE..: a scenario with these lines, of which the last has the command, and a look at all that the disks hold before and behind it. So many
# of the lines at its end are answered: as the scenario is read, before the command, each answer takes one allocation, and nothing else differs.
scenario() {
    replies=$1
    shift
    while [ $# -gt 1 ]; do
        echo "$1"
        shift
    done
    printf '%s\n' '% is 0,1 0,1,2,3 0 00000000' '$ examine' "$1" '$ examine' '% is 0,1 0,1,2,3 0 00000000' '% calls'
    awk -v pads=$pads -v replies="$replies" 'BEGIN { for (i = 0; i < pads; i++) print i < replies ? "% calls      \n0" : "% unplug none\n#" }'
}

# Judges what scenarios printed, the first of them without a refusal, each behind a line `== NUMBER`: memory ran out and the disks hold what they held, or it
# made no difference in the command, or it was refused in a look before the command or behind it. Prints how often it was which, how many are faults, and the
# first and the last number at which memory ran out in the command.
judge_scenarios() {
    awk '
    function take() {
        if (name == "") return
        before = text["sectors", 0] text["records", 0]
        behind = text["sectors", 1] text["records", 1]
        if (kept == "") { kept = before; made = behind; wanted = answer }
        else if (text["records", 0] != "" && before != kept) early++
        else if (answer == "[5]\n") {
            if (!refused++) first = name
            else same += between
            last = name
            between = 0
            if (behind != kept) { faults++; print "hostile: memory ran out at " name ", and a sector was written" >"/dev/stderr" }
        }
        else if (answer == wanted && behind == made) between++
        else if (answer == wanted) late++
        else if (answer != "") { faults++; print "hostile: at " name ": " answer >"/dev/stderr" }
    }
    /^== / { take(); name = $2; part = answer = ""; split("", text); next }
    /^line [0-9]*: % is / { part = "sectors"; next }
    /^line [0-9]*: [$] examine$/ { part = "records"; next }
    /^line [0-9]*: [$] / { part = text["records", 0] == "" ? "" : "answer"; next }
    /^line [0-9]*: / { part = "" }
    part == "answer" { answer = answer $0 "\n"; next }
    part != "" { text[part, answer != ""] = text[part, answer != ""] $0 "\n" }
    END { take(); print refused + 0, same + 0, early + 0, late + 0, faults + 0, first + 0, last + 0 }'
}

# refuse_in NAME LINE..: plays such a scenario with each allocation refused in turn, and makes the cases of it in which the allocation `refused_one` falls into
# the command, or right before it or behind it.
refuse_in() {
    name=$1
    shift
    scenario 0 "$@" >"$name.txt"
    { echo "== wanted" && "$rig" "$name.txt" || true; } >"$name.told" 2>&1
    number=$pads
    while [ "$number" -lt "$refused_one" ]; do
        echo "== $number"
        env FAULT_CALLS=memory FAULT_AT="$number" LD_PRELOAD=./faults.so "$rig" "$name.txt" 2>&1 || true
        number=$((number + 1))
    done >>"$name.told"
    read -r refused same early late wrong first last <<END
$(judge_scenarios <"$name.told")
END
    echo "hostile: $name over disks in memory with each allocation refused: memory ran out $refused times, it made no difference $same times, $wrong faults"
    faults=$((faults + wrong))
    scenario 0 "$@" >"cases/$name-0"
    answered=$((refused_one - last - 60))
    while [ "$answered" -le $((refused_one - first + 60)) ]; do
        scenario "$answered" "$@" >"cases/$name-$(printf %05d "$answered")"
        answered=$((answered + 1))
    done
}

# Over disks in memory, and then by `rt try` too, which builds what plays scenarios once, with a look at each access to memory, and refuses one allocation of
# each run, the same one in each case.
try_scenarios_memory() {
    build_rig
    build_faults || return 0
    mkdir cases
    faults=0 refused_one=$((2 * pads))
    refuse_in assemble "$mirror" '% fill 1 32999 1 00' '$ assemble'
    refuse_in write "$mirror" '% input 1024x5a
$ write own 1 2'
    refuse_in import "$groups" "$ @$large import $small"
    (cd "$top/crates/ddf_rig" && rt try --fail-alloc "$refused_one" --cases "$work/cases" -- '{}') >tried 2>log || true
    grep -q "^cases=\([0-9]*\) ended=\1 fault=0 " log || {
        tail -n 20 log >&2
        return 1
    }
    for name in assemble write import; do
        judge_tried
    done
    [ "$faults" = 0 ]
}

# Judges what `rt try` told of a scenario. Its cases have refused each allocation of the command where some refused one before it, and some one behind it.
judge_tried() {
    read -r refused same early late wrong first last <<END
$(awk -v name="$name-" '/^== / { is_of = index($2, name) == 1 } is_of' tried | judge_scenarios)
END
    echo "hostile: $name by rt try with each allocation refused: memory ran out $refused times, it made no difference $same times, $wrong faults"
    faults=$((faults + wrong))
    [ "$early" -gt 0 ] && [ "$late" -gt 0 ] || {
        echo "hostile: not each allocation of $name was refused: $early cases before it, $late behind it"
        faults=$((faults + 1))
    }
}

try_faults() {
    "$top/scripts/faults.sh" 1
}

try_histories() {
    build_rig
    DDF_RIG=$rig "$top/scripts/histories.py" 2000 "$(date +%s)"
}

[ $# -gt 0 ] || set -- scenarios memory faults histories
for part in "$@"; do
    "try_$(echo "$part" | tr - _)" || {
        echo "hostile: there are faults" >&2
        exit 1
    }
done
