#!/bin/bash
# Lets Linux itself run arrays that `ddf` made, as docs/LINUX.md tells them, and compares what both read and write of them. It is no part of the gate.
#
#     scripts/linux-itself.sh [NAME..]
#
# Linux runs as a process over image files: Debian's user-mode-linux (apt-get install user-mode-linux mdadm gcc), whose md starts what mdadm finds. It sees
# this machine's file system, and writes to a folder of temporary files in it alone; nothing of this machine is assembled. UML names a folder where that package was unpacked.
#
# - Of each array of STARTED `ddf` writes all blocks, Linux starts it and reads them, and writes others; `ddf` then finds it unmarked and clean, and reads what
#   Linux wrote, whole and without each disk where its level allows it. Then `ddf` writes once more short of a disk, and Linux reads that; of an array with
#   parity `ddf` drops the disk, and Linux reads what it wrote itself.
# - Of each of UNSTARTED Linux starts none.
# - Of each of HALF a disk is lost, and the rebuild on a spare, its last disk, is killed half way: Linux leaves that disk alone, and reads and writes the array;
#   `ddf` ends the rebuild.
# - Of each of SPARED the last three disks are a revertible spare, a global one and a member without use: what `ddf` finds of them where Linux wrote
#   the array's blocks, where it filled one of them in place of a disk that failed there, and where the revertible one stood in; what is done then; and
#   that a `copyback` that is killed half way leaves Linux nothing to do.
#
# Without the package, or where it doesn't run, it ends with 77. DDF names a built program; with NAMEs of arrays those alone are tried.
set -eu
top=$(cd "$(dirname "$0")/.." && pwd)
# shellcheck disable=SC1091
. "$top/scripts/lacking.sh"
PATH=$PATH:/sbin:/usr/sbin
ddf=${DDF:-$top/ddf}
linux=${UML:-}/usr/bin/linux.uml
[ -x "$linux" ] || lacks "no user-mode-linux"
for name in mdadm gcc; do command -v "$name" >/dev/null || lacks "no $name"; done
all_tried linux-itself

# A name, the number of disks, whether each disk can be done without, or even that by parity, and the words of `create`.
STARTED='stripes 2 no raid0 7 single 0,1@8192
code2 2 no raid0 2 single 0,1@8192
mirror 2 yes raid1 7 single 0,1@8192
three 3 yes raid1 7 single 0,1,2@8192
ten 4 yes raid1 7 striped 0,1@8192 2,3@8192
spanned 4 yes raid1 7 spanned 0,1@8192 2,3@8192
r0 3 parity raid5.r0 7 single 0,1,2@8192
rn 3 parity raid5.rn 7 single 0,1,2@8192
rnc 3 parity raid5.rnc 3 single 0,1,2@8192
last 3 parity raid4.last 7 single 0,1,2@8192
near3 3 yes raid1e.adjacent 7 single 0,1,2@8192
near4 4 yes raid1e.adjacent 7 single 0,1,2,3@8192
near5 5 yes raid1e.adjacent 3 single 0,1,2,3,4@1001
near6 6 yes raid1e.adjacent 3 single 0,1,2,3,4,5@4104'
UNSTARTED='small5 3 no raid5.rnc 2 single 0,1,2@8192
small10 4 no raid1 2 striped 0,1@8192 2,3@8192
small1e 3 no raid1e.adjacent 2 single 0,1,2@8192
four 4 no raid1 7 single 0,1,2,3@8192
first 3 no raid4.first 7 single 0,1,2@8192
jbod 1 no jbod 0 single 0@8192
concat 2 no concat 0 single 0,1@8192
mirrored 4 no raid0 7 mirrored 0,1@8192 2,3@8192
joined 4 no raid1 7 concat 0,1@8192 2,3@8192
zeros 4 no raid0 7 striped 0,1@8192 2,3@8192
fives 6 no raid5.rnc 7 striped 0,1,2@8192 3,4,5@8192
uneven 5 no raid1 7 striped 0,1@8192 2,3,4@8192
tiers 6 no raid1e.adjacent 7 striped 0,1,2@8192 3,4,5@8192'
HALF='half1 3 yes raid1 7 single 0,1@39936
half10 5 yes raid1 7 striped 0,1@39936 2,3@39936
half5 4 yes raid5.rnc 7 single 0,1,2@39936
half4 4 yes raid4.last 7 single 0,1,2@39936
half1e 4 yes raid1e.adjacent 7 single 0,1,2@39936'
SPARED='spared1 5 yes raid1 7 single 0,1@39936
spared5 6 yes raid5.rnc 7 single 0,1,2@39936'

fail() {
    echo "linux-itself: $1" >&2
    [ ! -f "$work/linux.log" ] || tail -n 40 "$work/linux.log" >&2
    exit 1
}

work=$(mktemp -d)
trap 'rm -rf "$work"' EXIT

# What Linux does as it starts: it has its own /run, and this folder at /run/work.
cat >"$work/init" <<TEXT
#!/bin/bash
export PATH=/usr/sbin:/usr/bin:/sbin:/bin MDADM_NO_UDEV=1
export -n LD_PRELOAD
mount -t proc none /proc
grep -q 'User Mode Linux' /proc/cpuinfo || exit 1
mount -t sysfs none /sys
mount -t tmpfs none /run
mkdir -p /run/work /run/mdadm
mount -t hostfs none /run/work -o $work
cd /run/work
exec >linux.log 2>&1
modules=${UML:-}/usr/lib/uml/modules/\$(uname -r)/kernel
for module in async_tx async_memcpy async_xor async_pq async_raid6_recov; do insmod \$modules/crypto/async_tx/\$module.ko; done
for module in md-mod raid0 raid1 raid10 raid456; do insmod \$modules/drivers/md/\$module.ko; done
. ./steps
sync
echo o >/proc/sysrq-trigger
sleep 60
TEXT
chmod 755 "$work/init"

# What it does with the disks: it starts what is on them, and tells what that is, its sectors and the checksum of its blocks; where there are new ones it
# writes them, and where it is told so its second disk fails.
cat >"$work/start" <<'TEXT'
mdadm --assemble /dev/md/ddf /dev/ubd?
mdadm --incremental /dev/md/ddf
cat /proc/mdstat
array=$(sed -n 's/^\(md[0-9]*\) : active .*/\1/p' /proc/mdstat)
if [ -n "$array" ]; then
    mdadm --wait /dev/$array
    echo "sectors $(blockdev --getsz /dev/$array) $(sed -n "/^$array /,/^ /p" /proc/mdstat | grep -o '[0-9]* near-copies')"
    echo "sum $(sha256sum </dev/$array)"
    if [ -e new ]; then
        dd if=new of=/dev/$array bs=64K conv=fsync
        sleep 6
        cat /proc/mdstat
    fi
    if [ -e lose ]; then
        mdadm /dev/$array --fail /dev/ubdb
        sleep 3
        mdadm --wait /dev/$array
        sleep 6
        cat /proc/mdstat
    fi
    mdadm --stop /dev/$array
    sleep 1
fi
mdadm --stop /dev/md/ddf
TEXT

# Runs Linux over images: the steps of a file.
runs_linux() {
    cp "$work/$1" "$work/steps"
    shift
    disks=
    number=0
    for image; do
        disks="$disks ubd$number=$image"
        number=$((number + 1))
    done
    rm -f "$work/linux.log"
    # shellcheck disable=SC2086
    LD_PRELOAD=$work/registers.so timeout 300 "$linux" mem=256M root=/dev/root rootfstype=hostfs rootflags=/ ro "uml_dir=$work/" "init=$work/init" $disks con=null con0=null,fd:1 \
        <"/dev/null" >"$work/boot.log" 2>&1 || true
    [ -f "$work/linux.log" ]
}

# What Linux told of the array that it started.
told() {
    sed -n "s/^$1 \([^ ]*\).*/\1/p" "$work/linux.log"
}

# Blocks that tell their number.
blocks() {
    python3 -c 'import sys
for block in range(int(sys.argv[1])):
    sys.stdout.write((f"block {block:08d} of {sys.argv[2]}\n" * 512)[:512])' "$1" "$2"
}

sum() {
    sha256sum <"$1" | cut -d' ' -f1
}

# Makes an array on new disks, and has what lies twice agree.
make() {
    name=$1 count=$2 spare=$3
    shift 3
    rm -rf "$work/disks"
    mkdir "$work/disks"
    images=
    for number in $(seq 0 $((count - 1))); do
        truncate -s 64M "$work/disks/d$number.img"
        images="$images $work/disks/d$number.img"
    done
    # shellcheck disable=SC2086
    {
        "$ddf" $images -- label linux && "$ddf" $images -- create "$name" "$@" && { [ "$spare" = no ] || "$ddf" $images -- resync "$name"; }
    } >"$work/told" 2>&1 || fail "$name isn't made: $(cat "$work/told")"
}

# Blocks of an array are those of a file, by these images.
reads() {
    file=$1 name=$2
    shift 2
    "$ddf" "$@" -- read "$name" 0 "$size" 2>"$work/said" >"$work/read" || fail "read of $name ended otherwise: $(head -c 200 "$work/read") $(cat "$work/said")"
    cmp "$work/read" "$file" || fail "$name has other blocks by $#"
}

# Linux reads all blocks of a file.
linux_reads() {
    file=$1 name=$2
    shift 2
    runs_linux start "$@" || fail "Linux didn't run: $(tail -n 5 "$work/boot.log")"
    [ "$(told sectors)" = "$size" ] || fail "$name has $(told sectors) sectors for Linux, and $size here"
    [ "$(told sum)" = "$(sum "$file")" ] || fail "$name has other blocks for Linux"
}

# What is tried of an array that Linux starts.
serves() {
    name=$1
    make "$@"
    # shellcheck disable=SC2086
    set -- $images
    size=$("$ddf" "$@" -- show 2>/dev/null | sed -n "s/^array $name blocks \([0-9]*\) optimal$/\1/p")
    blocks "$size" "$name" >"$work/first"
    blocks "$size" "$name once more" >"$work/new"
    "$ddf" "$@" -- write "$name" 0 "$size" <"$work/first" >/dev/null 2>&1 || fail "write of $name failed"
    linux_reads "$work/first" "$name" "$@"
    mv "$work/new" "$work/second"
    "$ddf" "$@" -- show 2>/dev/null | grep -q "^array $name blocks $size optimal$" || fail "$name isn't optimal behind Linux: $("$ddf" "$@" -- show 2>&1)"
    reads "$work/second" "$name" "$@"
    if [ "$spare" = no ]; then
        echo "linux-itself: $name, $size blocks: both read what the other wrote"
        return 0
    fi
    [ "$("$ddf" "$@" -- scrub "$name" 2>/dev/null)" = clean ] || fail "$name isn't clean behind Linux"
    for left; do
        others=
        for image; do [ "$image" = "$left" ] || others="$others $image"; done
        # shellcheck disable=SC2086
        reads "$work/second" "$name" $others
    done
    shift
    if [ "$spare" = parity ]; then
        "$ddf" --yes "$@" -- assemble >/dev/null 2>&1 || fail "assemble of $name short of a disk failed"
        linux_reads "$work/second" "$name" "$@"
        echo "linux-itself: $name, $size blocks: both read what the other wrote, short of a disk too"
        return 0
    fi
    "$ddf" --yes "$@" -- write "$name" 0 "$size" <"$work/first" >/dev/null 2>&1 || fail "write of $name short of a disk failed"
    linux_reads "$work/first" "$name" "$@"
    echo "linux-itself: $name, $size blocks: both read what the other wrote, and Linux what was written short of a disk"
}

# Kills a command, its words, once some of a disk, and not all, is filled.
kill_half() {
    words=$1 spare=$2
    shift 2
    for at in $(seq 100 40 900); do
        for image; do cp --sparse=always "$image" "$image.before"; done
        rm -f "$work/hit"
        # shellcheck disable=SC2086
        (FAULT_CALLS=write FAULT_HOW=kill FAULT_AT=$at FAULT_TOLD=$work/hit LD_PRELOAD=$work/faults.so "$ddf" "$@" -- $words >/dev/null 2>&1 || true) 2>/dev/null
        [ -e "$work/hit" ] || fail "$words isn't killed half way"
        [ "$(head -c 20M "$spare" | tr -d '\0' | wc -c)" -lt 300000 ] || return 0
        for image; do mv "$image.before" "$image"; done
    done
}

# Of one whose rebuild is cut.
leaves_half() {
    name=$1
    make "$@"
    # shellcheck disable=SC2086
    set -- $images
    size=$("$ddf" "$@" -- show 2>/dev/null | sed -n "s/^array $name blocks \([0-9]*\) optimal$/\1/p")
    blocks "$size" "$name" >"$work/first"
    {
        "$ddf" "$@" -- write "$name" 0 "$size" <"$work/first" && "$ddf" "$@" -- spare $(($# - 1)) global && "$ddf" --yes "$@" -- fail 0
    } >"$work/told" 2>&1 || fail "$name isn't brought half way: $(cat "$work/told")"
    shift
    kill_half "rebuild $name" "${!#}" "$@"
    cp "$work/first" "$work/new"
    linux_reads "$work/first" "$name" "$@"
    rm "$work/new"
    ! grep -q 'recovery =' "$work/linux.log" || fail "Linux fills a disk of $name"
    reads "$work/first" "$name" "$@"
    "$ddf" "$@" -- rebuild "$name" >"$work/told" 2>&1 || fail "rebuild of $name behind Linux says $(cat "$work/told")"
    [ "$("$ddf" "$@" -- scrub "$name" 2>/dev/null)" = clean ] || fail "$name isn't clean behind Linux"
    for left; do
        others=
        for image; do [ "$image" = "$left" ] || others="$others $image"; done
        # shellcheck disable=SC2086
        reads "$work/first" "$name" $others
    done
    echo "linux-itself: $name: Linux leaves a disk alone that is being filled"
}

# A command's answer by these images begins so.
answers() {
    wanted=$1 words=$2
    shift 2
    # shellcheck disable=SC2086
    "$ddf" --yes "$@" -- $words >"$work/answer" 2>"$work/said" || true
    case $(cat "$work/answer") in "$wanted"*) ;; *) fail "$words of $name says $(cat "$work/answer" "$work/said")" ;; esac
}

# What each of these disks is used as, in their order.
uses() {
    "$ddf" "$@" -- show 2>/dev/null | sed -n 's/^member [0-9a-f]* slot [0-9]* size [0-9]*\(.*\)$/\1;/p' | tr -d '\n'
}

# They are used so, and that many of them have a spare record.
used() {
    wanted=$1 records=$2
    shift 2
    [ "$(uses "$@")" = "$wanted" ] || fail "the disks of $name are used as '$(uses "$@")', and not '$wanted'"
    [ "$("$ddf" "$@" -- examine 2>/dev/null | grep -c '^record [0-9]* spare ')" = "$records" ] || fail "not $records disks of $name have a spare record"
}

# Keeps all disks as they are, and brings them back.
keep() { rm -rf "$work/kept" && cp -r --sparse=always "$work/disks" "$work/kept"; }
bring() { cp --sparse=always "$work/kept"/* "$work/disks"; }

# Makes an array and its blocks, and two of its last three disks spares.
make_spared() {
    name=$1
    make "$@"
    # shellcheck disable=SC2086
    set -- $images
    revertible=${*:$(($# - 2)):1} global=${*:$(($# - 1)):1} free=${!#}
    size=$("$ddf" "$@" -- show 2>/dev/null | sed -n "s/^array $name blocks \([0-9]*\) optimal$/\1/p")
    blocks "$size" "$name" >"$work/first"
    "$ddf" "$@" -- write "$name" 0 "$size" <"$work/first" >/dev/null 2>&1 || fail "write of $name failed"
    answers ok "spare $revertible revertible" "$@"
    answers ok "spare $global global" "$@"
}

# A turn in Linux, which reads the blocks and writes others; `ddf` reads those by the images that are left.
turns() {
    blocks "$size" "$name in turn $((turn += 1))" >"$work/new"
    linux_reads "$work/first" "$name" "$@"
    mv "$work/new" "$work/first"
    [ ! -e "$work/lose" ] || set -- "$1" "${@:3}"
    reads "$work/first" "$name" "$@"
    [ "$("$ddf" "$@" -- scrub "$name" 2>/dev/null)" = clean ] || fail "$name isn't clean behind Linux"
}

# What becomes of spares where Linux writes blocks alone, and where it fills a disk behind that or before.
turns_spares() {
    make_spared "$@"
    # shellcheck disable=SC2086
    set -- $images
    left=("$1" "${@:3}")
    before=$(uses "$@")
    turns "$@"
    used "$before" 0 "$@"
    keep
    cp "$work/first" "$work/kept.first"
    : >"$work/lose"
    turns "$@"
    rm "$work/lose"
    found=$(uses "${left[@]}")
    case $found in *revertible* | *dedicated*) fail "spares without a record are $found" ;; *global*global*) ;; *) fail "spares without a record are $found" ;; esac
    bring
    mv "$work/kept.first" "$work/first"
    answers ok "spare $free global" "$@"
    answers ok "spare $free off" "$@"
    used "$before" 2 "$@"
    : >"$work/lose"
    turns "$@"
    rm "$work/lose"
    found=$(uses "${left[@]}")
    case $found in *spare*spare* | *revertible* | *dedicated* | *spare*\;*\;) fail "spares with a record are $found" ;; esac
    answers "" "spare $revertible revertible" "${left[@]}"
    ! grep -q '^refused 33' "$work/answer" || answers ok "spare $global revertible" "${left[@]}"
    answers ok "rebuild $name" "${left[@]:1}"
    reads "$work/first" "$name" "${left[@]:1}"
    echo "linux-itself: $name: spares stay where Linux writes blocks, and are others where it fills a disk"
}

# What becomes of a disk that stands in: before its copyback, behind it, and where that is killed half way.
turns_stand_in() {
    make_spared "$@"
    # shellcheck disable=SC2086
    set -- $images
    set -- "$1" "${@:3}"
    answers ok "rebuild $name" "$@"
    linux_reads "$work/first" "$name" "$@"
    keep
    answers ok "copyback $name $free" "$@"
    turns "$@"
    case $(uses "$@") in *"; spare revertible; spare global;;") ;; *) fail "spares behind a copyback are $(uses "$@")" ;; esac
    bring
    "$ddf" "$@" -- read "$name" 0 "$size" >"$work/first" 2>/dev/null || fail "read of $name failed"
    kill_half "copyback $name $free" "$free" "$@"
    held=$(head -c 40M "$free" | sha256sum)
    turns "$@"
    [ "$(head -c 40M "$free" | sha256sum)" = "$held" ] || fail "Linux writes to a disk that was being filled"
    answers "refused 38" "copyback $name $free" "$@"
    answers "refused 33" "spare $revertible revertible" "$@"
    keep
    answers ok "spare $free revertible" "$@"
    bring
    answers ok "fail $revertible" "$@"
    others=()
    for image; do [ "$image" = "$revertible" ] || others+=("$image"); done
    answers ok "rebuild $name" "${others[@]}"
    reads "$work/first" "$name" "${others[@]}"
    wipefs -q -a -t ddf_raid_member "$revertible"
    "$ddf" --yes "$revertible" -- label linux >/dev/null 2>&1 || fail "label of a wiped disk failed"
    answers ok "@$(group "${others[@]}") import $(group "$revertible")" "${others[@]}" "$revertible"
    answers ok "spare $revertible revertible" "${others[@]}" "$revertible"
    reads "$work/first" "$name" "${others[@]}" "$revertible"
    echo "linux-itself: $name: a disk that stands in is like any behind Linux, and a copyback that is killed half way leaves it nothing to do"
}

# The group of these images.
group() {
    "$ddf" "$@" -- show 2>/dev/null | sed -n 's/^group \([0-9a-f]*\) .*/\1/p'
}

# Of one that Linux doesn't start.
leaves() {
    name=$1
    make "$@"
    # shellcheck disable=SC2086
    runs_linux start $images || fail "Linux didn't run: $(tail -n 5 "$work/boot.log")"
    grep -q '^md[0-9]* : inactive' "$work/linux.log" || fail "Linux made no container of the disks of $name"
    [ -z "$(told sectors)" ] || fail "Linux starts $name"
    echo "linux-itself: Linux doesn't start $name"
}

# Whether an array of this name is tried.
is_asked() {
    [ -z "$asked" ] || case " $asked " in *" $1 "*) ;; *) return 1 ;; esac
}

asked=$*
turn=0
gcc -O1 -shared -fPIC -o "$work/registers.so" "$top/scripts/linux-itself.c" -ldl
gcc -O1 -shared -fPIC -o "$work/faults.so" "$top/scripts/faults.c" -ldl
echo 'uname -r' >"$work/once"
if ! runs_linux once; then
    lacks "Linux doesn't run here as a process: $(tail -n 1 "$work/boot.log")"
    all_tried linux-itself
fi
echo "linux-itself: Linux $(head -n 1 "$work/linux.log")"
while read -r name rest; do
    # shellcheck disable=SC2086
    ! is_asked "$name" || serves "$name" $rest
done <<<"$STARTED"
while read -r name rest; do
    # shellcheck disable=SC2086
    ! is_asked "$name" || leaves "$name" $rest
done <<<"$UNSTARTED"
while read -r name rest; do
    # shellcheck disable=SC2086
    ! is_asked "$name" || leaves_half "$name" $rest
done <<<"$HALF"
while read -r name rest; do
    # shellcheck disable=SC2086
    ! is_asked "$name" || { turns_spares "$name" $rest && turns_stand_in "$name" $rest; }
done <<<"$SPARED"
