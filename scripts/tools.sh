#!/bin/sh
# Tries the tools of tools/, each as its page says, over images that are made here: scripts/tools.sh [PROGRAM [PART..]]
#
# The parts are check, save, try, json, scan, guard, dmsetup, nbd, udev, units, pages, deb. Nothing of the system changes. What a part needs and isn't here
# is named in the last line, `tools: not tried: ..`, and the status is 77 then.
set -eu
PATH=$PATH:/sbin:/usr/sbin
top=$(cd "$(dirname "$0")/.." && pwd)
. "$top/scripts/lacking.sh"
DDF=$(readlink -f "${1:-${DDF:-$top/ddf}}")
export DDF
[ "$#" = 0 ] || shift
parts=${*:-check save try json scan guard dmsetup nbd udev units pages deb}
work=$(mktemp -d)
trap 'rm -rf "$work"' EXIT
TMPDIR=$work
export TMPDIR
mkdir "$work/here"
cd "$work/here"

fail() {
    echo "tools: $part: $*" >&2
    exit 1
}

# Runs the program, without what it says to people, and asks nothing.
ddf() { "$DDF" --yes "$@" 2>/dev/null; }

# Calls a tool, keeps what it prints in `printed` and what it says in `said`, and compares its status with the first word.
tool() {
    wanted=$1
    name=$2
    shift 2
    status=0
    "$top/tools/$name" "$@" >printed 2>said </dev/null || status=$?
    [ "$status" = "$wanted" ] || fail "$name $* ended with $status, not $wanted: $(cat printed said)"
}

# Looks for a line, as it stands, in what a tool printed.
has() { grep -qxF -e "$1" printed || fail "$name doesn't print '$1' but: $(cat printed)"; }

# Four disks: a RAID 5 that is resynced and filled, a RAID 0, and a spare.
make_group() {
    rm -f d?.img
    truncate -s 32M d0.img d1.img d2.img d3.img
    printf 'create home raid5.rnc 7 single 0,1,2@8192\nresync home\ncreate fast raid0 5 single 0,1@4096\nspare 3 for home\n' >lines
    ddf d?.img -- label >/dev/null
    ddf d?.img -- batch <lines >/dev/null || fail "the group isn't made"
    head -c 8388608 /dev/urandom | ddf d?.img -- write home 0 16384 >/dev/null || fail "the group isn't filled"
}

guid() { ddf "$@" -- show | sed -n 's/^group \([0-9a-f]*\) .*/\1/p'; }
member() { ddf d?.img -- show | sed -n "s/^member \([0-9a-f]*\) slot $1 .*/\1/p"; }

try_check() {
    tool 0 ddf-check d?.img
    has "DDF OK: array home blocks 16384 optimal; array fast blocks 8192 optimal"
    tool 0 ddf-check --quiet --scrub d?.img
    [ ! -s printed ] || fail "--quiet prints $(cat printed)"
    tool 0 ddf-check --group "$(guid d?.img)" d?.img
    tool 3 ddf-check --group 00 d?.img
    lost=$(member 3)
    tool 2 ddf-check d0.img d1.img d2.img
    has "member $lost absent"
    tool 2 ddf-check --quiet d0.img d1.img d2.img nosuch.img
    has "array home blocks 16384 optimal"
    tool 2 ddf-check d1.img d2.img d3.img
    has "array fast blocks 8192 failed"
    tool 3 ddf-check d?.img nosuch.img
    tool 3 ddf-check nosuch.img
    tool 3 ddf-check
    tool 3 ddf-check --nosuch d0.img
    status=0
    flock -x d3.img "$top/tools/ddf-check" d?.img >printed 2>said || status=$?
    [ "$status" = 3 ] || fail "a lock gives $status: $(cat printed said)"
    # A byte of a copy of the disks is changed behind the program's back: only a scrub finds it.
    mkdir other
    cp --sparse=always d?.img other/
    printf x | dd of=other/d1.img bs=1 conv=notrunc 2>/dev/null
    printf y | dd of=other/d1.img bs=1 seek=1 conv=notrunc 2>/dev/null
    tool 0 ddf-check other/d?.img
    tool 2 ddf-check --scrub other/d?.img
    has "array home differs element 0 row 0"
    tool 2 ddf-check d?.img other/d1.img
    grep -q '^conflict slots 1 4 ' printed || fail "a twin isn't named: $(cat printed)"
    # The second copy of a disk is damaged: its member is behind. An array called `unusable` is none.
    ddf other/d?.img -- create unusable jbod 0 single 3@8 >/dev/null || true
    printf x | dd of=other/d3.img bs=512 seek=65455 conv=notrunc 2>/dev/null
    tool 1 ddf-check other/d?.img
    grep -q ' behind$' printed || fail "it doesn't tell what is behind"
    # A degraded array, and a missing member that no array needs any more.
    ddf other/d0.img other/d2.img other/d3.img -- delete fast >/dev/null
    tool 1 ddf-check other/d0.img other/d2.img other/d3.img
    has "array home blocks 16384 degraded"
    ddf other/d0.img other/d2.img other/d3.img -- rebuild home >/dev/null
    tool 0 ddf-check other/d0.img other/d2.img other/d3.img
    grep -q '^member .* missing$' printed || fail "a missing member isn't told"
    ddf other/d0.img other/d2.img other/d3.img -- create new raid1 0 single 0,1@8 >/dev/null
    tool 1 ddf-check other/d0.img other/d2.img other/d3.img
    has "array new blocks 8 optimal marked"
    rm -r other
}

# Compares images with their checksums, and names what they were to be.
same() { [ "$(cksum d?.img)" = "$before" ] || fail "the images aren't $1"; }

try_save() {
    before=$(cksum d?.img)
    rm -f saved*
    tool 0 ddf-save save saved d?.img
    same "as they were after save"
    tool 2 ddf-save list d0.img
    tool 3 ddf-save save saved d?.img
    tool 0 ddf-save list saved
    [ "$(grep -c "group $(guid d?.img) sequence" printed)" = 4 ] || fail "list prints $(cat printed)"
    tool 0 ddf-save diff saved d?.img
    # What delete and fail did is undone, byte by byte.
    ddf d?.img -- delete fast >/dev/null
    ddf d?.img -- fail 3 >/dev/null
    tool 1 ddf-save diff saved d?.img
    has "-array fast blocks 8192 optimal"
    after=$(cksum d?.img)
    tool 3 ddf-save restore saved d?.img
    tool 4 ddf-save restore --yes saved d0.img d1.img d2.img
    [ "$(cksum d?.img)" = "$after" ] || fail "a refused restore writes"
    tool 0 ddf-save restore --yes saved d3.img d1.img d0.img d2.img
    same "as they were saved"
    # Twice within a second: each keeps what it found.
    for name in a b; do
        ddf d?.img -- create $name jbod 0 single 0@8 >/dev/null
        tool 0 ddf-save restore --yes saved d?.img
        same "as they were saved"
        mv "$(sed -n 's/.* is in //p' printed)" "again.$name"
        ls saved.before-* >/dev/null 2>&1 || fail "what the first restore found is gone"
    done
    before=$after
    tool 0 ddf-save restore --yes saved.before-* d?.img
    same "as restore found them"
    rm saved.before-*
    tool 0 ddf-save restore --yes saved d?.img
    rm saved.before-*
    before=$(cksum d?.img)
    # An end that is wiped, wholly or its signature alone.
    dd if=/dev/zero of=d1.img bs=512 seek=65400 count=136 conv=notrunc 2>/dev/null
    printf '\0\0\0\0' | dd of=d2.img bs=512 seek=65535 conv=notrunc 2>/dev/null
    tool 0 ddf-save restore --yes --some saved d1.img d2.img
    same "as before their ends were wiped"
    rm saved.before-*
    # Other disks: of another size, another disk of the group under its name, a foreign one, an empty one, one with something at its end.
    mkdir other
    truncate -s 33M other/d0.img
    truncate -s 32M other/d1.img other/d2.img other/d3.img
    ddf other/d1.img -- label >/dev/null
    cp other/d2.img kept.img
    for image in other/d0.img other/d1.img other/d2.img; do tool 4 ddf-save restore --yes --some saved $image; done
    cmp -s other/d2.img kept.img || fail "a refused restore writes"
    mv d2.img d2 && cp other/d2.img d2.img
    tool 4 ddf-save restore --yes --some saved d2.img
    cp d2 d2.img && dd if=/dev/zero of=d2.img bs=512 seek=65400 count=136 conv=notrunc 2>/dev/null
    printf 'EFI PART and more' | dd of=d2.img bs=512 seek=65535 conv=notrunc 2>/dev/null
    tool 4 ddf-save restore --yes --some saved d2.img
    grep -q 'sector 65535' said || fail "it doesn't say what lies there: $(cat said)"
    mv d2 d2.img
    # A file that is damaged, and blocks that were written.
    sed 's/"zlib": "eJ/"zlib": "eK/' saved >damaged
    tool 2 ddf-save restore --yes damaged d?.img
    head -c 8388608 /dev/urandom | ddf d?.img -- write home 0 16384 >/dev/null
    tool 1 ddf-save diff saved d?.img
    grep -q 'blocks were written' printed || fail "it doesn't tell of blocks that were written"
    rm -r other kept.img damaged saved
}

# Compares what ddf-try prints of a command with what the program prints over whole copies.
compare_try() {
    mkdir whole
    cp --sparse=always d?.img whole/
    status=0
    (cd whole && ddf d?.img -- "$@") >wanted || status=$?
    (cd whole && ddf d?.img -- show) >shown
    tool "$status" ddf-try d?.img -- "$@"
    sed -n "/^$1.*:\$/,/^  status/p" printed | grep -v -e '^  ' -e ':$' >found || true
    cmp -s found wanted || fail "of $* it prints $(cat printed), not $(cat wanted)"
    sed -n '/^after:/,$s/^  //p' printed | grep -v '^ddf: ' >found
    cmp -s found shown || fail "behind $* it shows $(cat found), not $(cat shown)"
    rm -r whole
}

try_try() {
    before=$(cksum d?.img)
    compare_try delete fast
    compare_try spare d3.img global
    compare_try fail 1
    compare_try nonsense
    tool 1 ddf-try d?.img -- label
    tool 2 ddf-try d?.img
    tool 3 ddf-try nosuch.img -- show
    tool 0 ddf-try --keep kept d?.img
    [ "$(ddf kept/slot?.img -- show)" = "$(ddf d?.img -- show)" ] || fail "the kept copies show another group"
    grep -q '^array home .* init 02$' kept/about.txt || fail "about.txt doesn't say what examine prints"
    [ "$(du -sk kept | cut -f 1)" -lt 400 ] || fail "the kept copies aren't small"
    # At a terminal nobody is asked, as it is about copies.
    if command -v script >/dev/null; then
        script -qec "'$top/tools/ddf-try' d?.img -- delete fast" /dev/null >printed 2>said </dev/null || fail "at a terminal it ends otherwise: $(cat printed)"
        case $(cat printed) in *"go on?"*) fail "at a terminal it asks: $(cat printed)" ;; esac
    else
        lacks "try: a terminal, as there is no script"
    fi
    same "as they were"
    rm -r kept
}

try_json() {
    "$top/scripts/tools_json.py"
    tool 0 ddf-json d?.img
    python3 - printed "$(guid d?.img)" <<'TEXT' || fail "it tells $(cat printed)"
import json, sys
told = json.load(open(sys.argv[1]))
group = told["answers"][0]
assert told["status"] == 0 and told["command"] == "show" and group["guid"] == sys.argv[2]
assert [member["image"] for member in group["members"]] == ["d0.img", "d1.img", "d2.img", "d3.img"]
assert [(array["name"], array["bytes"], array["state"]) for array in group["arrays"]] == [("home", 8388608, "optimal"), ("fast", 4194304, "optimal")]
TEXT
    tool 1 ddf-json d?.img -- delete nosuch
    python3 -c 'import json; answer = json.load(open("printed"))["answers"][0]; assert answer["number"] == 16 and answer["because"][0]["way_out"]' ||
        fail "a refusal has no number or no way out: $(cat printed)"
    tool 0 ddf-json d?.img -- examine
    tool 2 ddf-json d?.img -- read home 0 1
    # The image beside each slot is its own behind --yes too.
    tool 0 ddf-json --yes d?.img
    [ "$(sed -n 's/.*"image": "\(.*\)".*/\1/p' printed | xargs)" = "d0.img d1.img d2.img d3.img" ] || fail "--yes is taken for an image: $(cat printed)"
    # At a terminal nobody is asked, so nothing is done without --yes.
    if command -v script >/dev/null; then
        before=$(cksum d?.img)
        for streams in "" "2>told" ">told 2>&1" "</dev/null 2>told"; do
            status=0
            script -qec "'$top/tools/ddf-json' d?.img -- delete fast $streams" /dev/null >printed 2>said </dev/null || status=$?
            [ "$status" = 3 ] || fail "at a terminal, with $streams, it ends with $status: $(cat printed)"
            [ "$(cksum d?.img)" = "$before" ] || fail "at a terminal, with $streams, it does what it should ask about"
        done
    else
        lacks "json: a terminal, as there is no script"
    fi
}

try_scan() {
    truncate -s 32M blank.img e0.img e1.img
    ddf e0.img e1.img -- label >/dev/null
    tool 0 ddf-scan d?.img e?.img blank.img
    has "group $(guid d?.img) sequence $(ddf d?.img -- show | sed -n '1s/.* //p'): whole, 4 here"
    has "group $(guid e?.img) sequence 1: whole, 2 here"
    has "  d3.img: member $(member 3), 15.96 MiB, dedicated spare"
    has "  array home: 8 MiB, optimal"
    has "blank.img: no anchor in its last sector"
    lost=$(member 2)
    tool 1 ddf-scan d0.img d1.img d3.img
    has "  absent: member $lost"
    tool 2 ddf-scan d?.img ./d0.img
    cp e0.img twin.img
    tool 1 ddf-scan e0.img twin.img
    tool 3 ddf-scan e0.img e1.img nosuch.img
    tool 4 ddf-scan blank.img
    tool 2 ddf-scan --nosuch
    rm blank.img e?.img twin.img
}

try_guard() {
    mkdir -p root/etc/mdadm root/proc
    printf '# words\nHOMEHOST <system>\n' >root/etc/mdadm/mdadm.conf
    cp root/etc/mdadm/mdadm.conf kept.conf
    tool 1 ddf-guard --root root check
    tool 0 ddf-guard --root root on
    tool 0 ddf-guard --root root on
    [ "$(grep -c '^AUTO -ddf' root/etc/mdadm/mdadm.conf)" = 1 ] || fail "mdadm.conf has $(cat root/etc/mdadm/mdadm.conf)"
    grep -qx 'SUBSYSTEM=="block", ENV{ID_FS_TYPE}=="ddf_raid_member", ENV{SYSTEMD_READY}="0"' root/etc/udev/rules.d/63-ddf-guard.rules ||
        fail "there is no rule"
    tool 0 ddf-guard --root root check
    cat >root/proc/mdstat <<'TEXT'
Personalities : [raid1]
md126 : active raid1 sda[1] sdb[0]
      65536 blocks super external:/md127/0 [2/2] [UU]
md127 : inactive sdb[1](S) sda[0](S)
      65536 blocks super external:ddf
TEXT
    tool 1 ddf-guard --root root check
    has "Linux holds such disks now: container md127, arrays md126"
    rm root/proc/mdstat
    tool 0 ddf-guard --root root off
    cmp -s root/etc/mdadm/mdadm.conf kept.conf || fail "off leaves mdadm.conf changed"
    [ -z "$(find root/etc/udev -type f)" ] || fail "off leaves a rule"
    tool 0 ddf-guard --root root off
    # A line of somebody else's stays as it is, and counts.
    echo 'auto +1.x -all' >>root/etc/mdadm/mdadm.conf
    cp root/etc/mdadm/mdadm.conf kept.conf
    tool 0 ddf-guard --root root on
    cmp -s root/etc/mdadm/mdadm.conf kept.conf || fail "it changes a file that has an AUTO line"
    tool 0 ddf-guard --root root check
    tool 2 ddf-guard --root root
    tool 2 ddf-guard --root root nosuch
    rm -r root kept.conf
    # mdadm's own rule has to stand behind this one, and to leave alone what isn't ready.
    assembly=$(find /lib/udev/rules.d /usr/lib/udev/rules.d -name '*-md-raid-assembly.rules' 2>/dev/null | head -n 1)
    if [ -n "$assembly" ]; then
        grep -q '^ENV{SYSTEMD_READY}=="0", GOTO=' "$assembly" || fail "$assembly doesn't look at SYSTEMD_READY"
        [ "$(basename "$assembly" | cut -c 1-2)" -gt 63 ] || fail "$assembly stands before it"
    else
        lacks "guard beside mdadm's rule: no mdadm"
    fi
}

try_dmsetup() {
    "$top/scripts/tools_dm.py"
    tool 2 ddf-dmsetup
    tool 1 ddf-dmsetup nosuch d?.img
    tool 1 ddf-dmsetup home d?.img
    tool 3 ddf-dmsetup fast d?.img nosuch.img
}

try_nbd() {
    if ! command -v nbdkit >/dev/null || ! command -v nbdcopy >/dev/null || ! nbdkit --dump-plugin python >/dev/null 2>&1; then
        lacks "nbd: no nbdkit with python, or no nbdcopy"
        return 0
    fi
    ddf d?.img -- read home 0 16384 >wanted
    for left in none d0.img d2.img; do
        set --
        for image in d0.img d1.img d2.img d3.img; do [ "$image" = "$left" ] || set -- "$@" "image=$image"; done
        rm -f got
        # shellcheck disable=SC2016
        nbdkit -U - python "$top/tools/ddf-nbd.py" "program=$DDF" array=home "$@" --run 'nbdcopy "$uri" got' || fail "nothing is served without $left"
        cmp -s got wanted || fail "without $left other bytes are served than read gives"
    done
    # shellcheck disable=SC2016
    nbdkit -U - --filter=offset python "$top/tools/ddf-nbd.py" "program=$DDF" array=home "$@" offset=1000 range=2000000 --run 'nbdcopy "$uri" got' ||
        fail "bytes that are no whole blocks aren't served"
    tail -c +1001 wanted | head -c 2000000 | cmp -s - got || fail "other bytes are served where they are no whole blocks"
    # A program that fails on block 3000: only requests for it fail, and none for the other blocks of its piece.
    cat >faulty <<'TEXT'
#!/bin/sh
for word; do start=${count-} count=$word; done
case " $* " in *" read home "*) ;; *) exec "$DDF" "$@" ;; esac
[ "$start" -le 3000 ] && [ 3000 -lt $((start + count)) ] || exec "$DDF" "$@"
"$DDF" "$@" | head -c $(((3000 - start) / 2048 * 2048 * 512))
exit 3
TEXT
    chmod +x faulty
    # shellcheck disable=SC2016
    nbdkit -U - --filter=offset python "$top/tools/ddf-nbd.py" "program=$PWD/faulty" array=home "$@" offset=1100000 range=400000 --run 'nbdcopy "$uri" got' ||
        fail "a block that can't be read makes others of its piece fail"
    tail -c +1100001 wanted | head -c 400000 | cmp -s - got || fail "other bytes are served beside a block that can't be read"
    # shellcheck disable=SC2016
    ! nbdkit -U - --filter=offset python "$top/tools/ddf-nbd.py" "program=$PWD/faulty" array=home "$@" offset=1535000 range=2000 --run 'nbdcopy "$uri" got' 2>said ||
        fail "a block that can't be read is served"
    # shellcheck disable=SC2016
    nbdkit -U - python "$top/tools/ddf-nbd.py" "program=$DDF" array=home "$@" --run 'nbdinfo "$uri"' >info || fail "nbdinfo ends with an error"
    grep -q 'is_read_only: true' info || fail "it isn't read only: $(cat info)"
    ! nbdkit -U - python "$top/tools/ddf-nbd.py" "program=$DDF" array=fast image=d0.img --run true 2>said || fail "a failed array is served"
    grep -q "it can't be read: it is failed" said || fail "of a failed array it says $(cat said)"
    ! nbdkit -U - python "$top/tools/ddf-nbd.py" "program=$DDF" array=none "$@" --run true 2>said || fail "no array is served"
}

try_udev() {
    tool 0 ddf-udev-id d1.img
    has "DDF_GROUP=$(guid d?.img)"
    has "DDF_MEMBER=$(member 1)"
    cp d1.img damaged.img
    for sector in 65455 65495; do printf x | dd of=damaged.img bs=512 seek=$sector conv=notrunc 2>/dev/null; done
    tool 0 ddf-udev-id damaged.img
    has "DDF_GROUP=$(guid d?.img)"
    has "DDF_MEMBER=unknown-damaged.img"
    truncate -s 32M blank.img
    tool 0 ddf-udev-id blank.img
    [ ! -s printed ] || fail "of a blank disk it prints $(cat printed)"
    tool 2 ddf-udev-id
    rm damaged.img blank.img
}

try_units() {
    if ! command -v systemd-analyze >/dev/null; then
        lacks "units: no systemd-analyze"
        return 0
    fi
    systemd-analyze verify "$top/tools/ddf-check.service" "$top/tools/ddf-check.timer" >said 2>&1 || fail "systemd-analyze: $(cat said)"
    [ ! -s said ] || fail "systemd-analyze says: $(cat said)"
}

try_pages() {
    for page in "$top"/tools/ddf-*; do
        name=$(basename "$page")
        [ -x "$page" ] || continue
        sh -n "$page" 2>/dev/null || python3 -c 'import ast, sys; ast.parse(open(sys.argv[1]).read())' "$page" || fail "$name can't be read"
        tool 0 "$name" --help
        [ -s printed ] || fail "$name --help prints nothing"
        [ "$name" = ddf-udev-id ] && continue
        [ -f "$top/man/$name.8" ] || fail "$name has no man page"
        grep -q "^## $name\$" "$top/docs/TOOLS.md" || fail "docs/TOOLS.md has no part $name"
        # shellcheck disable=SC2013
        for option in $(grep -o -e '--[a-z]*' printed | sort -u); do
            [ "$option" = -- ] || grep -q -e "Fl -${option#--}" -e "$option" "$top/man/$name.8" || [ "$option" = --concise ] || [ "$option" = --sparse ] ||
                [ "$option" = --stop ] || fail "man/$name.8 doesn't tell of $option"
        done
    done
    if command -v mandoc >/dev/null; then
        mandoc -T lint -W style "$top"/man/ddf-*.8 >said 2>&1 || true
        ! grep -v -e 'mandoc.db' -e 'referenced manual not found' said | grep -q . || fail "mandoc: $(cat said)"
    else
        lacks "man pages: no mandoc"
    fi
}

try_deb() {
    if ! command -v dpkg-deb >/dev/null; then
        lacks "deb: no dpkg-deb"
        return 0
    fi
    # ./ddf is no program but what builds it, which deb.sh does itself.
    set -- --program "$DDF"
    [ "$DDF" != "$top/ddf" ] || set --
    "$top/scripts/deb.sh" --try "$@" . >said 2>&1 || fail "$(cat said)"
    tail -n 1 said
}

part=group
make_group
for part in $parts; do
    "try_$part"
    echo "tools: $part is as its page says"
done
all_tried tools
