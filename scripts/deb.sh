#!/bin/sh
# Makes a Debian package of the built program, its tools, man pages, completions and pages:
#
#     scripts/deb.sh [--try] [--program PROGRAM] [FOLDER]
#
# What it holds is what ./install puts below /usr. With --try the package is then installed into an empty root by dpkg, the program labels an image
# there, and the package is removed: nothing may stay. No scripts run at its installation, and no service is started.
set -eu
top=$(cd "$(dirname "$0")/.." && pwd)

fail() {
    echo "deb: $*" >&2
    exit 1
}

is_tried=
program=
while [ "$#" -gt 0 ]; do
    case $1 in
    --help | -h) sed -n '2,/^set /{s/^# \{0,1\}//p}' "$0" && exit 0 ;;
    --try) is_tried=yes ;;
    --program)
        [ "$#" -gt 1 ] || fail "--program wants a file"
        program=$(readlink -f "$2")
        shift
        ;;
    -*) fail "there is no word $1: see scripts/deb.sh --help" ;;
    *) break ;;
    esac
    shift
done
folder=$(cd "${1:-.}" && pwd)
work=$(mktemp -d)
trap 'rm -rf "$work"' EXIT

# What ./install takes, laid out as in a release, with the program in its place.
mkdir -p "$work/from/program" "$work/tree"
for part in install man completion tools docs scripts; do cp -R "$top/$part" "$work/from/"; done
if [ -z "$program" ]; then
    "$top/ddf" --version >/dev/null
    program=$top/crates/ddf/out/ddf
fi
cp "$program" "$work/from/program/ddf"
chmod 755 "$work/from/program/ddf"
DESTDIR=$work/tree "$work/from/install" /usr >/dev/null

version=$("$program" --version | cut -d ' ' -f 2)
architecture=$(dpkg --print-architecture)
package=ddf-raid_${version}_$architecture.deb
mkdir "$work/tree/DEBIAN"
cat >"$work/tree/DEBIAN/control" <<TEXT
Package: ddf-raid
Version: $version
Architecture: $architecture
Maintainer: the makers of ddf <root@localhost>
Installed-Size: $(du -sk "$work/tree/usr" | cut -f 1)
Depends: libc6
Recommends: python3, udev
Suggests: nbdkit, nbdkit-plugin-python, libnbd-bin, dmsetup, gddrescue
Section: admin
Priority: optional
Description: RAID metadata in the SNIA Common RAID Disk Data Format
 Reads and changes the records that RAID controllers and Linux's mdadm leave on
 disks, and the arrays that they describe, with tools around it.
TEXT
(cd "$work/tree" && find usr -type f | sort | xargs md5sum >DEBIAN/md5sums)
find "$work/tree" -type d -exec chmod 755 {} +
dpkg-deb --build --root-owner-group "$work/tree" "$folder/$package" >/dev/null || fail "dpkg-deb made no package"
echo "deb: $folder/$package"
[ -n "$is_tried" ] || exit 0

# A root of its own, in which dpkg knows of no package; what it depends on isn't there, which --force-depends passes over.
root=$work/root
mkdir -p "$root/var/lib/dpkg/info" "$root/var/lib/dpkg/updates" "$root/var/lib/dpkg/triggers"
: >"$root/var/lib/dpkg/status"
: >"$root/var/lib/dpkg/available"
run_dpkg() { dpkg --root="$root" --force-depends --force-not-root --log=/dev/null "$@" >"$work/said" 2>&1 || fail "dpkg $1: $(cat "$work/said")"; }
find "$root" ! -type d ! -path '*/var/lib/dpkg/*' >"$work/before"
run_dpkg --install "$folder/$package"
truncate -s 32M "$work/d0.img"
told=$("$root/usr/bin/ddf" "$work/d0.img" -- label) || fail "the installed program labels nothing"
[ "$told" = "ok sequence 1" ] || fail "the installed program says $told"
env -u DDF "$root/usr/bin/ddf-check" "$work/d0.img" >"$work/said" || fail "the installed ddf-check says $(cat "$work/said")"
env -u DDF "$root/usr/bin/ddf-scan" "$work/d0.img" | grep -q ': whole, 1 here$' || fail "the installed ddf-scan finds nothing"
env -u DDF "$root/usr/bin/ddf-json" "$work/d0.img" -- delete no >"$work/said" || true
grep -q way_out "$work/said" || fail "the installed ddf-json tells no way out: $(cat "$work/said")"
# shellcheck disable=SC2016
grep -q '"/usr/libexec/ddf/ddf-udev-id \$devnode"' "$root/usr/lib/udev/rules.d/61-ddf-by-group.rules" || fail "the rule names no helper"
run_dpkg --purge ddf-raid
find "$root" ! -type d ! -path '*/var/lib/dpkg/*' >"$work/after"
cmp -s "$work/before" "$work/after" || fail "these stay: $(cat "$work/after")"
echo "deb: $package was installed into an empty root, called and removed"
