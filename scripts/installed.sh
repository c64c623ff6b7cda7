#!/bin/sh
# Makes a release, unpacks it, installs it below a folder, and tries what lies there: the program labels an image, with no other file of this
# checkout and none of the kit, the man page is found, and all goes away again. A release of one commit has the same bytes each time.
set -eu
top=$(cd "$(dirname "$0")/.." && pwd)
# shellcheck disable=SC1091
. "$top/scripts/lacking.sh"
work=$(mktemp -d)
trap 'rm -rf "$work"' EXIT

fail() {
    echo "installed: $*" >&2
    exit 1
}

mkdir "$work/once" "$work/twice" "$work/unpacked"
"$top/scripts/release.sh" --unchecked "$work/once" >"$work/told" || fail "no release: $(cat "$work/told")"
"$top/scripts/release.sh" --unchecked "$work/twice" >"$work/told"
tarball=$(echo "$work/once"/ddf-*.tar.gz)
cmp -s "$tarball" "$work/twice/$(basename "$tarball")" || fail "two releases differ"
tar -xzf "$tarball" -C "$work/unpacked" --strip-components=1
(cd "$work/unpacked" && sha256sum -c --quiet SHA256SUMS) || fail "a file isn't what its sum says"
grep -q "^# ddf" "$work/unpacked/README.md" || fail "it has no README.md"
grep -q "^this repository:" "$work/unpacked/LICENCES.txt" || fail "nothing is said of licences"

prefix=$work/prefix
"$work/unpacked/install" "$prefix" >/dev/null
cmp -s "$work/unpacked/program/ddf" "$prefix/bin/ddf" || fail "another program was installed"
truncate -s 32M "$work/d0.img"
told=$(cd "$work" && env -i "$prefix/bin/ddf" d0.img -- label) || fail "the installed program labels nothing"
[ "$told" = "ok sequence 1" ] || fail "the installed program says $told"
for file in share/man/man8/ddf.8 share/man/man8/ddf-check.8 share/ddf/ddf-json.schema.json share/doc/ddf/examples/ddf-check.timer \
    libexec/ddf/ddf-nbd.py share/bash-completion/completions/ddf-save share/fish/vendor_completions.d/ddf-save.fish \
    share/zsh/site-functions/_ddf-tools share/bash-completion/completions/ddf share/zsh/site-functions/_ddf \
    share/fish/vendor_completions.d/ddf.fish libexec/ddf/ddf-nbd.sh libexec/ddf/picture.py share/doc/ddf/RESCUE.md; do
    [ -s "$prefix/$file" ] || fail "$file isn't installed"
done
if command -v nbdkit >/dev/null && command -v nbdinfo >/dev/null; then
    "$prefix/bin/ddf" "$work/d0.img" -- create data jbod 0 single 0@64 >/dev/null
    # shellcheck disable=SC2016
    size=$(cd "$work" && nbdkit -U - sh "$prefix/libexec/ddf/ddf-nbd.sh" array=data d0.img --run 'nbdinfo --size "$uri"') || fail "the installed plugin serves nothing"
    [ "$size" = 32768 ] || fail "the installed plugin serves $size bytes"
else
    lacks "the plugin: no nbdkit or no nbdinfo"
fi
# The tools find the program that was installed with them, by the links of their names, with no DDF.
for tool in ddf-check ddf-save ddf-try ddf-json ddf-scan ddf-guard ddf-dmsetup; do
    env -u DDF "$prefix/bin/$tool" --help >/dev/null || fail "the installed $tool doesn't run"
done
env -u DDF "$prefix/bin/ddf-check" "$work/d0.img" >/dev/null || fail "the installed ddf-check doesn't find the program"
env -u DDF "$prefix/bin/ddf-scan" "$work/d0.img" | grep -q ': whole, 1 here$' || fail "the installed ddf-scan finds nothing"
env -u DDF "$prefix/bin/ddf-json" "$work/d0.img" -- delete nosuch >"$work/told" || true
grep -q way_out "$work/told" || fail "the installed ddf-json tells no way out"
grep -q "\"$prefix/libexec/ddf/ddf-udev-id " "$prefix/lib/udev/rules.d/61-ddf-by-group.rules" || fail "the rule doesn't name its helper"
"$prefix/libexec/ddf/ddf-udev-id" "$work/d0.img" | grep -q '^DDF_MEMBER=' || fail "the helper of the rule tells nothing"
"$prefix/libexec/ddf/picture.py" "$work/d0.img" | grep -q "slot 0 d0.img" || fail "the installed picture.py draws nothing"
if command -v man >/dev/null && man -w man >/dev/null 2>&1; then
    man -M "$prefix/share/man" -w 8 ddf >/dev/null || fail "man doesn't find the page"
else
    lacks "the man page: no man"
fi

"$work/unpacked/install" "$prefix" >/dev/null || fail "it can't be installed over itself"
DESTDIR=$work/package "$work/unpacked/install" /usr >/dev/null
[ -x "$work/package/usr/bin/ddf" ] || fail "DESTDIR isn't heeded"
"$work/unpacked/install" --remove "$prefix"
[ -z "$(find "$prefix" ! -type d)" ] || fail "these stay: $(find "$prefix" ! -type d)"
[ ! -d "$prefix/libexec/ddf" ] || fail "an empty folder stays"
# The rule names its helper below each folder that it can name, and isn't put there with half a name.
"$work/unpacked/install" "$work/a|b&c" >/dev/null
grep -qF "\"$work/a|b&c/libexec/ddf/ddf-udev-id " "$work/a|b&c/lib/udev/rules.d/61-ddf-by-group.rules" || fail "the rule doesn't name its helper below a|b&c"
"$work/unpacked/install" "$work/with blank" >/dev/null 2>"$work/told"
grep -q "the rule of udev isn't installed" "$work/told" || fail "a rule that can't name its helper is installed"
[ -x "$work/with blank/bin/ddf" ] || fail "a folder with a blank isn't taken"
# What another version put there stays, and is told.
: >"$work/with blank/share/doc/ddf/OLD.md"
! "$work/unpacked/install" --remove "$work/with blank" 2>"$work/told" || fail "a page of another version stays unsaid"
grep -q "share/doc/ddf stays, since it isn't empty" "$work/told" || fail "said $(cat "$work/told") of a page of another version"
if "$work/unpacked/install" 2>/dev/null || "$work/unpacked/install" a b 2>/dev/null || "$work/unpacked/install" --help 2>/dev/null; then
    fail "wrong words are taken"
fi
echo "installed: a release is unpacked, installed, tried and removed"
all_tried installed
