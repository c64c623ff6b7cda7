#!/bin/sh
# Makes a tarball of the proved program, its man page, completions, pages, tools and the installer, so that a second machine needs no kit:
#
#     scripts/release.sh [--unchecked] [FOLDER]
#
# It makes one of a commit of which .ci/run has run each check on this machine, with none that failed and none that could not be tried; with
# --unchecked of any text, and BUILT.txt says so.
#
# The program is built by ./ddf, which builds it once all that it stands on is proved. The tarball holds the licence texts that there are: those
# of the kit's crates that the program stands on, by crates.txt, and any of this repository. LICENCES.txt says which there are, and where none is.
set -eu
top=$(cd "$(dirname "$0")/.." && pwd)
is_unchecked=
if [ "${1-}" = --unchecked ]; then
    is_unchecked=yes
    shift
fi
folder=$(cd "${1:-.}" && pwd)
work=$(mktemp -d)
trap 'rm -rf "$work"' EXIT

# The crates that a crate stands on, itself among them, each once.
below() {
    found=$1
    old=
    while [ "$found" != "$old" ]; do
        old=$found
        for name in $old; do found="$found $(sed -n "s/^$name://p" "$top/crates.txt")"; done
        found=$(echo "$found" | tr ' ' '\n' | grep . | sort -u | tr '\n' ' ')
    done
    echo "$found"
}

# Copies the licence texts of a folder, if it has any, and tells of them.
take_licences() {
    told=
    for text in "$2"/LICEN[CS]E* "$2"/COPYING* "$2"/NOTICE*; do
        [ -f "$text" ] || continue
        mkdir -p "$into/licences/$1"
        cp "$text" "$into/licences/$1/"
        told="$told $(basename "$text")"
    done
    echo "$1:${told:- no licence text}"
}

# What .ci/run told last, if it was of this commit and no other text.
commit=$(git -C "$top" rev-parse HEAD)
changes=$(git -C "$top" status --porcelain)
checked=$(sed -n "s/^$commit //p" "$(git -C "$top" rev-parse --absolute-git-dir)/checked" 2>/dev/null || true)
[ -z "$changes" ] || checked=
case $checked in
"failed:"*) is_checked= ;;
*" ran, 0 not") is_checked=yes ;;
*) is_checked= ;;
esac
if [ -z "$is_checked" ] && [ -z "$is_unchecked" ]; then
    echo "release: not each check of .ci/run has passed over this text: ${checked:-it has not run over it}" >&2
    exit 1
fi

"$top/ddf" --version >/dev/null
version=$("$top/ddf" --version)
name=$(echo "$version" | tr ' ' -)-$(uname -m)
into=$work/$name
mkdir -p "$into/program" "$into/man" "$into/completion" "$into/scripts" "$into/docs"
cp "$top/crates/ddf/out/ddf" "$into/program/ddf"
cp "$top"/man/*.8 "$into/man/"
cp -R "$top/tools" "$into/tools"
rm -rf "$into/tools/__pycache__"
cp "$top"/completion/* "$into/completion/"
cp "$top/scripts/ddf-nbd.sh" "$top/scripts/picture.py" "$into/scripts/"
cp -R "$top"/docs/. "$into/docs/"
cp "$top/install" "$top/README.md" "$top/CHANGELOG.md" "$top/TODO.md" "$into/"

{
    take_licences "this repository" "$top"
    if command -v rt >/dev/null; then
        kit=$(dirname "$(dirname "$(readlink -f "$(command -v rt)")")")
        take_licences "the kit itself, its standard library and its runtime" "$kit"
        for crate in $(below ddf); do
            [ -d "$top/crates/$crate" ] || take_licences "$crate" "$kit/rattle/$crate"
        done
    else
        echo "the kit: not at hand when this was made"
    fi
} >"$into/LICENCES.txt"
cat "$into/LICENCES.txt"

{
    echo "$version, as ./ddf has built it, which builds the program once all that it stands on is proved."
    echo "The repository at $commit${changes:+, with changes that are not committed}."
    echo "Checks: ${checked:-not run over this text}."
    ! command -v rt >/dev/null || rt version
} >"$into/BUILT.txt"

find "$into" -type d -exec chmod 755 {} +
find "$into" -type f -exec chmod 644 {} +
chmod 755 "$into/install" "$into/program/ddf" "$into/scripts/ddf-nbd.sh" "$into/scripts/picture.py"
find "$into/tools" -name 'ddf-*' ! -name '*.*' -exec chmod 755 {} +
(cd "$into" && find . -type f ! -name SHA256SUMS | sort | xargs sha256sum >"$work/sums" && mv "$work/sums" SHA256SUMS)
tar -C "$work" --sort=name --owner=0 --group=0 --numeric-owner --mtime="@$(git -C "$top" show -s --format=%ct HEAD)" -cf - "$name" |
    gzip -9n >"$folder/$name.tar.gz"
echo "release: $folder/$name.tar.gz"
