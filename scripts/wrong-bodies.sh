#!/bin/sh
# Tries the wrong bodies of crates whose proofs are dear: each edit of crates/NAME/wrong/ must be refused. The gate tries those in
# must-fail/ alone, since it proves a crate once more from nothing for the sake of its edits; these are tried over what a check
# kept. They are run over each crate whose contracts a change touches, and over all before a change is called done.
#
#     scripts/wrong-bodies.sh [NAME..]
set -eu
top=$(cd "$(dirname "$0")/.." && pwd)
work=$(mktemp -d)
trap 'rm -rf "$work"' EXIT

# Every crate that has some, or those that are named.
names=${*:-$(cd "$top/crates" && ls -d */wrong | sed 's,/wrong,,')}

# The copy has no built work: it gets the libraries that the gate kept, and of a kit that keeps none those that checks built in this
# checkout; rt builds anew what isn't of these files.
(cd "$top" && tar cf - --exclude=out --exclude=.git .) | (cd "$work" && tar xf -)
cd "$work"
git init -q .
"$top/scripts/kept.py" "$work" ||
    (cd "$top" && find crates -path 'crates/*/out/rlib' -prune -print | tar cf - -T -) | tar xf -
failed=0
for name in $names; do
    mkdir -p "crates/$name/must-fail"
    mv "crates/$name/wrong"/*.edit "crates/$name/must-fail/"
    rt must-fail "$name" || failed=1
    mv "crates/$name/must-fail"/*.edit "crates/$name/wrong/"
done
exit "$failed"
