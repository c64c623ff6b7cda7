#!/bin/sh
# Labels two fresh images and asks blkid, of util-linux, what they are: members of a DDF group. Where there is no blkid it
# ends with 77.
set -eu
top=$(cd "$(dirname "$0")/.." && pwd)
# shellcheck disable=SC1091
. "$top/scripts/lacking.sh"
PATH=$PATH:/sbin:/usr/sbin
command -v blkid >/dev/null || lacks "no blkid"
all_tried blkid

work=$(mktemp -d)
trap 'rm -rf "$work"' EXIT
truncate -s 32M "$work/d0.img" "$work/d1.img"
"$top/ddf" "$work/d0.img" "$work/d1.img" -- label
for image in "$work"/*.img; do
    kind=$(blkid -p -o value -s TYPE "$image")
    if [ "$kind" != ddf_raid_member ]; then
        echo "blkid: a labelled image is '$kind'" >&2
        exit 1
    fi
done
echo "blkid: labelled images are members of a DDF group"
