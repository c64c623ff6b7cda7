"""The speed of `scrub` beside cat of the members of the array: see bench.sh."""

import os
import sys

from measuring import Times, compared
from read_speed import SECTOR, Layout, told, turned

# 256 MiB of data over three members.
PARITY = Layout("raid5.rnc", 0, 262144, 2, turned)
MIRROR = Layout("raid1", 0, 262144, 1, lambda strips, number: 2 * strips)


def filled(program, folder, layout, slots, whole=os.devnull):
    """Labelled disks with one array over all of them, files of what it has on each, and one of its data."""
    folder.mkdir()
    images = [str(folder / f"{slot}.img") for slot in range(slots)]
    for image in images:
        with open(image, "wb") as disk:
            disk.truncate(SECTOR * layout.blocks + (32 << 20))
    told([program, *images, "--", "label"])
    told([program, *images, "--", "create", "array", layout.level, "7", *layout.elements(slots)])
    disks = [open(image, "r+b") for image in images]
    with open(whole, "wb") as data:
        data.write(layout.fill(disks))
    copies = []
    for disk, image in zip(disks, images):
        copies.append(image + ".member")
        disk.seek(SECTOR * layout.start)
        with open(copies[-1], "wb") as member:
            member.write(disk.read(SECTOR * layout.blocks))
        disk.close()
    return images, copies


def scrub_rows(program, work, rounds):
    """Two rows for each array, once it is found clean, and found to differ where a bit of its last sector is changed."""
    for what, layout, slots in (("256 MiB of RAID 5", PARITY, 3), ("128 MiB of RAID 1", MIRROR, 2)):
        images, copies = filled(program, work / layout.level, layout, slots)
        call = [program, *images, "--", "scrub", "array"]
        if told(call) != b"clean\n":
            sys.exit(f"bench: {' '.join(call)} doesn't say clean")
        ours, theirs = Times(), Times()
        for _ in range(rounds):
            ours.add(call)
            theirs.add(["cat", *copies])
        compared(f"`scrub` of {what}", ours, theirs, "cat of its members", "0.6")
        with open(images[-1], "r+b") as disk:
            disk.seek(SECTOR * layout.blocks - 1)
            last = disk.read(1)[0]
            disk.seek(-1, os.SEEK_CUR)
            disk.write(bytes([last ^ 1]))
        if not told(call).startswith(b"differs element 0 row 2047\n"):
            sys.exit(f"bench: {' '.join(call)} misses a difference")
