"""The speed of `rebuild` beside cat of what it reads and dd of what it writes: see bench.sh."""

import os
import shutil
import sys

from measuring import Times, compared
from read_speed import SECTOR, told
from scrub_speed import MIRROR, PARITY


def group(program, folder, layout, slots):
    """Labelled disks with one array over all of them but the last, which is a spare, and a file of what it has on each."""
    folder.mkdir()
    images = [str(folder / f"{slot}.img") for slot in range(slots + 1)]
    for image in images:
        with open(image, "wb") as disk:
            disk.truncate(SECTOR * layout.blocks + (32 << 20))
    told([program, *images, "--", "label"])
    members = ",".join(map(str, range(slots)))
    told([program, *images, "--", "create", "array", layout.level, "7", "single", f"{members}@{layout.blocks}"])
    disks = [open(image, "r+b") for image in images[:slots]]
    layout.fill(disks)
    copies = []
    for disk, image in zip(disks, images):
        copies.append(image + ".member")
        disk.seek(SECTOR * layout.start)
        with open(copies[-1], "wb") as member:
            member.write(disk.read(SECTOR * layout.blocks))
        disk.close()
    told([program, "--yes", *images, "--", "accept", "array"])
    told([program, *images, "--", "spare", str(slots), "global"])
    return images, copies


def restored(images):
    """The images as they were, without the second: their records and the spare were written meanwhile."""
    for image in images:
        shutil.copyfile(image + ".before", image)
    return [images[0], *images[2:]]


def rebuild_rows(program, work, rounds):
    """Two rows for each array: its second disk is lost, and what it held is filled on the spare, onto which nothing was written before."""
    for what, layout, slots in (("256 MiB of RAID 5", PARITY, 3), ("128 MiB of RAID 1", MIRROR, 2)):
        images, copies = group(program, work / f"rebuild-{layout.level}", layout, slots)
        for image in images:
            shutil.copyfile(image, image + ".before")
        sources = " ".join([copies[0], *copies[2:slots]])
        peer = ["sh", "-c", f"cat {sources} >/dev/null; dd if={copies[1]} of={images[1]}.out bs=1M conv=fsync,notrunc"]
        ours, theirs = Times(), Times()
        for _ in range(rounds):
            call = [program, *restored(images), "--", "rebuild", "array"]
            ours.add(call)
            theirs.add(peer)
        compared(f"`rebuild` of {what}", ours, theirs, "cat and dd", "0.6")
        if told([program, images[0], *images[2:], "--", "scrub", "array"]) != b"clean\n":
            sys.exit(f"bench: a rebuilt {what} isn't clean")
        for image in images:
            os.remove(image + ".before")
