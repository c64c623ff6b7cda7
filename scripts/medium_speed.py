"""The speed on a medium, on the clock, each row beside its peer in the same rounds: see bench.sh."""

import os
import shutil
import sys
from pathlib import Path

from measuring import Times, row, spread
from read_speed import SECTOR, Layout, told, turned
from rebuild_speed import group, restored
from scrub_speed import filled

# 64 MiB of data each. Of each array how many bytes reach the disks for one of data.
BLOCKS = 1 << 17
ARRAYS = (
    ("RAID 5", Layout("raid5.rnc", 0, BLOCKS // 2, 2, turned), 3, 1.5),
    ("RAID 1", Layout("raid1", 0, BLOCKS, 1, lambda strips, number: 2 * strips), 2, 2),
    ("RAID 0", Layout("raid0", 0, BLOCKS // 2, 2, lambda strips, number: strips), 2, 1),
)
# How many times a disk is synced by a change of it.
SYNCS = 6


def cold(files):
    """Has the system forget what it keeps of files, once it is on the medium."""
    for file in files:
        place = os.open(file, os.O_RDONLY)
        os.fsync(place)
        os.posix_fadvise(place, 0, 0, os.POSIX_FADV_DONTNEED)
        os.close(place)


def turns(what, rounds, ours, theirs, name, files=(), given=os.devnull, output=os.devnull, before=None):
    """A row for two commands, each of which runs once a round, with the system's memory of these files gone before each."""
    own, other = Times(), Times()
    for _ in range(rounds):
        if before:
            before()
        cold(files)
        own.add(ours, output, given)
        cold(files)
        other.add(theirs, output)
    row(f"{what}, on the medium, clock ms", spread(own.clock), f"{name} {spread(other.clock)}", min(other.clock) / min(own.clock), "")


def look_rows(program, folder, linux, rounds):
    """Rows of looks at disks that Linux left, which the system keeps nothing of, beside mdadm."""
    if not linux or not shutil.which("mdadm"):
        return
    images = [str(folder / Path(each).name) for each in linux]
    for each, image in zip(linux, images):
        shutil.copyfile(each, image)
    for count in (1, 16):
        some = images[:count]
        turns(f"`examine` of {count} of Linux's disks", rounds, [program, *some, "--", "examine"], ["mdadm", "-E", *some], "mdadm", some)
    for image in images:
        os.remove(image)


def change_row(program, folder, rounds):
    """A row of a change of 15 disks, beside as many syncs by dd, one after another, of a file each of whose writes is synced."""
    images = [str(folder / f"change-{slot:02}.img") for slot in range(15)]
    for image in images:
        with open(image, "wb") as disk:
            disk.truncate(32 << 20)
    told([program, *images, "--", "label"])
    own, other = Times(), Times()
    for number in range(2 * rounds):
        own.add([program, *images, "--", "spare", "14", "off" if number % 2 else "global"])
        other.add(["dd", "if=/dev/zero", f"of={folder}/syncs", "bs=20K", f"count={SYNCS * 15}", "oflag=dsync", "conv=notrunc"])
    row("a change of 15 disks, on the medium, clock ms", spread(own.clock), f"dd of as many syncs {spread(other.clock)}", min(other.clock) / min(own.clock), "")
    for file in (*images, f"{folder}/syncs"):
        os.remove(file)


def block_rows(program, folder, rounds):
    """Rows of a write, a read and a resync of all of an array."""
    for what, layout, slots, reach in ARRAYS:
        data = str(folder / "data")
        images, copies = filled(program, folder / layout.level, layout, slots, data)
        longer = data + ".reach"
        with open(data, "rb") as given, open(longer, "wb") as made:
            made.write((2 * given.read())[: int(reach * SECTOR * BLOCKS)])
        call = [program, "--yes", *images, "--"]
        if what != "RAID 0":
            peer = ["sh", "-c", f"cat {' '.join(copies)} >/dev/null"]
            turns(f"`resync` of 64 MiB of {what}", rounds, [*call, "resync", "array"], peer, "cat of its members", (*images, *copies))
        words = ["array", "0", str(BLOCKS)]
        dd = ["dd", f"if={longer}", f"of={longer}.out", "bs=1M", "conv=fsync,notrunc"]
        turns(f"`write` of 64 MiB of {what}", rounds, [*call, "write", *words], dd, "dd of what reaches the disks", given=data)
        turns(f"`read` of 64 MiB of {what}", rounds, [*call, "read", *words], ["cat", data], "cat", (*images, data), output=str(folder / "read"))
        shutil.rmtree(folder / layout.level)


def rebuild_row(program, folder, rounds):
    """A row of the rebuild of a disk of RAID 5, beside cat of what it reads and then dd of what it writes."""
    images, copies = group(program, folder / "rebuild", ARRAYS[0][1], 3)
    for image in images:
        shutil.copyfile(image, image + ".before")
    peer = ["sh", "-c", f"cat {copies[0]} {copies[2]} >/dev/null; dd if={copies[1]} of={folder}/rebuilt bs=1M conv=fsync,notrunc"]
    call = [program, images[0], *images[2:], "--", "rebuild", "array"]
    turns("`rebuild` of 64 MiB of RAID 5", rounds, call, peer, "cat and dd", (*images, *copies), before=lambda: restored(images))


def medium_rows(program, folder, linux, rounds):
    """All of them, over files of this folder, which goes."""
    folder.mkdir()
    try:
        look_rows(program, folder, linux, rounds)
        change_row(program, folder, rounds)
        block_rows(program, folder, rounds)
        rebuild_row(program, folder, rounds)
    finally:
        shutil.rmtree(folder)


if __name__ == "__main__":
    medium_rows(sys.argv[1], Path(sys.argv[2]) / "ddf-medium", sorted(Path(sys.argv[3]).glob("*.img")), int(sys.argv[4]))
