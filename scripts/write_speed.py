"""The speed of `resync` beside cat of what the members hold, and of `write` beside dd of as many bytes as reach the disks: see bench.sh."""

import os
import sys

from measuring import Times, compared
from read_speed import PIECE, SECTOR, Layout, told
from scrub_speed import MIRROR, PARITY, filled

STRIPED = Layout("raid0", 0, 16384, 3, lambda strips, number: strips)

# Of each layout, how many bytes reach the disks for one of data.
REACH = {"raid5.rnc": 1.5, "raid1": 2, "raid0": 1}


def resync_rows(call: list[str], copies: list[str], what: str, rounds: int) -> None:
    """Two rows of a resync of all of an array, once more each time."""
    ours, theirs = Times(), Times()
    for _ in range(rounds):
        ours.add([*call, "resync", "array"])
        theirs.add(["cat", *copies])
    compared(f"`resync` of {what}", ours, theirs, "cat of its members", "0.6")
    if told([*call, "scrub", "array"]) != b"clean\n":
        sys.exit(f"bench: a resynced {what} isn't clean")


def piece_rows(call: list[str], work, level: str, what: str, goal: str, rounds: int) -> None:
    """Two rows of a write of a piece."""
    data = os.urandom(SECTOR * PIECE)
    piece, reach = str(work / "piece"), str(work / "reach")
    for name, size in ((piece, len(data)), (reach, int(len(data) * REACH[level]))):
        with open(name, "wb") as file:
            file.write((2 * data)[:size])
    ours, theirs = Times(), Times()
    for _ in range(rounds):
        ours.add([*call, "write", "array", "0", str(PIECE)], given=piece)
        theirs.add(["dd", f"of={reach}.out", "bs=1M", "conv=fsync,notrunc"], given=reach)
    compared(f"`write` of 1 MiB of {what}", ours, theirs, "dd of what reaches the disks", goal)
    if told([*call, "read", "array", "0", str(PIECE)]) != data:
        sys.exit(f"bench: {what} doesn't give what was written")


def write_rows(program: str, work, rounds: int) -> None:
    """The rows of each array."""
    for size, what, layout, slots, goal in (("256 MiB", "RAID 5", PARITY, 3, "0.6"), ("128 MiB", "RAID 1", MIRROR, 2, "0.8"), ("24 MiB", "RAID 0", STRIPED, 3, "0.8")):
        images, copies = filled(program, work / f"write-{layout.level}", layout, slots)
        call = [program, *images, "--"]
        if what != "RAID 0":
            resync_rows(call, copies, f"{size} of {what}", rounds)
        piece_rows(call, work, layout.level, what, goal, 5 * rounds)
