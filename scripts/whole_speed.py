"""The speed of one `read` of a whole array beside cat of the same bytes, of one `write` of it beside dd of as many bytes as reach the disks, and what
memory they take: see bench.sh."""

import os
import sys

from measuring import Times, compared, peak_of, row
from read_speed import SECTOR, STRIP, Layout, in_memory, told, turned
from scrub_speed import filled


def beside_itself(strips, number):
    """RAID 10, and in two rows RAID 1E with adjacent copies, of four disks: each strip on a disk and on the next one."""
    first, second = b"".join(strips[::2]), b"".join(strips[1::2])
    return [first, first, second, second]


def one_row_below(strips, number):
    """RAID 1E with offset copies."""
    return [strip + strips[at - 1] for at, strip in enumerate(strips)]


# 512 MiB of data each. Of each array how many bytes reach the disks for one of data, and what a write is to reach.
BLOCKS = 1 << 20
ARRAYS = (
    ("RAID 5", Layout("raid5.rnc", 0, BLOCKS // 2, 2, turned), 3, 1.5, "0.6"),
    ("RAID 1", Layout("raid1", 0, BLOCKS, 1, lambda strips, number: 2 * strips), 2, 2, "0.8"),
    ("RAID 0", Layout("raid0", 0, BLOCKS // 2, 2, lambda strips, number: strips), 2, 1, "0.8"),
)
# Those of four disks that have each block twice: the first is what the others are beside.
TWICE = (
    ("RAID 10", Layout("raid1", 0, BLOCKS // 2, 2, beside_itself, members=2)),
    ("RAID 1E adjacent", Layout("raid1e.adjacent", 0, BLOCKS // 2, 4, beside_itself, height=2)),
    ("RAID 1E offset", Layout("raid1e.offset", 0, BLOCKS // 2, 4, one_row_below, height=2)),
)


def compare_read(call: list[str], data: str, output: str, what: str) -> None:
    """Reads all of an array, and compares its bytes with those that were placed."""
    Times().add([*call, "read", "array", "0", str(BLOCKS)], output)
    with open(output, "rb") as given, open(data, "rb") as wanted:
        if any(given.read(STRIP) != wanted.read(STRIP) for _ in range(SECTOR * BLOCKS // STRIP)):
            sys.exit(f"bench: {what} gives other bytes than were placed")


def read_row(call: list[str], data: str, work, what: str, goal: str, rounds: int) -> None:
    """Two rows of a read of all of an array, whose bytes are compared once."""
    output = in_memory(work)
    read = [*call, "read", "array", "0", str(BLOCKS)]
    compare_read(call, data, str(output), what)
    ours, theirs = Times(), Times()
    for _ in range(rounds):
        ours.add(read, str(output))
        theirs.add(["cat", data], str(output))
    compared(f"`read` of 512 MiB of {what}", ours, theirs, "cat", goal)
    output.unlink()


def write_row(call: list[str], data: str, reach: float, what: str, goal: str, rounds: int) -> None:
    """Two rows of a write of all of an array, and what memory it takes beside one of no block."""
    longer = data + ".reach"
    with open(data, "rb") as given, open(longer, "wb") as made:
        whole = given.read()
        made.write((2 * whole)[: int(reach * len(whole))])
    write = [*call, "write", "array", "0", str(BLOCKS)]
    ours, theirs = Times(), Times()
    for _ in range(rounds):
        ours.add(write, given=data)
        theirs.add(["dd", f"of={longer}.out", "bs=1M", "conv=fsync,notrunc"], given=longer)
    compared(f"`write` of 512 MiB of {what}", ours, theirs, "dd of what reaches the disks", goal)
    peak, start = peak_of(write, data), peak_of([*call, "write", "array", "0", "0"])
    row("peak memory of that, MB above a write of no block", f"{(peak - start) / 1e6:.1f}", f"start {start / 1e6:.1f}", peak / start, "8 MB")
    os.remove(longer)
    os.remove(longer + ".out")


def twice_rows(program: str, work, rounds: int) -> None:
    """The rows of arrays that have each block twice, all of which each round reads, and writes."""
    output, data, calls = in_memory(work), str(work / "twice-data"), []
    for what, layout in TWICE:
        images, copies = filled(program, work / f"twice-{layout.level}", layout, 4, data)
        for copy in copies:
            os.remove(copy)
        calls.append([program, *images, "--"])
        told([program, "--yes", *images, "--", "accept", "array"])
        compare_read(calls[-1], data, str(output), what)
    for word, goal, to, given in (("read", "0.95", str(output), os.devnull), ("write", "0.8", os.devnull, data)):
        times, theirs = [Times() for _ in calls], Times()
        for number in range(rounds):
            # The first of a round pays for what ran before it, so each is first in its turn.
            for place in range(number, number + len(calls)):
                times[place % len(calls)].add([*calls[place % len(calls)], word, "array", "0", str(BLOCKS)], to, given)
            if word == "read":
                theirs.add(["cat", data], to)
            else:
                theirs.add(["sh", "-c", f"dd of={data}.out bs=1M conv=notrunc <{data} && dd of={data}.out bs=1M seek=512 conv=fsync,notrunc <{data}"])
        compared(f"`{word}` of 512 MiB of RAID 10 of four disks", times[0], theirs, "cat" if word == "read" else "dd of what reaches the disks", goal)
        for (what, _), each in zip(TWICE[1:], times[1:]):
            compared(f"`{word}` of 512 MiB of {what} of four disks", each, times[0], "RAID 10", "0.9")
    output.unlink()
    for file in (data, data + ".out", *(image for call in calls for image in call[1:-1])):
        os.remove(file)


def whole_rows(program: str, work, rounds: int) -> None:
    """The rows of each array, whole and, where its level allows it, short of its first disk."""
    for what, layout, slots, reach, goal in ARRAYS:
        data = str(work / "whole-data")
        images, copies = filled(program, work / f"whole-{layout.level}", layout, slots, data)
        for copy in copies:
            os.remove(copy)
        call = [program, *images, "--"]
        if what != "RAID 0":
            told([program, "--yes", *images, "--", "accept", "array"])
        if what == "RAID 5":
            read_row(call, data, work, what, "0.95", rounds)
            read_row([program, *images[1:], "--"], data, work, f"{what} short of a disk", "0.6", rounds)
        write_row(call, data, reach, what, goal, rounds)
        for image in images:
            os.remove(image)
        os.remove(data)
