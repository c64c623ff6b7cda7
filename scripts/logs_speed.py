"""The speed of one `read` of 512 MiB on a disk whose bad block log has 1,000 entries beside the same without any: see bench.sh."""

import os
import random
import sys

from handmade import SECTOR, Disk, Entry, Group
from measuring import Times, compared
from read_speed import in_memory

# 512 MiB.
BLOCKS = 1 << 20
ENTRIES = 1000


def log(chance):
    """Entries of up to 64 bad sectors each, all over the array, and their spare places in another order."""
    found = [(place * (BLOCKS // ENTRIES) + chance.randint(0, 900), chance.randint(1, 64)) for place in range(ENTRIES)]
    made, spare = [], 0
    for start, count in chance.sample(found, ENTRIES):
        made.append(Entry(start, spare, count))
        spare += count
    return made, spare


def placed(disk, data):
    """The sectors of a disk up to the end of its spare ones: the data, but for bad sectors, which have zeros, and the bytes that belong there at their spare places."""
    held = bytearray(data.ljust(SECTOR * disk.workspace, b"\0"))
    for entry in disk.entries:
        bad, spare, size = SECTOR * entry.start, SECTOR * (disk.first_spare + entry.spare), SECTOR * entry.count
        held[spare : spare + size] = data[bad : bad + size]
        held[bad : bad + size] = bytes(size)
    return held


def logs_rows(program, work, rounds):
    """Two rows: the one disk beside the other, whose bytes are compared once."""
    data, output = os.urandom(SECTOR * BLOCKS), in_memory(work)
    entries, spares = log(random.Random(ENTRIES))
    calls = []
    for name, disk in (("logged", Disk(0, BLOCKS, 0, spares, entries)), ("plain", Disk(0, BLOCKS, 0, spares))):
        folder = work / name
        folder.mkdir()
        paths = Group([disk], BLOCKS).write(folder, lambda each: placed(each, data))
        calls.append([program, *paths, "--", "read", "pair", "0", str(BLOCKS)])
    ours, theirs = Times(), Times()
    for call in calls:
        Times().add(call, str(output))
        if output.read_bytes() != data:
            sys.exit(f"bench: {' '.join(call)} gives other bytes than were placed")
    for _ in range(rounds):
        ours.add(calls[0], str(output))
        theirs.add(calls[1], str(output))
    compared("`read` of 512 MiB on a disk with 1,000 bad ranges", ours, theirs, "without", "0.9")
    output.unlink()
    for call in calls:
        os.remove(call[1])
