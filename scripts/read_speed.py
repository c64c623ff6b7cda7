"""The speed of `read` beside cat of the same bytes: see bench.sh."""

import os
import subprocess
import sys
import zlib
from collections.abc import Callable
from dataclasses import dataclass
from pathlib import Path
from struct import pack

from measuring import Times, row, spread

SECTOR = 512
STRIP = 128 * SECTOR

# The blocks of a piece: 1 MiB.
PIECE = 2048


# ---- three disks, whose arrays are filled without ddf


def turned(strips, number):
    """A row with parity, which goes from the last member to the first: the data begins behind it."""
    first, second = (int.from_bytes(strip, "big") for strip in strips)
    cells = [*strips, (first ^ second).to_bytes(STRIP, "big")]
    return cells[number % 3 :] + cells[: number % 3]


@dataclass
class Layout:
    """An array: its first sector and its sectors on each member, the strips of data in a row, and the members' strips of it; how many of these each member has, one below the other;
    and the members of an element, where not all are of one."""

    level: str
    start: int
    blocks: int
    width: int
    cells: Callable
    height: int = 1
    members: int = 0

    def elements(self, slots):
        """The words of `create` for an array over so many slots."""
        each = self.members or slots
        places = [",".join(map(str, range(at, at + each))) for at in range(0, slots, each)]
        return ["single" if len(places) == 1 else "striped", *(f"{place}@{self.blocks}" for place in places)]

    def fill(self, disks):
        """Writes random bytes to the members, and gives them back."""
        data = os.urandom(SECTOR * self.blocks // self.height * self.width)
        strips = [data[at : at + STRIP] for at in range(0, len(data), STRIP)]
        for number in range(len(strips) // self.width):
            cells = self.cells(strips[self.width * number :][: self.width], number)
            for disk, cell in zip(disks, cells):
                disk.seek(SECTOR * self.start + STRIP * self.height * number)
                disk.write(cell)
        return data


LAYOUTS = {
    "striped": Layout("raid0", 0, 16384, 3, lambda strips, number: strips),
    "parity": Layout("raid5.rnc", 16384, 16384, 2, turned),
    "mirrored": Layout("raid1", 32768, 32768, 1, lambda strips, number: 2 * strips),
}


def settle(disk):
    """Clears the marks in both tables of arrays, for by now copies and parity agree. They have two sectors, and one row an array."""
    end = disk.seek(0, os.SEEK_END)
    for at in range(end - 81 * SECTOR, end, SECTOR):
        disk.seek(at)
        table = bytearray(disk.read(2 * SECTOR))
        if table[0:4] == b"\xdd" * 4:
            for index in range(len(LAYOUTS)):
                table[64 + 64 * index + 32] &= ~0x10
            table[4:8] = b"\xff" * 4
            table[4:8] = pack(">I", zlib.crc32(table))
            disk.seek(at)
            disk.write(table)


def made(program, folder):
    """Three labelled disks with an array of each layout, and for each array the files of its pieces."""
    images, pieces = [str(folder / f"{slot}.img") for slot in range(3)], {}
    for image in images:
        with open(image, "wb") as disk:
            disk.truncate(64 << 20)
    told([program, *images, "--", "label"])
    for name, layout in LAYOUTS.items():
        slots = "0,1" if name == "mirrored" else "0,1,2"
        told([program, *images, "--", "create", name, layout.level, "7", "single", f"{slots}@{layout.blocks}"])
    disks = [open(image, "r+b") for image in images]
    for name, layout in LAYOUTS.items():
        data, pieces[name] = layout.fill(disks), []
        for at in range(0, len(data), SECTOR * PIECE):
            piece = folder / f"{name}-{at}"
            piece.write_bytes(data[at : at + SECTOR * PIECE])
            pieces[name].append(str(piece))
    for disk in disks:
        settle(disk)
        disk.close()
    return images, pieces


# ---- measuring


def told(command):
    return subprocess.run(command, stdin=subprocess.DEVNULL, stdout=subprocess.PIPE, check=True).stdout


def rows(rounds, what, pairs, output, goal):
    """Two rows for pairs of calls, which the rounds take one after another. A ratio is of throughput, by the least times."""
    ours, theirs = Times(), Times()
    for number in range(rounds):
        own, other = pairs[number % len(pairs)]
        ours.add(own, output)
        theirs.add(other, output)
    for kind in ("processor", "clock"):
        mine, its = getattr(ours, kind), getattr(theirs, kind)
        row(f"{what}, {kind} ms", spread(mine), f"cat {spread(its)}", min(its) / min(mine), goal)


def in_memory(work):
    """A file for the output, in memory where there is a file system for it: within one file system the kernel would copy for cat."""
    shared = Path("/dev/shm")
    return shared / f"ddf-bench-{os.getpid()}" if shared.is_dir() else work / "output"


def read_rows(program, work, rounds):
    """Rows for each array, whole and without its first disk where its level allows it, and for a call without blocks."""
    folder, output = work / "arrays", in_memory(work)
    folder.mkdir()
    images, pieces = made(program, folder)

    def pairs(name, given):
        """The calls for the pieces of an array, once their bytes are found to be right."""
        calls = [[program, *given, "--", "read", name, str(PIECE * at), str(PIECE)] for at in range(len(pieces[name]))]
        for call, piece in zip(calls, pieces[name]):
            if told(call) != Path(piece).read_bytes():
                sys.exit(f"bench: {' '.join(call)} gives other bytes than {piece}")
        return [(call, ["cat", piece]) for call, piece in zip(calls, pieces[name])]

    for name, what in (("striped", "RAID 0"), ("mirrored", "RAID 1"), ("parity", "RAID 5")):
        rows(rounds, f"`read` of 1 MiB of {what}", pairs(name, images), output, "0.8")
        if name != "striped":
            rows(rounds, f"`read` of 1 MiB of {what} short of a disk", pairs(name, images[1:]), output, "0.5")
    none = [program, *images, "--", "read", "parity", "0", "0"]
    rows(rounds, "`read` of no block", [(none, ["cat", "/dev/null"])], output, "")
    output.unlink(missing_ok=True)
