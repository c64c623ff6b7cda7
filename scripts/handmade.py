"""Disks of a group with one array, laid out by hand as docs/FORMAT.md has it, each with a bad block log of its own: see logs.py and bench.sh."""

import zlib
from dataclasses import dataclass, field
from pathlib import Path
from struct import pack

SECTOR = 512
STAMP = 0x52854B00
GROUP, CONTROLLER, ARRAY = b"WRITTEN BY HAND, A GROUP", b"WRITTEN BY HAND, A MAKER", b"WRITTEN BY HAND AN ARRAY"

# Sectors from a header to each section but the log, and how many each has; the log stands behind them.
SECTIONS = [(1, 1), (2, 2), (4, 2), (6, 32), (38, 1)]
LOG = 39
MEMBERS = 16

# The place of a spare sector where there is none.
UNSPARED = 0xFFFFFFFF

# The workspace, of which the first 18 sectors are kept.
WORKSPACE = 32768


@dataclass(frozen=True)
class Entry:
    """Bad sectors, and the place of the first spare one in the spare area."""

    start: int
    spare: int
    count: int


@dataclass
class Disk:
    """A disk: how many sectors it gives to arrays, where the array begins on it, its spare area, and its log. Behind the sectors of arrays lies the spare area where none
    is named; behind both the workspace, the secondary copy, the primary one and the anchor."""

    number: int
    size: int
    start: int
    spares: int = 0
    entries: list = field(default_factory=list)
    first_spare: int = 0
    # The least sectors of the log's section, which has as many as its entries take.
    log_sectors: int = 1

    def __post_init__(self):
        self.first_spare = self.first_spare or self.size
        self.log_sectors = max(self.log_sectors, -(-(32 + 16 * len(self.entries)) // SECTOR))
        self.workspace = self.first_spare + self.spares
        self.secondary = self.workspace + WORKSPACE
        self.primary = self.secondary + LOG + self.log_sectors
        self.anchor = self.primary + LOG + self.log_sectors

    @property
    def reference(self):
        return 0x5EED0000 + self.number

    @property
    def guid(self):
        return f"BY HAND: DISK NUMBER {self.number:03}".encode()

    def exchanged(self):
        """Where the sectors of the log lie: a spare one for each bad one."""
        return {entry.start + at: self.first_spare + entry.spare + at for entry in self.entries for at in range(entry.count)}


@dataclass
class Group:
    """Its disks, and how many blocks its array has: a copy of each on every disk."""

    disks: list
    blocks: int
    sequence: int = 1

    def header(self, disk, kind):
        header = bytearray(b"\xff" * SECTOR)
        header[8:40] = GROUP + b"02.00.00"
        header[40:51] = pack(">IIBBB", 0xFFFFFFFF if kind == 0 else self.sequence, STAMP, 0xFF if kind == 0 else 0, 0, 0)
        header[96:113] = pack(">QQB", disk.primary, disk.secondary, kind)
        header[116:138] = pack(">IQHHHHH", WORKSPACE, disk.workspace, 15, 15, 15, 2, MEMBERS)
        pairs = [*SECTIONS, (LOG, disk.log_sectors), (0xFFFFFFFF, 0), (0xFFFFFFFF, 0)]
        for place, pair in enumerate(pairs):
            header[192 + 8 * place : 200 + 8 * place] = pack(">II", *pair)
        return sealed(0xDE11DE11, header)

    def copy(self, disk, kind):
        """The bytes of a copy, its header first."""
        return b"".join([self.header(disk, kind), *self.sections(disk), log_of(disk)])

    def sections(self, disk):
        records = element(self).ljust(SECTOR * 32, b"\xff")
        controller = b"\xff" * 8 + CONTROLLER
        own = b"\xff" * 8 + disk.guid + pack(">I", disk.reference)
        rows = [each.guid + pack(">IHHQ18sH", each.reference, 2, 1, each.size, b"\xff" * 18, SECTOR) for each in self.disks]
        array = ARRAY + pack(">HHIBB14s16s", 0, 0xFFFF, 0, 0, 2, b"\xff" * 14, b"pair".ljust(16))
        return [
            sealed(0xAD111111, controller.ljust(SECTOR, b"\xff")),
            table(0x22222222, rows),
            table(0xDDDDDDDD, [array]),
            records,
            sealed(0x33333333, own.ljust(SECTOR, b"\xff")),
        ]

    def write(self, folder, filled=None):
        """Writes each disk to an image in a folder, over bytes that it has from its first sector on, and gives the paths."""
        paths = [str(Path(folder) / f"hand{disk.number}.img") for disk in self.disks]
        for path, disk in zip(paths, self.disks):
            with open(path, "wb") as image:
                image.write(filled(disk) if filled else b"")
                image.truncate(SECTOR * (disk.anchor + 1))
                for lba, record in ((disk.secondary, self.copy(disk, 2)), (disk.primary, self.copy(disk, 1)), (disk.anchor, self.header(disk, 0))):
                    image.seek(SECTOR * lba)
                    image.write(record)
        return paths


def sealed(signature, record):
    """The record with its seal: the signature, and the CRC of the record with its own four bytes taken as FF."""
    record = bytearray(record)
    record[0:8] = pack(">I", signature) + b"\xff" * 4
    record[4:8] = pack(">I", zlib.crc32(record))
    return bytes(record)


def table(signature, rows):
    """A table of 15 rows at most, in two sectors."""
    head = b"\xff" * 8 + pack(">HH", len(rows), 15)
    return sealed(signature, (head.ljust(64, b"\xff") + b"".join(row.ljust(64, b"\xff") for row in rows)).ljust(2 * SECTOR, b"\xff"))


def element(group):
    """The record of the array's only element: a mirror, or a single disk."""
    record = bytearray(b"\xff" * (2 * SECTOR))
    record[8:40] = ARRAY + pack(">II", STAMP, group.sequence)
    record[64:90] = pack(">HBBBBBBQQH", len(group.disks), 0, 1 if len(group.disks) > 1 else 0x0F, 0, 1, 0, 0, group.blocks, group.blocks, SECTOR)
    record[128:136] = bytes(8)
    for place, disk in enumerate(group.disks):
        record[SECTOR + 4 * place : SECTOR + 4 * place + 4] = pack(">I", disk.reference)
        at = SECTOR + 4 * MEMBERS + 8 * place
        record[at : at + 8] = pack(">Q", disk.start)
    return sealed(0xEEEEEEEE, record)


def log_of(disk):
    """The section of a disk's bad block log."""
    section = bytearray(b"\xff" * (SECTOR * disk.log_sectors))
    section[8:14] = pack(">HI", len(disk.entries), disk.spares)
    section[24:32] = pack(">Q", disk.first_spare)
    for place, entry in enumerate(disk.entries):
        section[32 + 16 * place : 46 + 16 * place] = pack(">QIH", entry.start, entry.spare, entry.count)
    return sealed(0xABADB10C, section)
