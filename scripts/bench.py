"""Measures the commands beside other programs: see bench.sh."""

import os
import shutil
import statistics
import subprocess
import sys
import time
import zlib
from dataclasses import dataclass, field
from pathlib import Path
from struct import pack

from logs_speed import logs_rows
from measuring import beside, measured, peak_of, row, spread
from read_speed import read_rows
from rebuild_speed import rebuild_rows
from scrub_speed import scrub_rows
from whole_speed import twice_rows, whole_rows
from write_speed import write_rows

SECTOR = 512


# ---- images


def sealed(signature, record):
    """The record with its seal: the signature, and the CRC of the record with its own four bytes taken as FF."""
    record = bytearray(record)
    record[0:8] = pack(">I", signature) + b"\xff" * 4
    record[4:8] = pack(">I", zlib.crc32(record))
    return bytes(record)


def table(signature, kind, rows, used, sectors):
    """A table of disks or of arrays, whose used rows have names of their own in no order."""
    section = bytearray(b"\xff" * (SECTOR * sectors))
    section[8:12] = pack(">HH", used, rows)
    for index in range(used):
        row = bytearray(64)
        row[0:24] = kind + pack(">QQ", index * 7919 % 65_521, index)
        row[24:28] = pack(">I", index * 2_654_435_761 % 0xFFFF_FFFE)
        section[64 + 64 * index : 128 + 64 * index] = row
    return sealed(signature, section)


def bad_blocks(sectors):
    section = bytearray(b"\xff" * (SECTOR * sectors))
    count = min(0xFFFF, (SECTOR * sectors - 32) // 16)
    section[8:10] = pack(">H", count)
    for index in range(count):
        section[32 + 16 * index : 48 + 16 * index] = pack(">QIHH", 8 * index, 0xFFFF_FFFF, 1, 0)
    return sealed(0xABAD_B10C, section)


@dataclass
class Disk:
    """A disk with two level copies, which has little more than their sectors."""

    disks: int = 15
    arrays: int = 15
    used: int = 15
    table_sectors: int = 0
    members: int = 16
    record_sectors: int = 16
    sealed_slots: bool = False
    bad_sectors: int = 0
    sections: list = field(default_factory=list)

    def __post_init__(self):
        length = 1 + (12 * self.members + 511) // 512
        count = self.record_sectors // length
        slot = b"\xff" * (SECTOR * length)
        if self.sealed_slots:
            slot = sealed(0x8888_8888, slot)
        records = (slot * count).ljust(SECTOR * self.record_sectors, b"\xff")
        self.length = length
        self.sections = [
            sealed(0xAD11_1111, b"\xff" * SECTOR),
            table(0x2222_2222, b"RDDF-D  ", self.disks, min(self.used, self.disks), self.rows(self.disks)),
            table(0xDDDD_DDDD, b"RDDF-A  ", self.arrays, min(self.used, self.arrays), self.rows(self.arrays)),
            records,
            sealed(0x3333_3333, b"\xff" * SECTOR),
        ]
        if self.bad_sectors:
            self.sections.append(bad_blocks(self.bad_sectors))

    def rows(self, count):
        return max(self.table_sectors, (64 + 64 * count + 511) // 512)

    def copy_bytes(self):
        return SECTOR + sum(len(section) for section in self.sections)

    def header(self, kind, primary, secondary):
        header = bytearray(b"\xff" * SECTOR)
        header[8:40] = b"RDDF-G  " + bytes(16) + b"02.00.00"
        header[40:49] = pack(">IIB", 1, 0, 0)
        header[96:113] = pack(">QQB", primary, secondary, kind)
        header[116:138] = pack(">IQHHHHH", 32, 0, self.disks, self.arrays, 15, self.length, self.members)
        offset = 1
        for place in range(8):
            sectors = len(self.sections[place]) // SECTOR if place < len(self.sections) else 0
            header[192 + 8 * place : 200 + 8 * place] = pack(">II", offset if sectors else 0xFFFF_FFFF, sectors)
            offset += sectors
        return sealed(0xDE11_DE11, header)

    def write(self, path):
        sectors = self.copy_bytes() // SECTOR
        secondary, primary, anchor = 64, 64 + sectors, 64 + 2 * sectors
        body = b"".join(self.sections)
        with open(path, "wb") as image:
            for lba, kind in ((secondary, 2), (primary, 1)):
                image.seek(SECTOR * lba)
                image.write(self.header(kind, primary, secondary) + body)
            image.write(self.header(0, primary, secondary))
        return str(path)


# ---- measuring


def zlib_speed(size):
    """Bytes in a nanosecond."""
    data, count, best = os.urandom(size), max(1, (1 << 22) // size), float("inf")
    for _ in range(60):
        before = time.process_time_ns()
        for _ in range(count):
            zlib.crc32(data)
        best = min(best, (time.process_time_ns() - before) / (count * size))
    return 1 / best


def xor_row(program, sectors, rounds):
    """The exclusive-or of so many sectors into others, 16 MiB in all each time, beside a copy of them."""
    size = SECTOR * sectors
    times = (1 << 24) // size
    told = subprocess.run([program, str(sectors), str(times), str(rounds)], stdout=subprocess.PIPE, text=True, check=True)
    xor, copy = zip(*(map(int, line.split()) for line in told.stdout.splitlines()))

    def speeds(taken):
        return f"{size * times / min(taken):.1f} / {size * times / statistics.median(taken):.1f}"

    row(f"exclusive-or of {size} bytes, GB/s", speeds(xor), f"copy {speeds(copy)}", min(copy) / min(xor), "")


def main():
    program, work, rounds = sys.argv[1], Path(sys.argv[2]), int(sys.argv[3])

    def examine(*images):
        return [program, *map(str, images), "--", "examine"]

    print("| What | `ddf` | beside | ratio | goal |")
    print("|---|---|---|---|---|")

    turned, linux = sorted(work.glob("turned/*.img")), sorted(work.glob("linux/*.img"))
    if linux and shutil.which("mdadm"):
        for count, goals in ((1, ("", "below 1")), (16, ("below 1", "below 1"))):
            theirs = ["mdadm", "-E", *map(str, linux[:count])]
            beside(rounds, f"`examine` of {count} of Linux's disks", examine(*linux[:count]), theirs, "mdadm", goals)
    if turned and linux:
        what = f"`examine` of {len(linux)} disks as Linux left them"
        beside(rounds, what, examine(*linux), examine(*turned), "turned", ("1.1", ""))

    if shutil.which("blkid"):
        image = work / "labelled.img"
        beside(rounds, "`examine` of a labelled disk", examine(image), ["blkid", "-p", str(image)], "blkid", ("1.2", "1.2"))

    for members, goal in ((16, "0.6"), (4096, "0.8")):
        records = dict(members=members, record_sectors=8192)
        plain, full = Disk(**records), Disk(**records, sealed_slots=True)
        images = plain.write(work / "plain.img"), full.write(work / "sealed.img")
        without, counted = measured(rounds, *map(examine, images))
        took = min(counted.processor) - min(without.processor)
        size = SECTOR * full.length
        speed, other = 2 * len(full.sections[3]) / took / 1e6, zlib_speed(size)
        row(f"CRC of records of {size} bytes, GB/s", f"{speed:.2f}", f"zlib {other:.2f}", speed / other, goal)

    for what in ("disks", "arrays"):
        few = Disk(**{what: 1023}, used=1023).write(work / "few.img")
        many = Disk(**{what: 4095}, used=4095).write(work / "many.img")
        less, more = measured(rounds, examine(few), examine(many))
        ratio = min(more.processor) / min(less.processor)
        row(f"4095 {what}, processor ms", spread(more.processor), f"1023: {spread(less.processor)}", ratio, "5")

    most = Disk(disks=4095, arrays=4095, used=4095, table_sectors=8192, record_sectors=8192, bad_sectors=8192)
    if shutil.which("time"):
        peak, size = peak_of(examine(most.write(work / "most.img"))), 2 * most.copy_bytes()
        row("peak memory at the limit, MB", f"{peak / 1e6:.1f}", f"copies {size / 1e6:.1f}", peak / size, "2")

    read_rows(program, work, rounds)
    scrub_rows(program, work, max(3, rounds // 8))
    write_rows(program, work, max(3, rounds // 8))
    rebuild_rows(program, work, max(3, rounds // 8))
    whole_rows(program, work, max(3, rounds // 8))
    twice_rows(program, work, max(3, rounds // 4))
    logs_rows(program, work, max(3, rounds // 2))
    xor = work / "xor/crates/xor_speed/out/xor_speed"
    if xor.exists():
        for sectors in (1, 64):
            xor_row(str(xor), sectors, rounds)


main()
