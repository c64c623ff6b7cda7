"""Where the records of a disk lie, for the tools that copy them: the anchor in the last sector names two headers, and these their sections.

Only the places are read here, as docs/FORMAT.md has them. What the records say, and whether they are whole, `ddf examine` tells.
"""
import fcntl
import os
import stat
import struct
from pathlib import Path

SECTOR = 512
MOST = 65536  # sectors of a section that are copied; no section that ddf reads has more than 8192
HEADER, DISK_DATA = b"\xde\x11\xde\x11", b"\x33\x33\x33\x33"
SIGNATURES = [bytes.fromhex(it) for it in "de11de11 ad111111 22222222 dddddddd eeeeeeee 88888888 55555555 33333333 abadb10c 01dbeef0".split()]
Run = tuple[int, int]  # the first sector, and how many


class Disk:
    """An image or a block device that is open and locked, as `ddf` locks it."""

    def __init__(self, path: str, to_write: bool = False) -> None:
        self.path = path
        mode = os.stat(path).st_mode
        if not (stat.S_ISREG(mode) or stat.S_ISBLK(mode)):
            raise OSError(f"{path} is neither a file nor a block device")
        flags = os.O_RDWR if to_write else os.O_RDONLY
        # A block device that is mounted, or part of another one, can't be opened for oneself alone.
        self.file = os.open(path, flags | (os.O_EXCL if to_write and stat.S_ISBLK(mode) else 0))
        try:
            fcntl.flock(self.file, (fcntl.LOCK_EX if to_write else fcntl.LOCK_SH) | fcntl.LOCK_NB)
        except OSError as why:
            os.close(self.file)
            raise OSError(f"{path}: another program holds a lock on it") from why
        self.sectors = os.lseek(self.file, 0, os.SEEK_END) // SECTOR

    def read(self, lba: int, count: int) -> bytes:
        data = b""
        while len(data) < count * SECTOR:
            part = os.pread(self.file, count * SECTOR - len(data), lba * SECTOR + len(data))
            if not part:
                raise OSError(f"{self.path} ends before sector {lba + count}")
            data += part
        return data

    def write(self, lba: int, data: bytes) -> None:
        while data:
            done = os.pwrite(self.file, data, lba * SECTOR)
            lba, data = lba + done // SECTOR, data[done:]

    def sync(self) -> None:
        os.fsync(self.file)

    def close(self) -> None:
        os.close(self.file)

    @property
    def anchor(self) -> bytes | None:
        """The anchor, where the last sector begins as one."""
        last = self.read(self.sectors - 1, 1) if self.sectors else b""
        return last if last.startswith(HEADER) else None

    def headers(self, anchor: bytes) -> list[int]:
        """The sectors of both headers, as far as they lie on the disk."""
        return [lba for lba in struct.unpack(">QQ", anchor[96:112]) if lba < self.sectors - 1]

    def runs(self) -> list[Run]:
        """Where the records lie: both copies, each with its header behind its sections, and the anchor last. Nothing where there is no anchor."""
        anchor = self.anchor
        if anchor is None:
            return []
        found: list[Run] = []
        for header in self.headers(anchor):
            for offset, length in struct.iter_unpack(">II", anchor[192:256]):
                if length and header + offset + length < self.sectors and (header + offset, length) not in found:
                    found.append((header + offset, min(length, MOST)))
            found.append((header, 1))
        return [*found, (self.sectors - 1, 1)]

    def guid(self) -> str | None:
        """The GUID of the disk, as the disk data behind one of its headers has it."""
        anchor = self.anchor
        return None if anchor is None else self.guid_at([lba + struct.unpack(">I", anchor[224:228])[0] for lba in self.headers(anchor)])

    def guid_at(self, places: list[int]) -> str | None:
        """The GUID in the first of these sectors that begins as disk data."""
        for lba in places:
            if lba < self.sectors and (data := self.read(lba, 1)).startswith(DISK_DATA):
                return data[8:32].hex()
        return None

    def names(self) -> list[str]:
        """The names that a block device has by its serial number and the like."""
        real = os.path.realpath(self.path)
        folder = Path("/dev/disk/by-id")
        return sorted(it.name for it in folder.iterdir() if os.path.realpath(it) == real) if folder.is_dir() and real.startswith("/dev/") else []


def is_uniform(data: bytes) -> bool:
    return data == data[:1] * len(data)
