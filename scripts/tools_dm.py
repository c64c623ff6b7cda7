#!/usr/bin/env python3
"""Makes arrays of each kind that ddf-dmsetup serves, and compares what its tables give, read as the kernel's documentation has them, with `read`.

`linear`, `striped` and `mirror` are counted here, block by block, from the lines alone; the kernel isn't asked. DDF names the program.
"""
import os
import subprocess
import sys
import tempfile
from pathlib import Path

TOP = Path(__file__).resolve().parent.parent
DDF = os.environ["DDF"]
ALL = [f"d{number}.img" for number in range(4)]
# The words of create, the images that are named, and whether the array is resynced first.
KINDS = [
    ("raid0 3 single 0,1,2@100", ALL, False),
    ("raid1 0 single 0,1@77", ALL, True),
    ("raid1 0 single 0,1@77", ALL[1:], True),
    ("raid1 0 single 0,1@77", ALL, False),
    ("jbod 0 single 2@55", ALL, False),
    ("concat 0 single 0,3,1@33", ALL, False),
    ("raid1 3 striped 0,1@64 2,3@64", ALL, True),
    ("raid1 3 striped 0,1@64 2,3@64", ALL[:1] + ALL[2:], True),
    ("raid1 3 spanned 0,1@64 2,3@128", ALL, True),
    ("raid1 3 concat 0,1@64 2,3@72", ALL, True),
    ("raid0 3 mirrored 0,1@64 2,3@64", ALL, True),
    ("raid0 2 spanned 0,1@64 2,3@32", ALL, False),
    ("raid0 2 striped 0,1@64 2,3@32", ALL, False),
    ("jbod 4 striped 0@64 1@64 2@64", ALL, False),
]
REFUSED = [("raid5.rnc 3 single 0,1,2@64", ALL, []), ("raid0 3 single 0,1@64", ALL[1:], []), ("raid1 0 single 0,1@64", ALL, ["--write"])]


def ddf(images: list[str], *words: str, blocks: bytes | None = None) -> bytes:
    ended = subprocess.run([DDF, *images, "--", *words], input=blocks or b"", capture_output=True, check=False)
    if ended.returncode != 0:
        sys.exit(f"tools_dm: {words} over {images} ended with {ended.returncode}: {ended.stdout[:200]!r} {ended.stderr.decode()}")
    return ended.stdout


def tables(images: list[str], *flags: str) -> subprocess.CompletedProcess[str]:
    return subprocess.run([TOP / "tools/ddf-dmsetup", *flags, "vol", *images], capture_output=True, text=True, check=False)


def sectors_of(devices: dict[str, list[str]], device: str, first: int, count: int) -> bytes:
    """So many sectors of an image, or of a device that the tables make."""
    if device not in devices:
        with open(device, "rb") as image:
            image.seek(first * 512)
            return image.read(count * 512)
    return b"".join(sector(devices, devices[device], place) for place in range(first, first + count))


def sector(devices: dict[str, list[str]], lines: list[str], place: int) -> bytes:
    """A sector by the lines of a table."""
    for line in lines:
        start, length, kind, *words = line.split(" ")
        if not int(start) <= place < int(start) + int(length):
            continue
        at = place - int(start)
        if kind == "linear":
            return sectors_of(devices, words[0], int(words[1]) + at, 1)
        if kind == "striped":
            count, chunk, *places = words
            row, column = divmod(at // int(chunk), int(count))
            return sectors_of(devices, places[2 * column], int(places[2 * column + 1]) + row * int(chunk) + at % int(chunk), 1)
        if kind == "mirror":
            assert words[:4] == ["core", "2", "2048", "nosync"] and len(words) == 5 + 2 * int(words[4])
            copies = {sectors_of(devices, device, int(begin) + at, 1) for device, begin in zip(words[5::2], words[6::2])}
            assert len(copies) == 1, f"the copies of {line} differ"
            return copies.pop()
        raise ValueError(f"{line} isn't of a kind that is served")
    raise ValueError(f"no line has sector {place}")


def bytes_by(text: str) -> bytes:
    """All bytes of the last of the devices."""
    devices = {}
    for device in text.strip().split(";"):
        name, uuid, minor, flags, *lines = device.split(",")
        assert (uuid, minor, flags) == ("", "", "ro"), f"{device} isn't read only"
        devices[f"/dev/mapper/{name}"] = lines
    whole = devices["/dev/mapper/ddf-vol"]
    assert list(devices)[-1] == "/dev/mapper/ddf-vol"
    return sectors_of(devices, "/dev/mapper/ddf-vol", 0, sum(int(line.split(" ")[1]) for line in whole))


def fresh(words: str) -> None:
    for image in ALL:
        Path(image).write_bytes(b"")
        os.truncate(image, 33000 * 512)
    ddf(ALL, "label")
    ddf(ALL, "create", "vol", *words.split())


def main() -> None:
    for words, images, is_resynced in KINDS:
        fresh(words)
        if is_resynced:
            ddf(ALL, "resync", "vol")
        # An array that isn't resynced is marked where it is a mirror, so its disks are filled by hand, each otherwise.
        count = int(ddf(ALL, "show").decode().split("array vol blocks ")[1].split()[0])
        if is_resynced or "marked" not in ddf(ALL, "show").decode():
            ddf(ALL, "write", "vol", "0", str(count), blocks=os.urandom(count * 512))
        else:
            for image in ALL:
                with open(image, "r+b") as file:
                    file.write(os.urandom(200 * 512))
        told = tables(images)
        if told.returncode != 0:
            sys.exit(f"tools_dm: {words} over {images} is refused: {told.stderr}")
        if bytes_by(told.stdout) != ddf(images, "read", "vol", "0", str(count)):
            sys.exit(f"tools_dm: {words} over {images} is given otherwise than read gives it: {told.stdout}")
    for words, images, flags in REFUSED:
        fresh(words)
        told = tables(images, *flags)
        if told.returncode != 1 or told.stdout:
            sys.exit(f"tools_dm: {words} over {images} {flags} isn't refused: {told.stdout}{told.stderr}")
    print(f"tools_dm: the tables of {len(KINDS)} arrays give what read gives, and {len(REFUSED)} are refused")


with tempfile.TemporaryDirectory() as folder:
    os.chdir(folder)
    main()
