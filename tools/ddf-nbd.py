"""A plugin for nbdkit's `python`: an array of a DDF group as a block device, for reading alone.

    nbdkit python ddf-nbd.py array=NAME image=IMAGE..

IMAGE.. are all disks of the group that are there, files or block devices, each behind `image=`. An array that is short of disks is served as
far as its level allows. Nothing is written to a disk: only `show` and `read` are called. Further words:

    group=GUID      which group it is, where the disks show several
    program=PATH    the program, where it isn't the one that was installed with this plugin, nor `ddf` of the folders of commands

A `ddf read` runs on from where a client reads, so that whoever reads in order gets what one call of the program gives, at its speed. Each of
them holds the lock that keeps commands that write from the disks; so as long as an array is served and read, the group can't be changed.

Where a block can't be read the request fails (EIO) that asks for it, and no other.
"""
import fcntl
import os
import subprocess
import sys
from collections import OrderedDict
from pathlib import Path

import nbdkit

sys.dont_write_bytecode = True
sys.path.insert(0, str(Path(__file__).resolve().parent))
from ddf_tools import SECTOR, call, find_program, group_of  # noqa: E402

API_VERSION = 2
PIECE = 2048 * SECTOR  # what `read` reads at once
AHEAD, KEPT, STREAMS = 32, 64, 8  # how many pieces a stream is read on rather than begun anew; pieces that are kept; streams at most
SET_PIPE_SIZE = 1031

images: list[str] = []
words: dict[str, str] = {}
size = 0


class Stream:
    """A `read` that gives the pieces from one on, one after another."""

    def __init__(self, piece: int) -> None:
        self.next = piece
        start = piece * PIECE // SECTOR
        asked = [*group_words(), "read", words["array"], str(start), str(size // SECTOR - start)]
        silent = subprocess.DEVNULL
        self.process = subprocess.Popen([program(), *images, "--", *asked], stdin=silent, stdout=subprocess.PIPE, stderr=silent, bufsize=0)
        try:
            fcntl.fcntl(self.process.stdout, SET_PIPE_SIZE, PIECE)
        except OSError:
            pass  # it is slower then

    def take(self, piece: memoryview) -> bool:
        """Reads the next piece; whether it is whole. It isn't where a block of it can't be read."""
        wanted, at = min(PIECE, size - self.next * PIECE), 0
        while at < wanted:
            count = self.process.stdout.readinto(piece[at:wanted])
            if not count:
                return False
            at += count
        self.next += 1
        return True

    def close(self) -> None:
        self.process.kill()
        self.process.stdout.close()
        self.process.wait()


streams: list[Stream] = []
pieces: "OrderedDict[int, memoryview]" = OrderedDict()


def program() -> str:
    return find_program(words.get("program"))


def group_words() -> list[str]:
    return [f"@{words['group']}"] if "group" in words else []


def room() -> memoryview:
    """Room for a piece: that of the one that was asked for longest ago, once there are enough."""
    return pieces.popitem(last=False)[1] if len(pieces) >= KEPT else memoryview(bytearray(PIECE))


def stream_for(number: int) -> Stream:
    """A stream that comes to this piece soon: the nearest of those that run, or a new one in place of the one that was used longest ago."""
    near = [it for it in streams if it.next <= number < it.next + AHEAD]
    found = max(near, key=lambda it: it.next) if near else None
    if found is None:
        if len(streams) == STREAMS:
            streams.pop(0).close()
        found = Stream(number)
    else:
        streams.remove(found)
    streams.append(found)
    return found


def piece_of(number: int) -> memoryview | None:
    """A piece of the array, or nothing where a block of it, or of one before it in its stream, can't be read."""
    if number in pieces:
        pieces.move_to_end(number)
        return pieces[number]
    stream = stream_for(number)
    while stream.next <= number:
        at, piece = stream.next, room()
        if not stream.take(piece):
            streams.remove(stream)
            stream.close()
            return None
        pieces[at] = piece
    return pieces[number]


def blocks_alone(start: int, end: int) -> bytes:
    """The bytes from a place to another one by a `read` of these blocks alone, or an error where one of them can't be read."""
    first, last = start // SECTOR, -(-end // SECTOR)
    asked = [*group_words(), "read", words["array"], str(first), str(last - first)]
    ended = subprocess.run([program(), *images, "--", *asked], stdin=subprocess.DEVNULL, capture_output=True, check=False)
    if ended.returncode != 0:
        told = (ended.stderr or ended.stdout[:200]).decode(errors="replace").strip()
        nbdkit.debug(f"ddf: read of {last - first} blocks from {first} on ended with {ended.returncode}: {told}")
        nbdkit.set_error(5)
        raise OSError(5, f"read of blocks {first} to {last - 1} ended with {ended.returncode}: {told.splitlines()[-1] if told else ''}")
    return ended.stdout[start - first * SECTOR : end - first * SECTOR]


def config(key: str, value: str) -> None:
    if key == "image":
        if not os.path.exists(value):
            raise RuntimeError(f"there is no {value}")
        images.append(os.path.realpath(value))
    elif key in ("array", "group", "program"):
        words[key] = value
    else:
        raise RuntimeError(f"there is no word {key}: it wants array, image, group or program")


def config_complete() -> None:
    global size
    if "array" not in words or not images:
        raise RuntimeError("it wants array=NAME and the images of the group, each behind image=")
    status, lines, said = call(program(), images, [*group_words(), "show"])
    if status != 0:
        raise RuntimeError(f"show ended with {status}: {' '.join(lines + said[-1:])}")
    found = [array for array in group_of(lines)["arrays"] if array["name"] == words["array"]]
    if not found:
        raise RuntimeError(f"no array has the name {words['array']}")
    if found[0]["state"] not in ("optimal", "degraded"):
        raise RuntimeError(f"it can't be read: it is {found[0]['state']}")
    size = found[0]["bytes"]


def thread_model() -> int:
    return nbdkit.THREAD_MODEL_SERIALIZE_ALL_REQUESTS


def open(readonly: bool) -> int:  # noqa: A001
    return 1


def get_size(_: int) -> int:
    return size


def can_write(_: int) -> bool:
    return False


def can_multi_conn(_: int) -> bool:
    return True


def block_size(_: int) -> tuple[int, int, int]:
    return 1, 4096, 0xFFFFFFFF


def pread(_: int, buffer: bytearray, offset: int, flags: int) -> None:
    end = offset + len(buffer)
    view, at = memoryview(buffer), offset
    while at < end:
        number = at // PIECE
        stop = min(end, (number + 1) * PIECE)
        piece = piece_of(number)
        inside = at - number * PIECE
        part = blocks_alone(at, stop) if piece is None else piece[inside : inside + stop - at]
        view[at - offset : stop - offset] = part
        at = stop


def cleanup() -> None:
    while streams:
        streams.pop().close()
