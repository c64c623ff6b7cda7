#!/usr/bin/env python3
"""Compares what `ddf -- exercise` tells with what a short program counts that knows nothing of disks: the writes by their seed, over a list of blocks.

    scripts/exercise.py [SEED ROUNDS]..

Without numbers it tries a few exercises, and words that are none."""
import os
import subprocess
import sys
import tempfile
from pathlib import Path
from typing import Iterator

TOP = Path(__file__).resolve().parent.parent
BLOCKS = 8192
TRIED = [(1, 0), (1, 1), (0, 2), (2**64 - 1, 3), (2**31 + 1, 1), (20, 20)]
# Words behind the dashes, and the place where they go wrong.
WRONG = [
    ("exercise", 2), ("exercise 1", 3), ("exercise 01 1", 2), ("exercise +1 1", 2), ("exercise -1 1", 2), (f"exercise {2**64} 1", 2), ("exercise 1 257", 3), ("exercise 1 1 1", 4),
    ("exercises 1 1", 1), (f"@{'0' * 48} exercise 1 1", 2),
]


def draws(seed: int) -> Iterator[int]:
    """The numbers that a seed gives."""
    state = seed % 2**31
    while True:
        state = (state * 1103515245 + 12345) % 2**31
        yield state // 65536


def line(seed: int, rounds: int) -> str:
    """What an exercise should tell."""
    numbers = draws(seed)
    blocks, written = [0] * BLOCKS, 0
    for _ in range(3 * rounds):
        start, count, byte = next(numbers) % 8177, 1 + next(numbers) % 16, next(numbers) % 256
        blocks[start:start + count] = [byte] * count
        written += count
    return f"exercise writes {3 * rounds} blocks {written} sum {512 * sum(blocks)} sequence {13 + 6 * rounds}\n"


def told(words: list[str], folder: str) -> tuple[int, str]:
    """What the program tells of words, and its status."""
    program = os.environ.get("DDF", str(TOP / "ddf"))
    ended = subprocess.run([program, *words], cwd=folder, stdin=subprocess.DEVNULL, capture_output=True, text=True, check=False)
    return ended.returncode, ended.stdout


def main() -> None:
    words = [int(word) for word in sys.argv[1:]]
    tried = list(zip(words[::2], words[1::2])) if words else TRIED
    with tempfile.TemporaryDirectory() as folder:
        for seed, rounds in tried:
            for images in ([], ["no.img"]):
                if (found := told([*images, "--", "exercise", str(seed), str(rounds)], folder)) != (0, line(seed, rounds)):
                    sys.exit(f"exercise: {seed} {rounds} tells {found[1]!r} with status {found[0]}, and not {line(seed, rounds)!r}")
        for text, place in [] if words else WRONG:
            if (found := told(["--", *text.split()], folder)) != (2, f"refused 10 word {place}\n"):
                sys.exit(f"exercise: {text} tells {found[1]!r} with status {found[0]}, and goes wrong at {place}")
        if os.listdir(folder):
            sys.exit("exercise: an image was made")
    print(f"exercise: {len(tried)} exercises tell what was counted without the program")


main()
