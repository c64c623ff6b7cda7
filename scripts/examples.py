#!/usr/bin/env python3
"""Plays the examples of the pages: README, docs/*.md and the man page.

    examples.py [PROGRAM [PAGE..]]        PROGRAM is ./ddf of the checkout, unless another one is named

A block of a page that has lines behind `$` is run by a shell, and has to print on standard output what stands below
each of them. The blocks of a page are run in their order, in one empty folder and one shell, where `ddf` and `./ddf`
are the program, and `scripts` is that folder of the checkout. Standard input is empty. A line behind `>` goes on with
the command above it.

GUIDs and references are others each time: one may stand for another, the same one throughout the page. A command that
has a GUID of the page is given the one that was printed in its place. Standard error is compared where a line below
the command begins with `ddf: `. A line `...` stands for any lines, and what follows two spaces and `# ` isn't compared.

Marks in the first line of a block, as in ```console needs=nbdkit,nbdcopy

    needs=NAME,..   it is run only where each NAME is a program on the PATH; with one of `root`, `devices`, `md` and
                    `terminal` it is never run here
    fresh           it begins in a new empty folder
    file=NAME       its lines are the contents of that file, which is made executable

What isn't run is named and counted. The status is 77 where that is for want of a program.
"""
import os
import re
import select
import shutil
import subprocess
import sys
import tempfile
from pathlib import Path
from typing import NamedTuple, NoReturn

TOP = Path(__file__).resolve().parent.parent
# The tools beside the program are those of this checkout.
PATH = f"{TOP}/tools:{os.environ['PATH']}:/usr/sbin:/sbin"
LIMIT = 600
# what a page may need that the script doesn't give it
NEVER = {"root", "devices", "md", "terminal"}
# a GUID, or a reference where the program prints one
NAMES = re.compile(r"\b[0-9a-f]{48}\b|(?<=member )[0-9a-f]{8}\b|(?<=disk )[0-9a-f]{8}\b|(?<=twin )[0-9a-f]{8}\b|\b[0-9a-f]{8}(?=\+\d)")


def stop(why: str) -> NoReturn:
    sys.exit(f"examples: {why}")


class Block(NamedTuple):
    """A block of a page: the number of its first line, its marks, and its lines."""

    first: int
    marks: dict[str, str]
    lines: list[str]

    def is_played(self) -> bool:
        return "file" in self.marks or any(line.startswith("$ ") for line in self.lines)

    def lacks(self) -> list[str]:
        """What it needs and isn't here."""
        return [need for need in self.marks.get("needs", "").split(",") if need and not shutil.which(need, path=PATH)]

    def commands(self) -> list[tuple[int, str, list[str]]]:
        """Each command with its line's number and the lines below it."""
        found: list[tuple[int, str, list[str]]] = []
        for place, line in enumerate(self.lines):
            if line.startswith("$ "):
                found.append((self.first + place, line[2:], []))
            elif f"{line} ".startswith("> ") and found and not found[-1][2]:
                number, command, below = found[-1]
                found[-1] = (number, f"{command}\n{line[2:]}", below)
            elif found:
                found[-1][2].append(re.sub(r"\s{2,}# .*$", "", line))
        return found


def marks_of(text: str) -> dict[str, str]:
    """The marks behind the fence of a block."""
    return dict((mark.split("=", 1) + [""])[:2] for mark in text.split()[1:])


def blocks_of(page: Path) -> list[Block]:
    """The fenced blocks of a page, or the literal displays of a man page."""
    is_man = page.suffix == ".8"
    begin, end = (r"( *)\.Bd -literal(.*)", ".Ed") if is_man else (r"( *)```(.*)", "```")
    found: list[Block] = []
    inside: Block | None = None
    indent = 0
    for number, line in enumerate(page.read_text(encoding="utf-8").splitlines(), 1):
        if inside is None:
            if opened := re.fullmatch(begin, line):
                indent = len(opened[1])
                inside = Block(number + 1, {} if is_man else marks_of(opened[2]), [])
        elif line.strip() == end:
            found.append(inside)
            inside = None
        else:
            line = line[indent:] if not line[:indent].strip() else line
            inside.lines.append(line.replace("\\&", "").replace("\\e", "\\") if is_man else line)
    if inside is not None:
        stop(f"{page} has a block from line {inside.first} on that doesn't end")
    return found


class Names:
    """Which name that was printed stands for which one of the page."""

    def __init__(self, known: dict[str, str] | None = None) -> None:
        self.known: dict[str, str] = dict(known or {})

    def agrees(self, want: str, have: str) -> bool:
        """Whether a line that was printed is one of the page, but for its names."""
        if NAMES.sub("<>", want) != NAMES.sub("<>", have):
            return False
        for wanted, printed in zip(NAMES.findall(want), NAMES.findall(have)):
            if self.known.setdefault(wanted, printed) != printed:
                return False
        return len(set(self.known.values())) == len(self.known)

    def given(self, command: str) -> str:
        """A command with the names that were printed."""
        return NAMES.sub(lambda found: self.known.get(found[0], found[0]), command)


def matched(names: Names, want: list[str], have: list[str]) -> tuple[Names, str] | None:
    """The names behind these lines where they agree, or else None with nothing changed; `...` stands for any lines."""
    if not want:
        return (names, "") if not have else None
    if want[0] == "...":
        tries = (matched(names, want[1:], have[skipped:]) for skipped in range(len(have) + 1))
        return next((found for found in tries if found), None)
    after = Names(names.known)
    return matched(after, want[1:], have[1:]) if have and after.agrees(want[0], have[0]) else None


class Shell:
    """A shell that runs one command after another in a folder, which `fresh` changes."""

    def __init__(self, program: Path, work: Path) -> None:
        self.work, self.program, self.folders = work, program, 0
        self.out = work / "out"
        tools = work / "bin"
        tools.mkdir()
        (tools / "ddf").symlink_to(program)
        how = {**os.environ, "PATH": f"{tools}:{PATH}", "LC_ALL": "C"}
        how.pop("DDF_CAREFUL", None)
        self.process = subprocess.Popen(["sh"], stdin=subprocess.PIPE, stdout=subprocess.PIPE, stderr=subprocess.DEVNULL, text=True, env=how)
        self.fresh()

    def fresh(self) -> None:
        """Goes on in a new folder."""
        self.folders += 1
        self.folder = self.work / f"folder{self.folders}"
        self.folder.mkdir()
        (self.folder / "ddf").symlink_to(self.program)
        (self.folder / "scripts").symlink_to(TOP / "scripts")
        self.run(f"cd '{self.folder}'", False)

    def run(self, command: str, with_errors: bool) -> list[str]:
        """Runs a command, and answers the lines that it prints."""
        assert self.process.stdin and self.process.stdout
        errors = "2>&1" if with_errors else "2>/dev/null"
        self.process.stdin.write(f"{{ (exit ${{status:-0}})\n{command}\n}} >'{self.out}' {errors} </dev/null\nstatus=$?; echo done\n")
        self.process.stdin.flush()
        if not select.select([self.process.stdout], [], [], LIMIT)[0]:
            self.process.kill()
            stop(f"no end after {LIMIT} seconds, or a line too few: {command}")
        if not self.process.stdout.readline():
            stop(f"the shell ended in: {command}")
        return self.out.read_text(encoding="utf-8", errors="replace").splitlines()

    def end(self) -> None:
        assert self.process.stdin
        self.process.stdin.close()
        self.process.wait(LIMIT)


def play(shell: Shell, page: str, block: Block, names: Names) -> Names:
    """Plays a block, and answers the names that are known behind it."""
    if "fresh" in block.marks:
        shell.fresh()
    if name := block.marks.get("file"):
        made = shell.folder / name
        made.write_text("\n".join(block.lines) + "\n", encoding="utf-8")
        made.chmod(0o755)
        return names
    for number, command, want in block.commands():
        have = shell.run(names.given(command), any(line.startswith("ddf: ") for line in want))
        found = matched(names, want, have)
        if found is None:
            below = "\n".join(want) or "(nothing)"
            stop(f"{page} line {number}:\n$ {command}\nthe page has\n{below}\nand it prints\n" + ("\n".join(have) or "(nothing)"))
        names = found[0]
    return names


class Count:
    """How many blocks were played, how many weren't, and for want of which programs."""

    def __init__(self) -> None:
        self.played, self.left, self.lacking = 0, 0, set[str]()

    def leave(self, lacking: list[str]) -> None:
        self.left += 1
        if not NEVER & set(lacking):
            self.lacking |= set(lacking)


def play_page(program: Path, page: str, count: Count) -> None:
    """Plays the blocks of a page, and counts them."""
    blocks = [block for block in blocks_of(TOP / page) if block.is_played()]
    names = Names()
    commands = 0
    with tempfile.TemporaryDirectory() as work:
        shell = Shell(program, Path(work))
        for block in blocks:
            if lacking := block.lacks():
                print(f"examples: {page} line {block.first}: not run, needs {', '.join(lacking)}")
                count.leave(lacking)
                continue
            names = play(shell, page, block, names)
            count.played += 1
            commands += len(block.commands()) * ("file" not in block.marks)
        shell.end()
    if commands:
        print(f"examples: {page} shows what {commands} commands print")


def main() -> None:
    program = Path(sys.argv[1] if len(sys.argv) > 1 else TOP / "ddf").resolve()
    if not os.access(program, os.X_OK):
        stop(f"{program} can't be run")
    pages = sys.argv[2:] or ["README.md", *sorted(str(page.relative_to(TOP)) for page in TOP.glob("docs/*.md")), "man/ddf.8"]
    count = Count()
    for page in pages:
        play_page(program, page, count)
    print(f"examples: {count.played} blocks played, {count.left} not run")
    if count.lacking:
        print(f"examples: not tried: blocks that need {', '.join(sorted(count.lacking))}")
        sys.exit(77)


main()
