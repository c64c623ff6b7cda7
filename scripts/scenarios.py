#!/usr/bin/env python3
"""Makes the index of scenarios, docs/SCENARIOS.md, and what the gate plays of crates/ddf_rig/data: its files `args` and `stdout`.

    scripts/scenarios.py [--check]
    scripts/scenarios.py REFUSAL..      prints the files that show these, as 24 or conflict: scripts/quick.sh $(scripts/scenarios.py 24)

A scenario is a file of at most 120 lines. It begins with comments, whose first sentence says what it shows, and is named so; its
folder is what it is about. A file `parts.txt` or `NAME-parts.txt` has parts alone, which others play that name it by `% from FILE`.

    args    the files that are played, wrong.txt last
    stdout  a line for each, with the number of its steps. Nothing is played here: the gate finds whether each is answered so
    docs/SCENARIOS.md   the files by folder, command, refusal and promise

With --check nothing is made: these have to be up to date. Either way each part has to be played, each part and file that is named has
to be there, and each refusal has to be shown.
"""
import csv
import re
import sys
import textwrap
from math import prod
from pathlib import Path
from typing import NamedTuple, NoReturn

TOP = Path(__file__).resolve().parent.parent
RIG = TOP / "crates/ddf_rig"
DATA = RIG / "data"
PAGE = TOP / "docs/SCENARIOS.md"
LONGEST, WIDTH, DEPTH, NAMED = 120, 98, 3, 6
WRONG = "wrong.txt"  # its answers are wrong on purpose
COMMANDS = ("examine", "label", "assemble", "show", "create", "delete", "spare", "fail", "accept", "read", "scrub", "resync", "write", "rebuild", "copyback", "import", "batch")
FOLDERS = {
    "": "How scenarios are written",
    "words": "Words of calls",
    "label": "`label`",
    "examine": "`examine`, over headers",
    "records": "`examine`, over records; the bytes of records",
    "assemble": "`assemble`",
    "recovery": "What the next command makes of a group that was stopped, or has lost a disk",
    "show": "`show`",
    "changes": "`create`, `delete`, `spare` and `fail`",
    "names": "Names of arrays",
    "accept": "`accept`",
    "read": "`read`",
    "scrub": "`scrub`",
    "resync": "`resync`",
    "write": "`write`",
    "pieces": "`read` and `write` of several pieces",
    "rebuild": "`rebuild`",
    "copyback": "`copyback`",
    "import": "`import`",
    "batch": "`batch`",
    "outputs": "Outputs that fail",
    "calls": "Each call fails, or is a stop: commands that write records",
    "block-calls": "Each call fails, or is a stop: commands that write blocks",
    "import-calls": "Each call fails, or is a stop: `import`",
    "bad-bytes": "Bytes that are wrong",
    "logs": "Bad block logs",
    "linux": "Disks for Linux",
    "placing": "Where blocks lie",
    "model": "The disk model, and checksums",
}
HEAD = """\
# Scenarios

Made by `scripts/scenarios.py`. Each file of `crates/ddf_rig/data` shows one thing, which its name
and its first sentence say; the names stand here without `.txt`. To play one:
`scripts/quick.sh label/once.txt`; [TESTS.md](TESTS.md#scenarios) says how to add one. What several
of them play stands in files of parts, the last of a folder.
"""


def stop(why: str) -> NoReturn:
    sys.exit(f"scenarios: {why}")


class Scenario(NamedTuple):
    """A file: its path below the folder of all, its head, the parts that it has, those that it plays, and its steps."""

    path: str
    says: str
    parts: dict[str, list[str]]
    plays: set[str]
    steps: list[tuple[str, list[str]]]

    def folder(self) -> str:
        return self.path.rpartition("/")[0]

    def is_parts(self) -> bool:
        return self.path.endswith("parts.txt") and not self.steps


def taken(path: str, parts: dict[str, list[str]]) -> list[str]:
    """The lines of a file beside its parts, which are added."""
    if not (DATA / path).is_file():
        stop(f"there is no {path}")
    lines: list[str] = []
    part: list[str] | None = None
    for line in (DATA / path).read_text(encoding="utf-8").splitlines():
        if begun := re.fullmatch(r"% part (\S+)", line):
            if begun[1] in parts:
                stop(f"{path}: there are two parts {begun[1]}")
            part = parts[begun[1]] = []
        elif part is None:
            lines.append(line)
        elif line == "% end":
            part = None
        else:
            part.append(line)
    if part is not None:
        stop(f"{path}: its last part has no end")
    return lines


def played(path: str, lines: list[str], parts: dict[str, list[str]]) -> list[str]:
    """Lines with those of parts in the place of each `% play NAME`."""
    for _ in range(DEPTH):
        found: list[str] = []
        for line in lines:
            name = line.removeprefix("% play ")
            if name == line:
                found.append(line)
            elif name in parts:
                found += parts[name]
            else:
                stop(f"{path}: there is no part {name}")
        lines = found
    if any(line.startswith("% play ") for line in lines):
        stop(f"{path}: its parts play one another too deep")
    return lines


def steps_of(path: str, lines: list[str]) -> list[tuple[str, list[str]]]:
    """Each line that asks for something, with those that answer it."""
    steps: list[tuple[str, list[str]]] = []
    for line in lines:
        if line.startswith(("$", "%")):
            steps.append((line, []))
        elif line and not line.startswith("#"):
            if not steps:
                stop(f"{path}: `{line}` answers nothing")
            steps[-1][1].append(line)
    return steps


def head_of(path: str, text: str) -> str:
    """The comment at the top of a file."""
    lines = []
    for line in text.splitlines():
        if not line.startswith("# "):
            break
        lines.append(line[2:])
    if not lines:
        stop(f"{path} has no comment at its top")
    return " ".join(lines)


def scenario(path: str) -> Scenario:
    text = (DATA / path).read_text(encoding="utf-8")
    count = len(text.splitlines())
    if count > LONGEST:
        stop(f"{path} has {count} lines: it may have {LONGEST}")
    parts: dict[str, list[str]] = {}
    lines = taken(path, parts)
    all_parts = dict(parts)
    files = [line.removeprefix("% from ") for line in lines if line.startswith("% from ")]
    for file in files:
        if any(line and not line.startswith("#") for line in taken(file, all_parts)):
            stop(f"{path}: {file} has more than parts")
    lines = [line for line in lines if not line.startswith("% from ")]
    plays = set(re.findall(r"^% play (\S+)$", text, re.MULTILINE))
    # What parts of other files play belongs to what plays these.
    for _ in range(DEPTH):
        plays |= {name for part in plays & set(all_parts) for line in all_parts[part] for name in re.findall(r"^% play (\S+)$", line)}
    steps = steps_of(path, played(path, lines, all_parts))
    for file in files:
        of_file: dict[str, list[str]] = {}
        taken(file, of_file)
        if not plays & set(of_file):
            stop(f"{path} plays no part of {file}")
    return Scenario(path, head_of(path, text), parts, plays, steps)


def rounds(each: str) -> int:
    """In how many ways the names of a sweep stand for values."""
    counts = []
    for word in each.split()[2:]:
        values = word.partition("=")[2]
        if numbers := re.fullmatch(r"(\d+)\.\.(\d+)(?:/(\d+))?", values):
            counts.append((int(numbers[2]) - int(numbers[1])) // int(numbers[3] or 1) + 1)
        else:
            counts.append(values.count(",") + 1)
    return prod(counts)


def count_of(found: Scenario) -> int:
    """How many answers are compared. In a sweep those that may be anything, or are part of its outcome, aren't by themselves."""
    count, times, within = 0, 0, 0
    for asked, told in found.steps:
        if asked.startswith("% each "):
            times, within = rounds(asked), 0
        elif times and asked == "% end":
            count += times * within + 1
            times = 0
        elif times:
            within += told not in (["?"], ["..."])
        else:
            count += 1
    if times:
        stop(f"{found.path}: its last sweep has no end")
    return count


def look_at_parts(all_found: list[Scenario]) -> None:
    """Each part has to be played by some scenario, and what a file of parts plays too."""
    for found in all_found:
        for name in found.parts:
            users = [it for it in all_found if name in it.plays and (it is found or (found.is_parts() and uses(it, found)))]
            if not users:
                stop(f"{found.path}: its part {name} is played nowhere")


def uses(one: Scenario, other: Scenario) -> bool:
    return f"% from {other.path}\n" in (DATA / one.path).read_text(encoding="utf-8")


def sentence(text: str) -> str:
    """The first sentence of a head."""
    return re.split(r"(?<=[.?]) (?=[A-Z`])| promise:", text, maxsplit=1)[0]


def item(text: str) -> str:
    return textwrap.fill(text, WIDTH, initial_indent="- ", subsequent_indent="  ", break_on_hyphens=False, break_long_words=False)


def short(path: str) -> str:
    return f"`{path.removesuffix('.txt')}`"


def several(paths: list[str]) -> str:
    """Some of these files, and how many more there are."""
    more = len(paths) - NAMED
    return ", ".join(short(path) for path in paths[:NAMED]) + (f", and {more} more" if more > 0 else "")


def by_folder(all_found: list[Scenario]) -> list[str]:
    lines = ["## By folder", ""]
    for folder, says in FOLDERS.items():
        here = [it for it in all_found if it.folder() == folder]
        link = f"[`{folder}`](../crates/ddf_rig/data/{folder}): " if folder else "[At the top](../crates/ddf_rig/data): "
        lines += [f"### {says}", "", link + f"{len([it for it in here if not it.is_parts()])} files.", ""]
        for found in sorted(here, key=Scenario.is_parts):
            name = found.path.rpartition("/")[2].removesuffix(".txt")
            lines.append(item(f"`{name}`: {sentence(found.says)}"))
        lines.append("")
    return lines


def by_command(all_found: list[Scenario]) -> list[str]:
    """Of each command its folders, and the other files whose heads name it."""
    lines = ["## By command", "", "Its folders, and other files whose heads name it.", ""]
    for command in COMMANDS:
        folders = [folder for folder, says in FOLDERS.items() if f"`{command}`" in says]
        here = [it.path for it in all_found if re.search(rf"`{command}\b", it.says) and it.folder() not in folders and not it.is_parts()]
        lines.append(item(f"**`{command}`**: " + ", ".join([*(f"`{folder}/`" for folder in folders), *map(short, here)])))
    return [*lines, ""]


def refusals() -> dict[str, str]:
    """The words of each refusal by its number, those of any command where there are several, and those of contradictions by themselves."""
    with (TOP / "docs/refusals.tsv").open(encoding="utf-8", newline="") as file:
        rows = list(csv.reader(file, delimiter="\t", quoting=csv.QUOTE_NONE))[1:]
    rows.sort(key=lambda row: row[1] == "any")
    return {row[0]: f"{row[0]} {row[2]}" if row[0].isdigit() else row[0] for row in rows}


def told_in(found: Scenario, begin: str) -> tuple[int, int]:
    """How many lines of answers begin so: apart from sweeps, and in them."""
    counts = [0, 0]
    is_swept = False
    for asked, told in found.steps:
        is_swept = is_swept or asked.startswith("% each ")
        counts[is_swept] += sum(bool(re.match(begin, line)) for line in told)
        is_swept = is_swept and asked != "% end"
    return counts[0], counts[1]


def showing(number: str, all_found: list[Scenario]) -> list[str]:
    """The files that show a refusal, those first that show it most often, apart from sweeps."""
    begin = rf"refused {number}\b" if number.isdigit() else rf"{number} slots\b"
    counts = {it.path: told_in(it, begin) for it in all_found if it.path != WRONG}
    paths = sorted((path for path, (one, swept) in counts.items() if one or swept), key=lambda path: (*(-count for count in counts[path]), path))
    if not paths:
        stop(f"no scenario shows the refusal {number}")
    return paths


def by_refusal(all_found: list[Scenario]) -> list[str]:
    intro = ["Files that show it, those first that show it most often, apart from sweeps.", "[REFUSALS.md](REFUSALS.md) says why each comes, and the way out;", "`scripts/scenarios.py 24` prints all files that show one."]
    lines = ["## By refusal", "", *intro, ""]
    for number, words in sorted(refusals().items()):
        lines.append(item(f"**{words}**: {several(showing(number, all_found))}"))
    return [*lines, ""]


def by_promise(all_found: list[Scenario]) -> list[str]:
    lines = ["## By promise", "", "[GUARANTEES.md](GUARANTEES.md#the-main-promises) has the clauses, and what else shows a promise.", ""]
    with (TOP / "docs/promises.tsv").open(encoding="utf-8", newline="") as file:
        rows = list(csv.reader(file, delimiter="\t", quoting=csv.QUOTE_NONE))[1:]
    for mark, says in rows:
        paths = [it.path for it in all_found if re.search(rf"\bpromise:{mark}\b", it.says)]
        lines.append(item(f"**`{mark}`** {sentence(says)} " + ", ".join(map(short, paths))))
    return lines


def answered(all_found: list[Scenario]) -> str:
    """What the gate's run prints. What is told of wrong answers stays as it is."""
    before = (RIG / "stdout").read_text(encoding="utf-8").splitlines()
    begun = next((place for place, line in enumerate(before) if line.startswith(f"{WRONG}: ")), None)
    if begun is None:
        stop(f"crates/ddf_rig/stdout has no line of {WRONG}")
    lines = [f"{it.path}: {count_of(it)} steps, 0 otherwise" for it in all_found if it.path != WRONG]
    return "\n".join([*lines, *before[begun:]]) + "\n"


def main() -> None:
    paths = [str(path.relative_to(DATA)) for path in DATA.rglob("*") if path.is_file()]
    for path in paths:
        if not re.fullmatch(r"([a-z0-9-]+/)?[a-z0-9-]+\.txt", path):
            stop(f"{path} is no name of a scenario")
    all_found = [scenario(path) for path in sorted(paths, key=lambda path: (path == WRONG, "/" in path, path.removesuffix(".txt")))]
    if unknown := {it.folder() for it in all_found} ^ set(FOLDERS):
        stop(f"folders that FOLDERS lacks, or that aren't there: {unknown}")
    look_at_parts(all_found)
    to_play = [it for it in all_found if not it.is_parts()]
    if empty := [it.path for it in to_play if not it.steps]:
        stop(f"these have no step: {empty}")
    if asked := [word for word in sys.argv[1:] if word != "--check"]:
        print("\n".join(dict.fromkeys(path for number in asked for path in showing(number, to_play))))
        return
    page = [*HEAD.splitlines(), "", *by_command(all_found), *by_folder(all_found), *by_refusal(to_play), *by_promise(to_play)]
    made = {
        RIG / "args": "\n".join(it.path for it in to_play) + "\n",
        RIG / "stdout": answered(to_play),
        PAGE: "\n".join(page).rstrip("\n") + "\n",
    }
    for path, text in made.items():
        if "--check" not in sys.argv[1:]:
            path.write_text(text, encoding="utf-8")
        elif not path.is_file() or path.read_text(encoding="utf-8") != text:
            stop(f"{path.relative_to(TOP)} isn't up to date: run scripts/scenarios.py")
    steps = sum(count_of(it) for it in to_play)
    print(f"scenarios: {len(to_play)} files with {steps} steps, each with its sentence, and {len(all_found) - len(to_play)} of parts, each of which is played")


main()
