#!/usr/bin/env python3
"""Makes what stands in several places from one source: docs/refusals.tsv and docs/statuses.tsv.

    man/ddf.8         of man/ddf.8.in, where a line that begins with .\\" and @ stands for the refusals or the statuses
    docs/REFUSALS.md  between two comments of its own: each refusal, with why and the way out
    docs/SCRIPTS.md   between two such comments: the statuses

With --check nothing is made: these have to be up to date, --help has to have the statuses' short texts, each command of
--help has to have its entry in the man page and its heading in docs/COMMANDS.md, each refusal that the program prints
has to have its row, and mandoc and groff have to find nothing in the page: where one of them isn't here it ends with 77.
"""
import csv
import re
import shutil
import subprocess
import sys
import textwrap
from pathlib import Path
from typing import NamedTuple, NoReturn

TOP = Path(__file__).resolve().parent.parent
SOURCE, PAGE = TOP / "man/ddf.8.in", TOP / "man/ddf.8"
WIDTH = 98
# a number whose causes go by kinds of disks, and not by the command; the last row stands for all of them
KINDS = {"39"}
# a number that no command gives yet: it has its line, and no row
NOT_GIVEN = {"37"}


def stop(why: str) -> NoReturn:
    sys.exit(f"man: {why}")


class Refusal(NamedTuple):
    """A row of refusals.tsv: the number, or the line's first word where it has none; the command, or the kind; and texts."""

    number: str
    case: str
    words: str
    why: str
    way_out: str


class Status(NamedTuple):
    """A row of statuses.tsv: the number, what --help calls it, and what it means."""

    number: str
    short: str
    meaning: str


def rows(name: str) -> list[list[str]]:
    """The rows of a table of docs/ below its heads."""
    with (TOP / "docs" / name).open(encoding="utf-8", newline="") as file:
        return list(csv.reader(file, delimiter="\t", quoting=csv.QUOTE_NONE))[1:]


def refusals() -> dict[str, list[Refusal]]:
    """The rows of each number, in the order of the table."""
    found: dict[str, list[Refusal]] = {}
    for row in rows("refusals.tsv"):
        found.setdefault(row[0], []).append(Refusal(*row))
    return found


def statuses() -> list[Status]:
    return [Status(*row) for row in rows("statuses.tsv")]


# ---- the man page


def roff(text: str) -> str:
    """A text as roff takes it, with each sentence on a line of its own."""
    lines = re.sub(r"([.:]) (?=[A-Z])", r"\1\n", text.replace("\\", "\\e")).split("\n")
    return "\n".join("\\&" + line if line[:1] in (".", "'") else line for line in lines)


def entries(heads: list[str], bodies: list[str], width: str) -> str:
    """A list of mdoc with a head and a body for each entry."""
    lines = [f".Bl -tag -width {width} -compact"]
    for head, body in zip(heads, bodies):
        lines += [f".It {head}", body]
    return "\n".join([*lines, ".El"])


def way_for_man(cause: Refusal, is_alone: bool) -> str:
    case = "else" if cause.case == "any" else cause.case
    return cause.way_out if is_alone else f"({case}) {cause.way_out}"


def refusals_for_man() -> str:
    """Each refusal with its words and the ways out: why it comes stands in REFUSALS.md."""
    heads, bodies = [], []
    for number, causes in refusals().items():
        if number in KINDS:
            causes = causes[-1:]
        if number.isdigit():
            ways = " ".join(way_for_man(cause, len(causes) == 1) for cause in causes)
            heads.append(number)
            bodies.append(roff(f"{causes[-1].words}: {ways}"))
    return entries(heads, bodies, "xx")


def statuses_for_man() -> str:
    found = statuses()
    return entries([status.number for status in found], [roff(status.meaning) for status in found], "xx")


FILLS = {"refusals": refusals_for_man, "statuses": statuses_for_man}


def filled(line: str) -> str:
    """A line of the source, or what it stands for."""
    asked = re.fullmatch(r'\.\\" @(\w+)', line)
    return FILLS[asked[1]]() if asked else line


def wrapped(lines: list[str]) -> list[str]:
    """The lines of a page, those of plain text with 80 columns at most."""
    made: list[str] = []
    as_is = False
    for line in lines:
        as_is = line == ".Bd -literal" or (as_is and line != ".Ed")
        made += [line] if as_is or line.startswith(".") else textwrap.wrap(line, 80, break_on_hyphens=False)
    return made


def man_page() -> str:
    """The whole man page. Its first line says what made it."""
    lines = SOURCE.read_text(encoding="utf-8").splitlines()[1:]
    lines = wrapped("\n".join(map(filled, lines)).splitlines())
    return "\n".join(['.\\" Made by scripts/man.py of man/ddf.8.in: change that.', *lines]) + "\n"


# ---- the pages


def item(text: str) -> str:
    return textwrap.fill(text, WIDTH, initial_indent="- ", subsequent_indent="  ", break_on_hyphens=False, break_long_words=False)


def filled_text(text: str) -> str:
    return textwrap.fill(text, WIDTH, break_on_hyphens=False, break_long_words=False)


def told(cause: Refusal) -> str:
    return f"{cause.why} **Way out:** {cause.way_out}"


def label(cause: Refusal) -> str:
    """What tells one cause of a number from the others."""
    if cause.number == "conflict":
        return f"`{cause.words}`: "
    if cause.number in KINDS or not cause.case.isalpha():
        return ""
    return "Else: " if cause.case == "any" else f"`{cause.case}`: "


def refusals_for_page() -> str:
    """Each refusal with why it comes, and the way out."""
    lines: list[str] = []
    for number, causes in refusals().items():
        lines += [f"### {number} `{causes[-1].words}`" if number.isdigit() else f"### `{number}`", ""]
        if number == "split":
            lines += [f"`{causes[0].words}`", ""]
        if number in KINDS:
            lines += [filled_text(told(causes[-1]) + " [Each kind of disk](#39-in-full):"), ""]
            causes = causes[:-1]
        lines += [item(label(cause) + told(cause)) if len(causes) > 1 else filled_text(told(cause)) for cause in causes]
        lines.append("")
    return "\n".join(lines)


def statuses_for_page() -> str:
    return "\n".join(item(f"**{status.number}**, {status.short}. {status.meaning}") for status in statuses()) + "\n"


def page_with(name: str, what: str, text: str) -> str:
    """A page with a text between its two comments."""
    page = (TOP / "docs" / name).read_text(encoding="utf-8")
    begin, end = f"<!-- {what}: made by scripts/man.py -->\n", f"<!-- end of {what} -->\n"
    if page.count(begin) != 1 or page.count(end) != 1:
        stop(f"docs/{name} has no comments around its {what}")
    before, behind = page.split(begin)[0], page.split(end)[1]
    return f"{before}{begin}\n{text}{end}{behind}"


def made() -> dict[Path, str]:
    """Each file with what it should hold."""
    return {
        PAGE: man_page(),
        TOP / "docs/REFUSALS.md": page_with("REFUSALS.md", "refusals", refusals_for_page()),
        TOP / "docs/SCRIPTS.md": page_with("SCRIPTS.md", "statuses", statuses_for_page() + "\n"),
    }


# ---- the check


def help_text() -> str:
    """What --help prints, as far as the source of the program has it as one text."""
    return (TOP / "crates/ddf_edge/src/help.rt").read_text(encoding="utf-8")


def commands_of_help() -> set[str]:
    """The commands that --help lists: each begins a line that is indented by two spaces."""
    return set(re.findall(r"^  ([a-z]+)\b", help_text(), re.MULTILINE))


def commands_of_page() -> set[str]:
    """The commands that have an entry in the man page."""
    part = re.search(r"^\.Sh COMMANDS\n(.*?)^\.Sh ", PAGE.read_text(encoding="utf-8"), re.MULTILINE | re.DOTALL)
    return set(re.findall(r"^\.It Cm ([a-z]+)", part[1], re.MULTILINE)) if part else set()


def commands_of_reference() -> set[str]:
    """The commands that have a heading in docs/COMMANDS.md."""
    return set(re.findall(r"^#+ `([a-z]+)`$", (TOP / "docs/COMMANDS.md").read_text(encoding="utf-8"), re.MULTILINE))


def numbers_printed() -> set[str]:
    """The numbers of refusals that the program prints, but of those that no command gives yet."""
    sources = [*(TOP / "crates/ddf_text/src").glob("*.rt"), *(TOP / "crates/ddf_batch/src").glob("*.rt")]
    return {number for path in sources for number in re.findall(r'"refused (\d+) ', path.read_text(encoding="utf-8"))} - NOT_GIVEN


def lint(name: str, command: list[str]) -> str:
    """Has a program read the page; it may find nothing. What isn't here, if anything."""
    if shutil.which(command[0]) is None:
        return f"no {name}"
    told = subprocess.run(command, capture_output=True, text=True, check=False)
    # Which pages of others are installed, and how old their index is, says nothing of this one.
    others = ("outdated mandoc.db", "referenced manual not found")
    found = [line for line in (told.stdout * (name == "mandoc") + told.stderr).splitlines() if not any(it in line for it in others)]
    if found:
        stop("\n".join([f"{name} finds in man/ddf.8:", *found]))
    print(f"man: {name} finds nothing in the page")
    return ""


def check() -> None:
    for path, text in made().items():
        if not path.exists() or path.read_text(encoding="utf-8") != text:
            stop(f"{path.relative_to(TOP)} isn't up to date: run scripts/man.py")
    helped = commands_of_help()
    for place, told in (("the man page", commands_of_page()), ("docs/COMMANDS.md", commands_of_reference())):
        if helped != told:
            stop(f"{place} and --help differ in {sorted(helped ^ told)}")
    if numbers_printed() != {number for number in refusals() if number.isdigit()}:
        stop(f"docs/refusals.tsv and the program differ in {sorted(numbers_printed() ^ set(refusals()))}")
    ended = " ".join(help_text().split())
    for status in statuses():
        if f"{status.number} {status.short}" not in ended:
            stop(f"--help doesn't call status {status.number} '{status.short}'")
    print(f"man: the pages are up to date, and have each of {len(helped)} commands and {len(numbers_printed())} refusals")
    lacking = [
        lint("mandoc", ["mandoc", "-T", "lint", "-W", "style", str(PAGE)]),
        lint("groff", ["groff", "-ww", "-z", "-mdoc", "-Tutf8", str(PAGE)]),
    ]
    if any(lacking):
        print("man: not tried: " + ", ".join(filter(None, lacking)))
        sys.exit(77)


def main() -> None:
    if sys.argv[1:] == ["--check"]:
        check()
    elif sys.argv[1:]:
        stop("arguments: none, or --check")
    else:
        for path, text in made().items():
            path.write_text(text, encoding="utf-8")


main()
