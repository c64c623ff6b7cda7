#!/usr/bin/env python3
"""Makes the lists of the main promises, and of what is argued, from docs/promises.tsv and the comments of the sources.

    scripts/promises.py [--check]

A row of docs/promises.tsv is a promise: its mark and its sentence, which stands nowhere else. What holds it cites the mark:

    // promise:MARK    in crates/*/src, a line of its own directly above the clause, or above the law, of a public function
    # promise:MARK     in the comments of a scenario of crates/ddf_rig/data that shows it; a script and a page may cite it too

A line may cite several, with commas. A comment of the sources that begins with `argued: ` marks what is argued there and not
proved, up to the end of its paragraph. Of these are made

    docs/PROOF.md       between two comments: the promises with their marks; and each place that is marked `argued`
    docs/GUARANTEES.md  between two comments: by mark, the clauses and what shows them

With --check nothing is made: both pages have to be up to date. Either way each promise has to have a clause and a scenario, each
mark has to be that of a promise, and each place that says of something that it is argued has to be marked so.
"""
import csv
import re
import sys
import textwrap
from pathlib import Path
from typing import NamedTuple, NoReturn

TOP = Path(__file__).resolve().parent.parent
DATA = TOP / "crates/ddf_rig/data"
SCENARIOS = "crates/ddf_rig/data/**/*.txt"
PAGES = ("*.md", "docs/*", "scripts/*", "crates/*/README.md", SCENARIOS, "man/*.in")
WIDTH = 98
MARKS = r"promise:[a-z]+(?:, promise:[a-z]+)*"


def stop(why: str) -> NoReturn:
    sys.exit(f"promises: {why}")


class Promise(NamedTuple):
    """A row: its mark, and its sentence."""

    mark: str
    says: str


def promises() -> list[Promise]:
    with (TOP / "docs/promises.tsv").open(encoding="utf-8", newline="") as file:
        rows = list(csv.reader(file, delimiter="\t", quoting=csv.QUOTE_NONE))[1:]
    found = [Promise(mark, says) for mark, says in rows]
    if len({promise.mark for promise in found}) != len(found):
        stop("docs/promises.tsv has a mark twice")
    return found


def read(path: Path) -> str:
    if not path.is_file():
        stop(f"there is no {path.relative_to(TOP)}")
    return path.read_text(encoding="utf-8")


def is_ours(path: Path) -> bool:
    return not {"out", ".git", "target"} & set(path.relative_to(TOP).parts)


def sources(*patterns: str) -> list[Path]:
    return sorted(path for pattern in patterns for path in (TOP / "crates").glob(pattern) if is_ours(path))


def citing(patterns: tuple[str, ...]) -> list[tuple[Path, str]]:
    """Each file that cites a mark, with the mark."""
    found: list[tuple[Path, str]] = []
    for path in sorted(path for pattern in patterns for path in TOP.glob(pattern) if path.is_file()):
        marks = re.findall(r"\bpromise:([a-z]+)\b", path.read_text(encoding="utf-8"))
        found += [(path, mark) for mark in dict.fromkeys(marks)]
    return found


def name_below(lines: list[str]) -> str | None:
    """The clause or the law that begins behind these lines, the last of which is the one below a mark."""
    function = next((it for line in reversed(lines) if (it := re.match(r"\s*(pub )?(?:\w+ )*fn (\w+)", line))), None)
    if not function or not function[1]:
        return None
    if re.match(r"\s*pub fn ", lines[-1]):
        return f"`{function[2]}`"
    clause = re.match(r"\s*ensures (?:(\w+) )?\{", lines[-1])
    return clause and (f"`{function[2]}`: `{clause[1]}`" if clause[1] else f"`{function[2]}`")


def marked() -> list[tuple[str, str, str]]:
    """Each mark at a clause or at a law: the mark, the file, as CRATE/FILE, and the name."""
    found: list[tuple[str, str, str]] = []
    for path in sources("*/src/**/*.rt", "*/specs/**/*.antt", "*/proofs/**/*.antt"):
        lines = path.read_text(encoding="utf-8").splitlines()
        for number, line in enumerate(lines):
            if not re.search(r"\bpromise:[a-z]", line):
                continue
            at = f"{path.relative_to(TOP)}:{number + 1}"
            if not re.fullmatch(rf"\s*// {MARKS}", line):
                stop(f"{at}: a mark isn't in a comment of the sources on a line of its own")
            if not (name := name_below(lines[: number + 2])):
                stop(f"{at}: a mark stands above no clause and no law of a public function")
            _, crate, _, *file = path.relative_to(TOP).parts
            found += [(mark, f"{crate}/{'/'.join(file)}", name) for mark in re.findall(r"promise:([a-z]+)", line)]
    return found


def look(found: list[Promise], clauses: list[tuple[str, str, str]]) -> None:
    """Each promise has to have a clause, and a scenario that shows it; and each mark that is cited a promise."""
    marks = {promise.mark for promise in found}
    for mark, file, name in clauses:
        if mark not in marks:
            stop(f"crates/{file}: {name} cites promise:{mark}, which isn't in docs/promises.tsv")
    for path, mark in citing(PAGES):
        if mark not in marks:
            stop(f"{path.relative_to(TOP)} cites promise:{mark}, which isn't in docs/promises.tsv")
    if missing := sorted(marks - {mark for mark, _, _ in clauses}):
        stop(f"no clause cites promise:{missing[0]}")
    if missing := sorted(marks - {mark for _, mark in citing((SCENARIOS,))}):
        stop(f"no scenario cites promise:{missing[0]}")


def argued() -> list[tuple[str, str]]:
    """Each place that is marked, with what is argued there."""
    found: list[tuple[str, str]] = []
    for path in sources("**/*.rt", "**/*.antt"):
        lines = path.read_text(encoding="utf-8").splitlines()
        for number, line in enumerate(lines):
            if begun := re.match(r"\s*(//[/!]?|--) argued: (.*)", line):
                text = [begun[2]]
                for more in lines[number + 1 :]:
                    if not (next_line := re.match(rf"\s*{begun[1]} (?!promise:|argued:)(.*)", more)):
                        break
                    text.append(next_line[1])
                found.append((str(path.relative_to(TOP)), " ".join(text)))
            elif re.search(r"(//|--).*\bargued\b", line):
                stop(f"{path.relative_to(TOP)}:{number + 1}: what is argued isn't marked by `argued: `")
    return found


def item(text: str) -> str:
    return textwrap.fill(text, WIDTH, initial_indent="- ", subsequent_indent="  ", break_on_hyphens=False, break_long_words=False)


def by_sentence(found: list[Promise]) -> str:
    return "\n".join(item(f"`{promise.mark}` {promise.says}") for promise in found) + "\n"


def by_mark(found: list[Promise], clauses: list[tuple[str, str, str]]) -> str:
    """A table with the clauses of each, and what shows it."""
    scenarios, scripts = citing((SCENARIOS,)), citing(("scripts/*",))
    lines = ["| Promise | Carried by | Shown by |", "|---|---|---|"]
    for promise in found:
        carried = ", ".join(f"{name} ({file})" for mark, file, name in clauses if mark == promise.mark)
        names = [str(path.relative_to(DATA)) for path, mark in scenarios if mark == promise.mark]
        names += [path.name for path, mark in scripts if mark == promise.mark]
        shows = ", ".join(f"`{name}`" for name in names)
        lines.append(f"| `{promise.mark}` | {carried} | {shows} |")
    return "\n".join(lines) + "\n"


def of_argued(found: list[tuple[str, str]]) -> str:
    if not found:
        return "No place of the sources is marked so today.\n"
    return "\n".join(item(f"{text[0].upper()}{text[1:]} (`{path}`)") for path, text in found) + "\n"


def filled(page: str, what: str, text: str) -> str:
    """A page with a text between its two comments."""
    begin, end = f"<!-- {what}: made by scripts/promises.py -->\n", f"<!-- end of {what} -->\n"
    if page.count(begin) != 1 or page.count(end) != 1:
        stop(f"a page has no comments around its {what}")
    return page.split(begin)[0] + begin + "\n" + text + "\n" + end + page.split(end)[1]


def main() -> None:
    found, clauses, places_argued = promises(), marked(), argued()
    look(found, clauses)
    proof, index = TOP / "docs/PROOF.md", TOP / "docs/GUARANTEES.md"
    made = {
        proof: filled(filled(read(proof), "promises", by_sentence(found)), "argued", of_argued(places_argued)),
        index: filled(read(index), "promises", by_mark(found, clauses)),
    }
    for path, text in made.items():
        if "--check" not in sys.argv[1:]:
            path.write_text(text, encoding="utf-8")
        elif read(path) != text:
            stop(f"{path.relative_to(TOP)} isn't up to date: run scripts/promises.py")
    print(f"promises: each of {len(found)} has a clause and what shows it; {len(places_argued)} places are marked as argued")


main()
