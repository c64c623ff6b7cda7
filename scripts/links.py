#!/usr/bin/env python3
"""Looks whether the links of the pages lead somewhere: each file that a page links to, and each heading of it, has to be there.

    scripts/links.py

Pages are README.md, CHANGELOG.md and TODO.md, those of docs/ and below it, and the README of each crate and of folders of
scripts. Heads of sources that name a page with a heading, as docs/FORMAT.md#header, are looked at too, and so are files of this
repository that a page names in backquotes: `scripts/links.py`, `ddf_bay/src/bay.rt` and, in the README of a crate, `src/bay.rt` or `bay.rt`.
"""
import re
import sys
from pathlib import Path

TOP = Path(__file__).resolve().parent.parent


def pages() -> list[Path]:
    patterns = ("*.md", "docs/**/*.md", "crates/*/README.md", "scripts/**/*.md", "tools/**/*.md")
    return sorted(path for pattern in patterns for path in TOP.glob(pattern))


def anchors(page: Path) -> set[str]:
    """The names by which the headings of a page are linked to."""
    found: set[str] = set()
    text = re.sub(r"^```.*?^```$", "", page.read_text(encoding="utf-8"), flags=re.MULTILINE | re.DOTALL)
    for title in re.findall(r"^#+ (.*)$", text, re.MULTILINE):
        name = re.sub(r"[^\w\- ]", "", re.sub(r"\[([^]]*)\]\([^)]*\)", r"\1", title).lower()).replace(" ", "-")
        again = 1
        while (name if again == 1 else f"{name}-{again - 1}") in found:
            again += 1
        found.add(name if again == 1 else f"{name}-{again - 1}")
    return found


def links(path: Path) -> list[str]:
    text = path.read_text(encoding="utf-8")
    if path.suffix == ".rt":
        head = "\n".join(line for line in text.splitlines()[:4] if line.startswith("//!"))
        return ["/" + name for name in re.findall(r"docs/[A-Z\-]+\.md(?:#[\w\-]+)?", head)]
    text = re.sub(r"^ *```.*?^ *```$", "", text, flags=re.MULTILINE | re.DOTALL)
    return re.findall(r"\]\(([^)\s]+)\)", text)


def files(page: Path) -> list[str]:
    """The files that a page names in backquotes and that aren't there. What is said of earlier versions may name others."""
    if page.name == "CHANGELOG.md":
        return []
    text = re.sub(r"^ *```.*?^ *```$", "", page.read_text(encoding="utf-8"), flags=re.MULTILINE | re.DOTALL)
    lost = []
    for name in set(re.findall(r"`([\w./-]+\.(?:rt|antt|py|sh|txt|tsv|md|edit))`", text)):
        places = [TOP / name, TOP / "crates" / name, TOP / "docs" / name, TOP / "tools" / name, TOP / "crates/ddf_rig/data" / name, TOP / "scripts" / name]
        if page.parent.parent == TOP / "crates":
            places += [page.parent / name, page.parent / "src" / name, page.parent / "specs" / name]
        if any(it.exists() for it in places):
            continue
        # `specs/Stray.antt` behind the name of its crate, and `NAME.txt` of a user's own, can't be told from one another here.
        if re.match(r"(?:crates/)?ddf\w*/|scripts/|docs/", name) or page.parent.parent == TOP / "crates":
            lost.append(name)
        elif re.match(r"specs/|src/|proofs/", name) and not any(TOP.glob(f"crates/*/{name}")):
            lost.append(name)
    return lost


def main() -> None:
    wrong: list[str] = []
    count = 0
    for page in pages():
        wrong += [f"{page.relative_to(TOP)}: there is no {name}" for name in files(page)]
    for path in [*pages(), *sorted((TOP / "crates").glob("*/src/**/*.rt"))]:
        for link in links(path):
            if re.match(r"\w+:", link):
                continue
            count += 1
            file, _, heading = link.partition("#")
            target = TOP / file[1:] if file.startswith("/") else (path.parent / file).resolve() if file else path
            if not target.exists():
                wrong.append(f"{path.relative_to(TOP)}: there is no {link}")
            elif heading and target.suffix == ".md" and heading not in anchors(target):
                wrong.append(f"{path.relative_to(TOP)}: {target.name} has no heading {heading}")
    if wrong:
        sys.exit("\n".join(["links: these lead nowhere:", *wrong]))
    print(f"links: each of {count} leads somewhere")


main()
