#!/usr/bin/env python3
"""Draws docs/architecture.svg, the layers of the repository with their crates, from crates.txt, and lists in docs/ARCHITECTURE.md where each refusal comes from.

    scripts/architecture.py [--check]

In crates.txt a comment `# LAYER: what it is` begins a layer, the lowest first, and the crates below it are its own. A
crate may stand on those of its own layer and of layers before it: what stands on one above it is refused. A line of the
picture leads from a layer to each that it stands on, as far as no other line leads there. Crates whose functions do
nothing, so that their contracts are laws, have a broken line.

Refusals and their numbers are those of crates/ddf_config/src/refusal.rt. One comes from each function that makes it, and not from
those that hand it on.

With --check nothing is written: the layers have to be sound, the picture and the list up to date, docs/CRATES.md has to name
each crate, and no other, and each file of a crate that docs/ARCHITECTURE.md names has to be there.
"""
import re
import sys
import textwrap
from pathlib import Path
from typing import NamedTuple, NoReturn

TOP = Path(__file__).resolve().parent.parent
PAGE = TOP / "docs/architecture.svg"
TEXT = TOP / "docs/ARCHITECTURE.md"
REFUSALS = TOP / "crates/ddf_config/src/refusal.rt"
BEGIN, END = "<!-- refusals: made by scripts/architecture.py -->", "<!-- end of refusals -->"
WIDE, HIGH, GAP, LEFT = 118, 20, 6, 20
FULL, MIDDLE = 900, 60


def stop(why: str) -> NoReturn:
    sys.exit(f"architecture: {why}")


class Layer(NamedTuple):
    """A layer: its name, what it is, its crates, and the layers that these name."""

    name: str
    says: str
    crates: list[str]
    below: set[str]


class Box(NamedTuple):
    """Where a layer is drawn."""

    x: int
    y: int
    wide: int
    high: int


def layers() -> list[Layer]:
    """The layers of crates.txt, the lowest first, none of which stands on one above it."""
    found: list[Layer] = []
    home: dict[str, str] = {}
    lines = (TOP / "crates.txt").read_text(encoding="utf-8").splitlines()
    ours = {line.split(":")[0] for line in lines if re.match(r"\w+:", line)}
    for line in lines:
        if begun := re.fullmatch(r"# ([a-z ]+): (.*)", line):
            found.append(Layer(begun[1], begun[2], [], set()))
        elif crate := re.fullmatch(r"(\w+):(.*)", line):
            if not found:
                stop(f"{crate[1]} stands in no layer of crates.txt")
            for name in crate[2].split():
                if name in ours and name not in home:
                    stop(f"{crate[1]} of the layer {found[-1].name} stands on {name}, which comes after it")
                found[-1].below.update({home[name]} - {found[-1].name} if name in ours else set())
            home[crate[1]] = found[-1].name
            found[-1].crates.append(crate[1])
    return found


def is_laws(crate: str) -> bool:
    """Whether the functions of a crate do nothing, or cite one another: their contracts are laws."""
    code = "".join(it.read_text(encoding="utf-8") for it in (TOP / "crates" / crate / "src").glob("*.rt"))
    code = re.sub(r"^ +\w+(::<.*>)?\(\);\n", "", code, flags=re.MULTILINE)
    functions = len(re.findall(r"^\s*(?:pub(?:\(\w+\))? )?fn ", code, re.MULTILINE))
    return 0 < functions == len(re.findall(r"^\{\s*\}$", code, re.MULTILINE))


def reached(all_layers: list[Layer]) -> dict[str, set[str]]:
    """All layers below each."""
    below: dict[str, set[str]] = {}
    for layer in all_layers:
        below[layer.name] = set().union(layer.below, *(below[name] for name in layer.below))
    return below


def ranks(all_layers: list[Layer]) -> dict[str, int]:
    """How many layers lie below each, along the longest way."""
    rank: dict[str, int] = {}
    for layer in all_layers:
        rank[layer.name] = max((rank[name] + 1 for name in layer.below), default=0)
    return rank


def draw_layer(layer: Layer, x: int, y: int, wide: int) -> tuple[str, Box]:
    """A layer with its crates."""
    across = (wide - GAP) // (WIDE + GAP)
    high = 24 + (HIGH + GAP) * -(-len(layer.crates) // across)
    drawn = [f'<g><title>{layer.name}: {layer.says}</title><rect class="layer" x="{x}" y="{y}" width="{wide}" height="{high}" rx="6"/>']
    drawn.append(f'<text class="name" x="{x + 8}" y="{y + 15}">{layer.name}</text>')
    for place, crate in enumerate(layer.crates):
        at, down = x + GAP + (WIDE + GAP) * (place % across), y + 22 + (HIGH + GAP) * (place // across)
        kind = "laws" if is_laws(crate) else "code"
        drawn.append(f'<rect class="{kind}" x="{at}" y="{down}" width="{WIDE}" height="{HIGH}" rx="3"/>')
        drawn.append(f'<text class="crate" x="{at + WIDE // 2}" y="{down + 14}">{crate.removeprefix("ddf_")}</text>')
    return "\n".join([*drawn, "</g>"]), Box(x, y, wide, high)


def draw_line(one: Box, other: Box, is_far: bool) -> str:
    """The line from a layer to one that it stands on. One to the other column that passes others goes through the middle."""
    end_y, begin_y = other.y, one.y + one.high
    if is_far and one.x + one.wide < other.x:
        begin, end, middle = one.x + one.wide - 30, other.x + 30, LEFT + FULL // 2
        return (
            f"M{begin} {begin_y} C{begin} {begin_y + 20} {middle} {begin_y + 6} {middle} {begin_y + 40} "
            f"V{end_y - 40} C{middle} {end_y - 6} {end} {end_y - 20} {end} {end_y}"
        )
    begin, end = one.x + one.wide // 2, other.x + other.wide // 2
    if other.x <= begin <= other.x + other.wide:
        end = begin
    elif one.x <= end <= one.x + one.wide:
        begin = end
    else:
        begin, end = (begin + 40, end - 40) if begin < end else (begin - 40, end + 40)
    return f"M{begin} {begin_y} C{begin} {begin_y + 20} {end} {end_y - 20} {end} {end_y}"


def drawing() -> str:
    all_layers = layers()
    below, rank = reached(all_layers), ranks(all_layers)
    boxes: dict[str, Box] = {}
    drawn, y = [], 10
    for row in range(max(rank.values()), -1, -1):
        here = [layer for layer in all_layers if rank[layer.name] == row]
        wide = (FULL - MIDDLE * (len(here) - 1)) // len(here)
        for place, layer in enumerate(here):
            text, boxes[layer.name] = draw_layer(layer, LEFT + place * (wide + MIDDLE), y, wide)
            drawn.append(text)
        y += max(boxes[layer.name].high for layer in here) + 34
    lines = []
    for layer in all_layers:
        for name in sorted(layer.below - set().union(*(below[one] for one in layer.below))):
            line = draw_line(boxes[layer.name], boxes[name], rank[layer.name] - rank[name] > 1)
            lines.append(f'<path class="on" d="{line}"/>')
    style = (
        "text{font:11px sans-serif;fill:#222}.name{font-weight:bold}.crate{text-anchor:middle}"
        ".layer{fill:#f3f3f0;stroke:#999}.code{fill:#dfe9f7;stroke:#557}"
        ".laws{fill:#fbe3e0;stroke:#a55;stroke-dasharray:4 2}.on{fill:none;stroke:#777;marker-end:url(#end)}"
    )
    arrow = (
        '<marker id="end" viewBox="0 0 6 6" refX="5" refY="3" markerWidth="7" markerHeight="7" orient="auto">'
        '<path d="M0 0L6 3L0 6z" fill="#777"/></marker>'
    )
    size = f'width="{FULL + 2 * LEFT}" height="{y}" viewBox="0 0 {FULL + 2 * LEFT} {y}"'
    head = f'<svg xmlns="http://www.w3.org/2000/svg" {size}><style>{style}</style><defs>{arrow}</defs><rect width="100%" height="100%" fill="#fff"/>'
    return "\n".join([head, *lines, *drawn, "</svg>"]) + "\n"


def look_for_crates() -> None:
    """docs/CRATES.md has to name each crate of crates.txt, and no other."""
    told = set(re.findall(r"`(ddf\w*)`(?=[,*])", (TOP / "docs/CRATES.md").read_text(encoding="utf-8")))
    there = {crate for layer in layers() for crate in layer.crates}
    if told != there:
        stop(f"docs/CRATES.md and crates.txt differ in {' '.join(sorted(told ^ there))}")


def refusals() -> list[tuple[int, str]]:
    """The number of each refusal, with its name in the code."""
    found = re.findall(r"^    /// (\d+): .*\n    (\w+)", REFUSALS.read_text(encoding="utf-8"), re.MULTILINE)
    return [(int(number), name) for number, name in found]


def made_in(code: str) -> list[tuple[str, str]]:
    """The refusals that a file makes, by their names, each with the function that makes it. One that is only handed on, or asked for, isn't made there."""
    found: list[tuple[str, str]] = []
    function = ""
    for line in code.splitlines():
        if begun := re.match(r"\s*(?:pub(?:\(\w+\))? )?fn (\w+)", line):
            function = begun[1]
        taken, arrow, given = re.sub(r"//.*|\bmatches!\(.*", "", line).partition("=>")
        if not arrow:
            taken, given = "", taken
        names = re.findall(r"\bRefusal::(\w+)", given) + re.findall(r"(?:Some|Err)\(VolumeFault::(\w+)", given)
        found += [(name, function) for name in names if not re.search(rf"\b(?:Refusal|VolumeFault)::{name}\b", taken)]
    return found


def makers() -> dict[str, dict[str, list[str]]]:
    """The files that make each refusal, by its name, with the functions. What prints one makes none."""
    found: dict[str, dict[str, list[str]]] = {}
    for path in sorted((TOP / "crates").glob("*/src/**/*.rt")):
        file = str(path.relative_to(TOP / "crates"))
        if path == REFUSALS or file.startswith("ddf_text/"):
            continue
        for name, function in made_in(path.read_text(encoding="utf-8")):
            functions = found.setdefault(name, {}).setdefault(file, [])
            if function not in functions:
                functions.append(function)
    return found


def with_refusals(page: str) -> str:
    """The page with the list of refusals in its place."""
    made = makers()
    rows = []
    for number, name in refusals():
        files = ", ".join(f"`{file}` ({', '.join(f'`{it}`' for it in functions)})" for file, functions in made.get(name, {}).items()) or "no command"
        rows.append(textwrap.fill(f"- **{number}** `{name}`: {files}", 98, subsequent_indent="  ", break_long_words=False, break_on_hyphens=False))
    begin, end = page.index(BEGIN) + len(BEGIN), page.index(END)
    return page[:begin] + "\n\n" + "\n".join(rows) + "\n\n" + page[end:]


def look_for_files(page: str) -> None:
    """Each file and folder of a crate that the page names has to be there."""
    named = set(re.findall(r"`(?:crates/)?(ddf\w*/[\w./-]+)`", page))
    if lost := sorted(it for it in named if not (TOP / "crates" / it).exists()):
        stop(f"docs/ARCHITECTURE.md names what isn't there: {' '.join(lost)}")


def main() -> None:
    made = drawing()
    page = TEXT.read_text(encoding="utf-8")
    if "--check" not in sys.argv[1:]:
        PAGE.write_text(made, encoding="utf-8")
        TEXT.write_text(with_refusals(page), encoding="utf-8")
    elif not PAGE.exists() or PAGE.read_text(encoding="utf-8") != made:
        stop("docs/architecture.svg isn't what crates.txt says: run scripts/architecture.py")
    elif with_refusals(page) != page:
        stop("docs/ARCHITECTURE.md doesn't list where each refusal comes from: run scripts/architecture.py")
    else:
        look_for_crates()
        look_for_files(page)
        print("architecture: no layer stands on one above it; the picture, the lists of crates and of refusals are up to date")


main()
