#!/usr/bin/env python3
"""Draws the disks of a group as an SVG, of what `show` and `examine` print over them:

    scripts/picture.py [--group GUID] [--program PATH] IMAGE.. > picture.svg
    scripts/picture.py --show FILE --examine FILE IMAGE.. > picture.svg

Each disk is a bar as long as it has sectors, with what lies where: the extents of arrays, by element and position from 0, what is free, and the
records. A member that is absent or missing is drawn by what the others tell of it. Above stand the arrays with their positions. Nothing is
written to a disk: only the two commands are called, or their output is read from files, where IMAGE.. are the names for the slots.

Which positions are out of sync `examine` doesn't print. They are drawn so where it follows from what it prints: a position whose member is
missing; each of an element that is beyond its level by missing members, in an array whose record isn't failed, which so is mirrored; and, in a
group without this engine's notes, one on a disk that is being rebuilt. Where an array is degraded for none of these its line says so.
"""
import argparse
import re
import subprocess
import sys
from dataclasses import dataclass, field
from pathlib import Path
from typing import NoReturn
from xml.sax.saxutils import escape

WIDTH, LEFT, BAR = 1000, 290, 694
COLOURS = ["#6fb58a", "#7aa6d8", "#e0b25c", "#c48ac0", "#d98f7a", "#8fc1c9", "#b5b96a", "#a99bd6"]
FREE, RECORDS, LINE = "#ffffff", "#d7dde5", "#444444"
LEVELS = {
    ("00", None): "RAID 0", ("01", None): "RAID 1", ("04", "00"): "RAID 4, parity first", ("04", "01"): "RAID 4, parity last",
    ("05", "00"): "RAID 5, r0", ("05", "02"): "RAID 5, rn", ("05", "03"): "RAID 5, rnc", ("0f", None): "JBOD", ("1f", None): "concatenation",
}  # fmt: skip
STATES = {1: "failed", 2: "rebuilding", 3: "transition", 4: "predicted failure", 5: "unrecovered read error"}
REBUILDING, FAILED = 2, 4


def stop(why: str) -> NoReturn:
    sys.exit(f"picture: {why}")


@dataclass
class Member:
    """A line of `show`: a member, with its slot if its disk is there."""

    reference: str
    slot: int | None
    notes: str
    size: int = 0
    state: int = 1

    @property
    def is_missing(self) -> bool:
        return self.notes == "missing"

    @property
    def label(self) -> str:
        words = [self.notes] if self.notes else []
        words += [name for bit, name in STATES.items() if self.state >> bit & 1 and not self.is_missing]
        return ", ".join([f"member {self.reference}", *words])


@dataclass
class Element:
    """A record of `examine`: an element of an array, with the members and the first sectors of its positions."""

    number: int
    count: int
    level: str
    qualifier: str
    strip: int
    blocks: int
    places: list[tuple[str, int]]

    @property
    def name(self) -> str:
        return LEVELS.get((self.level, None)) or LEVELS.get((self.level, self.qualifier)) or f"level {self.level} {self.qualifier}"

    def can_lose(self) -> int:
        """How many positions it can do without."""
        return {"01": len(self.places) - 1, "04": 1, "05": 1}.get(self.level, 0)


@dataclass
class Array:
    """A line of `show`: an array, with its elements as far as a record of them is found."""

    name: str
    tells: str
    colour: str
    state: int = 0
    elements: list[Element] = field(default_factory=list)


@dataclass
class Slot:
    """What `examine` tells of a slot."""

    number: int
    path: str
    says: str = ""
    group: str = ""
    sectors: int = 0
    records: int = 0
    sequence: int = -1
    notes: int = -1
    disks: dict[str, tuple[int, int]] = field(default_factory=dict)
    arrays: list[tuple[str, str, int]] = field(default_factory=list)
    elements: dict[str, dict[int, Element]] = field(default_factory=dict)


@dataclass
class Group:
    """A group as `show` tells it, with what the slots at its sequence number tell beside."""

    guid: str
    sequence: int
    members: list[Member]
    arrays: list[Array]
    slots: list[Slot]

    @property
    def leaders(self) -> list[Slot]:
        """The slots at the group's sequence number."""
        return [slot for slot in self.slots if slot.group == self.guid and slot.sequence == self.sequence]

    @property
    def has_notes(self) -> bool:
        return any(slot.notes == self.sequence for slot in self.leaders)

    def member(self, reference: str) -> Member | None:
        return next((it for it in self.members if it.reference == reference), None)

    def at(self, slot: Slot) -> Member | None:
        return next((it for it in self.members if it.slot == slot.number), None)

    def is_away(self, reference: str) -> bool:
        member = self.member(reference)
        return member is None or member.slot is None

    def is_out_of_sync(self, array: Array, element: Element, reference: str) -> bool:
        """Whether the position is out of sync as far as it follows from what is told."""
        gone = [it for it, _ in element.places if (member := self.member(it)) is None or member.is_missing]
        member = self.member(reference)
        rebuilding = member is not None and bool(member.state >> REBUILDING & 1) and not self.has_notes
        fallen = len(gone) > element.can_lose() and array.state & 7 != FAILED
        return reference in gone or fallen or rebuilding

    def explains(self, array: Array) -> bool:
        """Whether it is seen why the array is degraded, if it is."""
        places = [(element, reference) for element in array.elements for reference, _ in element.places]
        return "degraded" not in array.tells or any(self.is_away(it) or self.is_out_of_sync(array, element, it) for element, it in places)


def size_of(sectors: int) -> str:
    """A number of sectors as people say it."""
    number, unit = sectors / 2, "KiB"
    for larger in ("MiB", "GiB", "TiB"):
        if number < 1024:
            break
        number, unit = number / 1024, larger
    return f"{number:.0f} {unit}" if number >= 100 or number == int(number) else f"{number:.1f} {unit}"


def shortened(name: str) -> str:
    return name if len(name) <= 22 else name[:10] + ".." + name[-10:]


def element_of(text: str) -> tuple[str, Element] | None:
    """The array and the element of a record line."""
    found = re.fullmatch(
        r"record \d+ (?:element|copy) ([0-9a-f]+) (\d+) of (\d+) level (\w\w) (\w\w) strip (\d+) blocks (\d+) members (.*)", text
    )
    if found is None:
        return None
    places = [(reference, int(start)) for reference, start in (it.split("+") for it in found[8].split())]
    return found[1], Element(int(found[2]), int(found[3]), found[4], found[5], int(found[6]), int(found[7]), places)


def take(slot: Slot, line: str, sequences: dict[str, int]) -> None:
    """Takes a line of `examine` behind the first one of a slot."""
    if found := re.match(r"anchor \d+ primary (\d+) secondary (\d+) workspace (\d+)", line):
        slot.records = min(map(int, found.groups()))
    elif found := re.match(r"(primary|secondary) header closed sequence (\d+)", line):
        sequences[found[1]] = int(found[2])
    elif found := re.match(r"newest (primary|secondary|level|differ)$", line):
        slot.sequence = sequences["secondary" if found[1] == "secondary" else "primary"]
    elif found := re.match(r"disk (\w+) \w+ type \w+ state (\w+) size (\d+)", line):
        slot.disks[found[1]] = (int(found[2], 16), int(found[3]))
    elif found := re.match(r"record \d+ notes sequence (\d+)", line):
        slot.notes = int(found[1])
    elif found := re.match(r"array (\S+) (\w+) number \d+ state (\w+) ", line):
        slot.arrays.append((found[1], found[2], int(found[3], 16)))
    elif record := element_of(line):
        slot.elements.setdefault(record[0], {}).setdefault(record[1].number, record[1])


def slots_of(examined: str, paths: list[str]) -> list[Slot]:
    slots: list[Slot] = []
    sequences: dict[str, int] = {}
    for line in examined.splitlines():
        if found := re.match(r"slot (\d+) (.*)", line):
            number = int(found[1])
            slots.append(Slot(number, paths[number] if number < len(paths) else "", found[2]))
            sequences = {}
            if whole := re.match(r"sectors (\d+) group (\w+) ", found[2]):
                slots[-1].sectors, slots[-1].group, slots[-1].says = int(whole[1]), whole[2], ""
        elif slots:
            take(slots[-1], line, sequences)
    return slots


def group_of(shown: str, slots: list[Slot]) -> Group:
    first = re.match(r"group (\w+) sequence (\d+)\n", shown)
    if first is None:
        stop(f"show tells no group: {shown.strip()}")
    group = Group(first[1], int(first[2]), [], [], slots)
    for line in shown.splitlines()[1:]:
        if found := re.fullmatch(r"member (\w+) (missing|absent)", line):
            group.members.append(Member(found[1], None, found[2]))
        elif found := re.fullmatch(r"member (\w+) slot (\d+) size (\d+) ?(.*)", line):
            group.members.append(Member(found[1], int(found[2]), found[4], int(found[3])))
        elif found := re.fullmatch(r"array (\S+) (.*)", line):
            group.arrays.append(Array(found[1], found[2], COLOURS[len(group.arrays) % len(COLOURS)]))
    add_records(group)
    return group


def add_records(group: Group) -> None:
    """Adds what the newest records tell of members and arrays."""
    leaders = group.leaders
    for leader in reversed(leaders):
        for member in group.members:
            member.state, size = leader.disks.get(member.reference, (member.state, member.size))
            member.size = member.size or size
    listed = leaders[0].arrays if leaders else []
    for array, (name, guid, state) in zip(group.arrays, listed):
        if array.name != name:
            stop(f"show and examine tell of other arrays: {array.name} and {name}")
        array.state = state
        records: dict[int, Element] = {}
        for leader in reversed(leaders):
            records.update(leader.elements.get(guid, {}))
        array.elements = [records[number] for number in sorted(records)]


class Page:
    """Lines of an SVG, from the top down."""

    def __init__(self) -> None:
        self.lines: list[str] = []
        self.y = 16

    def text(self, x: float, y: float, text: str, more: str = "") -> None:
        self.lines.append(f'<text x="{x:g}" y="{y:g}"{more}>{escape(text)}</text>')

    def box(self, x: float, y: float, width: float, fill: str, more: str = "", tip: str = "", height: int = 30) -> None:
        head = f'<rect x="{x:g}" y="{y:g}" width="{width:g}" height="{height}" fill="{fill}" stroke="{LINE}"{more}'
        self.lines.append(f"{head}><title>{escape(tip)}</title></rect>" if tip else f"{head}/>")

    def labelled(self, x: float, y: float, width: float, fill: str, label: str, tip: str, more: str = "", hatched: bool = False) -> None:
        """A box with the text in it, or its first word, if it has room."""
        self.box(x, y, width, fill, more, tip)
        if hatched:
            self.box(x, y, width, "url(#hatched)", more)
        halo = f' paint-order="stroke" stroke="{FREE}" stroke-width="4"' if hatched else ""
        for text in (label, label.split(" ")[0]):
            if len(text) * 7 + 6 <= width:
                self.text(x + width / 2, y + 20, text, ' text-anchor="middle"' + halo)
                break

    def svg(self) -> str:
        head = f'<svg xmlns="http://www.w3.org/2000/svg" width="{WIDTH}" height="{self.y}" viewBox="0 0 {WIDTH} {self.y}"'
        hatch = f'<path d="M0 8 L8 0" stroke="{LINE}" stroke-width="1"/>'
        pattern = f'<defs><pattern id="hatched" width="8" height="8" patternUnits="userSpaceOnUse">{hatch}</pattern></defs>'
        ground = f'<rect width="{WIDTH}" height="{self.y}" fill="#ffffff"/>'
        return "\n".join([f'{head} font-family="sans-serif" font-size="13">', pattern, ground, *self.lines, "</svg>", ""])


def draw_arrays(page: Page, group: Group) -> None:
    for array in group.arrays:
        page.box(16, page.y, 16, array.colour, height=16)
        page.text(40, page.y + 13, array.name, ' font-weight="bold"')
        tells = re.sub(r"^blocks (\d+)", lambda it: f"{size_of(int(it[1]))} ({it[1]} blocks)", array.tells)
        if not group.explains(array):
            tells += "; which position is out of sync isn't told"
        page.text(LEFT, page.y + 13, tells)
        page.y += 24
        for element in array.elements:
            draw_element(page, group, array, element)
        page.y += 8


def draw_element(page: Page, group: Group, array: Array, element: Element) -> None:
    """The positions of an element, each with the slot of its disk."""
    shape = f", {element.number} of {element.count}" if element.count > 1 else ""
    page.text(40, page.y + 20, element.name + shape)
    width = min(150.0, BAR / len(element.places))
    for place, (reference, start) in enumerate(element.places):
        member = group.member(reference)
        where = "unknown" if member is None else member.notes if member.slot is None else f"slot {member.slot}"
        away = group.is_away(reference)
        tip = f"position {place}: member {reference}, {size_of(element.blocks)} from sector {start} on"
        hatched = group.is_out_of_sync(array, element, reference)
        page.labelled(LEFT + place * width, page.y, width, FREE if away else array.colour, where, tip, dashes(away), hatched)
    page.y += 36


def dashes(away: bool) -> str:
    return ' stroke-dasharray="4 3"' if away else ""


def extents_of(group: Group, reference: str) -> list[tuple[int, int, str, Array, bool]]:
    """The extents on a member: first sector, sectors, label, array, and whether it is out of sync."""
    found = []
    for array in group.arrays:
        for element in array.elements:
            for place, (member, start) in enumerate(element.places):
                if member == reference:
                    label = f"{array.name} {element.number}.{place}"
                    found.append((start, element.blocks, label, array, group.is_out_of_sync(array, element, reference)))
    return sorted(found, key=lambda it: it[0])


def draw_bar(page: Page, group: Group, member: Member, sectors: int, records: int, scale: float) -> None:
    """What lies on a member's disk, in the order of its sectors."""
    more = dashes(member.slot is None)

    def put(start: int, end: int, fill: str, label: str, what: str, hatched: bool = False) -> None:
        if end > start:
            tip = f"{what}: sectors {start} to {end - 1}, {size_of(end - start)}"
            page.labelled(LEFT + start * scale, page.y, max((end - start) * scale, 2), fill, label, tip, more, hatched)

    at = 0
    for start, count, label, array, hatched in extents_of(group, member.reference):
        put(at, start, FREE, f"free {size_of(start - at)}", "free")
        put(start, start + count, FREE if member.slot is None else array.colour, label, label, hatched)
        at = max(at, start + count)
    put(at, member.size, FREE, f"free {size_of(member.size - at)}", "free")
    at = max(at, member.size)
    put(at, records, RECORDS, "", "not for arrays")
    put(max(at, records), sectors, RECORDS, "records", "records and workspace")


def draw_disks(page: Page, group: Group) -> None:
    longest = max([slot.sectors for slot in group.slots] + [member.size for member in group.members] + [1])
    scale = BAR / longest
    for slot in group.slots:
        member = group.at(slot)
        page.text(16, page.y + 12, f"slot {slot.number} {shortened(Path(slot.path).name)}", ' font-weight="bold"')
        page.text(LEFT - 8, page.y + 12, size_of(slot.sectors) if slot.sectors else "", ' text-anchor="end"')
        if member:
            page.text(16, page.y + 28, member.label)
            draw_bar(page, group, member, slot.sectors, slot.records, scale)
        else:
            page.text(16, page.y + 28, "no member's disk")
            shows = f"shows {'this group' if slot.group == group.guid else 'group ' + slot.group} at sequence {slot.sequence}"
            page.labelled(LEFT, page.y, max(slot.sectors * scale, 420), FREE, slot.says or shows, "not a disk of the group as it is now", dashes(True))
        page.y += 44
    for member in group.members:
        if member.slot is None:
            page.text(16, page.y + 20, member.label)
            draw_bar(page, group, member, member.size, member.size, scale)
            page.y += 44


def draw_legend(page: Page) -> None:
    x = 16
    for fill, more, text in [
        (FREE, "", "free"),
        (RECORDS, "", "records and workspace"),
        (FREE, dashes(True), "its disk isn't there"),
        ("url(#hatched)", "", "out of sync"),
    ]:
        page.box(x, page.y, 18, fill, more, height=18)
        page.text(x + 24, page.y + 14, text)
        x += 60 + 7 * len(text)
    page.text(x, page.y + 14, "name E.P: element E, position P of an array")
    page.y += 30


def drawn(group: Group) -> str:
    page = Page()
    page.text(16, page.y + 10, f"group {group.guid}, sequence {group.sequence}", ' font-weight="bold"')
    page.y += 32
    draw_arrays(page, group)
    page.y += 6
    draw_disks(page, group)
    draw_legend(page)
    return page.svg()


def told(program: str, images: list[str], words: list[str]) -> str:
    """What a command prints. `examine` shows the other slots where one fails."""
    try:
        ended = subprocess.run([program, *images, "--", *words], capture_output=True, text=True, check=False)
    except OSError as why:
        stop(f"{program}: {why.strerror}")
    if ended.returncode and words != ["examine"]:
        stop(f"{words[-1]} ended with {ended.returncode}: {ended.stdout}{ended.stderr}")
    return ended.stdout


def program_at_hand() -> str:
    """The program of this checkout, or the one that was installed with this script, or that of the folders of commands."""
    above = Path(__file__).resolve().parent.parent
    found = [path for path in (above / "ddf", above.parent / "bin/ddf") if path.is_file()]
    return str(found[0]) if found else "ddf"


def main() -> None:
    words = argparse.ArgumentParser(description="Draws the disks of a group as an SVG.", allow_abbrev=False)
    words.add_argument("images", nargs="+", metavar="IMAGE")
    words.add_argument("--group", metavar="GUID", help="which group it is, where the disks show several")
    words.add_argument("--program", metavar="PATH", default=program_at_hand())
    words.add_argument("--show", metavar="FILE", type=Path, help="what show printed, where it isn't called")
    words.add_argument("--examine", metavar="FILE", type=Path, help="what examine printed, where it isn't called")
    given = words.parse_args()
    group = [f"@{given.group}"] if given.group else []
    shown = given.show.read_text(encoding="utf-8") if given.show else told(given.program, given.images, [*group, "show"])
    examined = given.examine.read_text(encoding="utf-8") if given.examine else told(given.program, given.images, ["examine"])
    sys.stdout.write(drawn(group_of(shown, slots_of(examined, given.images))))


main()
