#!/usr/bin/env python3
"""Compares the tables of docs/FORMAT.md with the constants and definitions that tell where the fields of a record stand.

    scripts/format.py [--check]

An offset stands once, as a constant of a crate's src/layout.rt whose comment begins with 'Offset of' and the field as the table
has it. For each row of a table that constant has to have the row's offset, and the definition of the record in specs/ has to give
it the row's length. Rows of unread bytes may have no constant, and no constant may be without a row. Nor may a definition or a
proof, or the code of these crates, have a number where a constant belongs. Without --check each row is printed with its constant.
"""
import re
import sys
from pathlib import Path

TOP = Path(__file__).resolve().parent.parent
FORMAT = TOP / "docs/FORMAT.md"
# heading, first column, crate, and the constants that the table may have
TABLES = [
    ("Header", "Offset", "ddf_header", r"\w+"),
    ("Physical disk records", "Offset", "ddf_tables", r"POPULATED_AT|MAXIMUM_AT|ROWS_AT"),
    ("Physical disk records", "Offset in the entry", "ddf_tables", r"DISK_(?!DATA_)\w+"),
    ("Virtual disk records", "Offset in the entry", "ddf_tables", r"ARRAY_\w+"),
    ("Controller data", "Offset", "ddf_tables", r"CONTROLLER_\w+"),
    ("Physical disk data", "Offset", "ddf_tables", r"DISK_DATA_\w+"),
    ("Bad block log", "Offset", "ddf_tables", r"LOG_\w+"),
    ("Bad block log", "Offset in the entry", "ddf_tables", r"BAD_\w+"),
    ("Element record", "Offset", "ddf_config_records", r"(?!VENDOR_|NOTES?_|SPARE_)\w+"),
    ("Vendor's record", "Offset", "ddf_config_records", r"VENDOR_\w+"),
    ("Notes record", "Offset", "ddf_config_records", r"NOTES_\w+"),
    ("Notes record", "Offset in the note", "ddf_config_records", r"NOTE_\w+"),
    ("Spare record", "Offset", "ddf_config_records", r"SPARE_(?!SECONDARY_)\w+"),
    ("Spare record", "Offset in the entry", "ddf_config_records", r"SPARE_SECONDARY_AT"),
]
# where an offset stands in a definition or a proof, and in code
TERM = r"(?:\([^()]*\)|[^\s()]+)"
IN_TERMS = re.compile(
    rf"\b(?:(?:plain|u8|u16|u32|u64|u32s|u64s)_at|number_at \w+ {TERM}|(?:bytes_at|placed|with_bytes_at|numbers32_at|numbers64_at|slice_index) {TERM}|record {{ at =) [1-9]\d*\b"
)
IN_CODE = re.compile(r"\b(?:(?:be16|be32|be64|put16|put32|put64|guid_at|place)\([^(),]*,|at:) [1-9]\d*\b")
CODE = {"ddf_header", "ddf_tables", "ddf_config_records", "ddf_copy", "ddf_update", "ddf_rewrite", "ddf_seal", "ddf_stage"}
# a crate that has no record: how numbers stand in bytes
APART = {"ddf_bytes"}
WIDTHS = {"u8": "1", "u16": "2", "u32": "4", "u64": "8"}
# lengths that a definition counts: those of entries that lie one after another, and what M and S are
LENGTHS = {
    "ROWS_AT": "ROW_BYTES each",
    "LOG_ENTRIES_AT": "LOG_ENTRY_BYTES each",
    "SPARE_ENTRIES_AT": "SPARE_ENTRY_BYTES each",
    "NOTES_AT": "S * (NOTE_BITS_AT + M / 8)",
    "NOTE_BITS_AT": "M / 8",
}

wrong: list[str] = []


def tables() -> dict[tuple[str, str], list[list[str]]]:
    """The rows of each table, by its heading and its first column."""
    found: dict[tuple[str, str], list[list[str]]] = {}
    heading, rows = "", None
    for line in FORMAT.read_text(encoding="utf-8").split("\n"):
        if line.startswith("#"):
            heading = line.lstrip("# ")
        if not line.startswith("|"):
            rows = None
            continue
        cells = [cell.strip() for cell in line.strip("|").split("|")]
        if rows is None:
            rows = found.setdefault((heading, cells[0]), [])
        elif not re.fullmatch(r"-+", cells[0]):
            rows.append(cells)
    return found


def constants(path: Path) -> dict[str, tuple[int, str]]:
    """The constants of a file that are numbers of bytes or places, with their comments."""
    text = path.read_text(encoding="utf-8")
    made = re.findall(r"/// ([^\n]*)\npub const (\w+): usize = (\d+);", text)
    return {name: (int(number), comment) for comment, name, number in made}


def widths(crate: str) -> dict[str, set[str]]:
    """The lengths that the definitions of a crate give to fields, by the constants of their offsets."""
    found: dict[str, set[str]] = {}
    for path in sorted((TOP / "crates" / crate / "specs").glob("*.antt")):
        text = path.read_text(encoding="utf-8")
        for kind, place, size in re.findall(r"\b(plain|u8|u16|u32|u64|u32s|u64s)_at (\w+|\([^()]*\)) (\d+|\([^()]*\)|\w+)", text):
            names = re.findall(r"[A-Z]\w*_AT", place)
            if not names:
                continue
            name = names[-1] + (" + 4 * M" if "4 * most" in place else "")
            if kind in WIDTHS:
                length = WIDTHS[kind]
            elif kind == "plain":
                length = size
            else:
                each = 4 if kind == "u32s" else 8
                length = str(each * int(size)) if size.isdigit() else f"{each} each"
            found.setdefault(name, set()).add(length)
    return found


def field_of(cell: str) -> str:
    """What a row names: without its article, its symbol and what is said of it."""
    named = re.sub(r"^[A-Z]: ", "", cell)
    return re.sub(r"^the ", "", re.split(r"[,;:(]", named)[0]).strip()


def length_of(name: str, numbers: dict[str, tuple[int, str]], made: dict[str, set[str]]) -> str:
    if name in LENGTHS:
        return re.sub(r"[A-Z]\w+_(?:AT|BYTES)", lambda known: str(numbers[known[0]][0]), LENGTHS[name])
    return " or ".join(sorted(made.get(name, {"no length"})))


def compare(heading: str, column: str, crate: str, names: str, rows: list[list[str]]) -> set[str]:
    """Compares a table, and gives the constants that it has."""
    numbers = constants(TOP / "crates" / crate / "src/layout.rt")
    made = widths(crate)
    used = set()
    for offset, length, cell in rows:
        place = re.fullmatch(r"(\d+)( \+ 4 \* M)?", offset)
        if not place or (offset, length) == ("0", "8") and cell == "the seal":
            continue
        field, told = field_of(cell), f"{heading}: {offset}, {cell!r}"
        if place[2]:
            found = [name for name in numbers if f"{name} + 4 * M" in made]
        else:
            found = [name for name, (_, comment) in numbers.items() if re.fullmatch(names, name) and re.match(rf"Offset of (the )?{re.escape(field)}\b", comment)]
        if not found:
            if not cell.endswith(", unread") and offset != "0":
                wrong.append(f"{told}: no constant of {crate} is the 'Offset of' it")
            continue
        if len(found) > 1:
            wrong.append(f"{told}: {' and '.join(found)} are both the offset of it")
            continue
        name = found[0]
        used.add(name)
        if numbers[name][0] != int(place[1]):
            wrong.append(f"{told}: {name} is {numbers[name][0]}")
        counted = length_of(name + (place[2] or ""), numbers, made)
        if counted != length and not cell.endswith(", unread"):
            wrong.append(f"{told}: the length is {length}, and in the definition {counted}")
        if not sys.argv[1:]:
            print(f"{heading:24} {offset:12} {length:18} {name:24} {field}")
    return used


def compare_sections(rows: list[list[str]]) -> None:
    """Compares the table of the header's pairs with the places of the sections."""
    first = constants(TOP / "crates/ddf_header/src/layout.rt")["SECTIONS_AT"][0]
    text = (TOP / "crates/ddf_header/src/geometry.rt").read_text(encoding="utf-8")
    places = dict(re.findall(r"/// The place of the ([^\n]*) among the sections\.\npub const \w+: usize = (\d+);", text))
    for offset, section in rows:
        if places.pop(section, None) != str((int(offset) - first) // 8):
            wrong.append(f"Header: the pair at {offset} is the section {section!r}, and not its place among the sections")
    for section in places:
        wrong.append(f"Header: the pair of the section {section!r} is in no row")


def look_for_numbers() -> None:
    """Tells each offset that is written as a number."""
    for path in sorted((TOP / "crates").glob("*/*/**/*.*t")):
        crate, folder = path.relative_to(TOP / "crates").parts[:2]
        if folder not in ("src", "specs", "proofs") or crate in APART or folder == "src" and crate not in CODE:
            continue
        for number, line in enumerate(path.read_text(encoding="utf-8").split("\n"), 1):
            known = (IN_CODE if folder == "src" else IN_TERMS).search(line)
            if known and not line.lstrip().startswith(("--", "//")):
                wrong.append(f"{path.relative_to(TOP)}:{number}: a number where a constant belongs: {known[0]}")


def main() -> None:
    if sys.argv[1:] not in ([], ["--check"]):
        sys.exit(__doc__)
    found = tables()
    used: dict[str, set[str]] = {}
    for heading, column, crate, names in TABLES:
        if (heading, column) not in found:
            wrong.append(f"{heading}: no table has the first column {column!r}")
            continue
        used.setdefault(crate, set()).update(compare(heading, column, crate, names, found.pop((heading, column))))
    for heading, column in found:
        if re.match(r"Offset( in |$)", column):
            wrong.append(f"{heading}: a table that this script doesn't know: {column!r}")
    compare_sections(found["Header", "Offset of the pair"])
    for crate, names in used.items():
        for name, (_, comment) in constants(TOP / "crates" / crate / "src/layout.rt").items():
            if comment.startswith("Offset of") and name not in names:
                wrong.append(f"{crate}: {name} is in no table")
    look_for_numbers()
    if wrong:
        sys.exit("\n".join(f"format: {line}" for line in wrong))
    print(f"format: {sum(map(len, used.values()))} offsets are those of docs/FORMAT.md")


main()
