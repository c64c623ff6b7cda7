"""What the tools in Python share: how the program is called, and what its lines say."""
import os
import re
import shutil
import subprocess
import sys
from pathlib import Path
from typing import Any, NoReturn

SECTOR = 512
Record = dict[str, Any]


def stop(tool: str, why: str, status: int = 2) -> NoReturn:
    """Ends a tool with a line for people."""
    print(f"{tool}: {why}", file=sys.stderr)
    sys.exit(status)


def find_program(named: str | None = None) -> str:
    """The program: the one that is named, or that DDF names, else the one that was installed with these tools, else `ddf` of the folders of commands."""
    installed = Path(__file__).resolve().parent.parent.parent / "bin" / "ddf"
    found = named or os.environ.get("DDF") or (str(installed) if installed.exists() else shutil.which("ddf"))
    if found is None:
        raise FileNotFoundError("there is no program ddf here: name it by DDF=PATH")
    return os.path.abspath(found) if os.sep in found else found


def call(program: str, images: list[str], words: list[str], **how: Any) -> tuple[int, list[str], list[str]]:
    """Calls the program: its status, its lines, and what it says to people without `ddf: `."""
    how = {"stdin": subprocess.DEVNULL, **how}
    ended = subprocess.run([program, *images, "--", *words], capture_output=True, check=False, **how)
    said = [line.removeprefix("ddf: ") for line in ended.stderr.decode(errors="replace").splitlines()]
    return ended.returncode, ended.stdout.decode(errors="replace").splitlines(), said


def size_text(sectors: int) -> str:
    """So many sectors, as people say it: `16 MiB`."""
    size = float(sectors * SECTOR)
    for unit in ("bytes", "KiB", "MiB", "GiB"):
        if size < 1024:
            return f"{size:.4g} {unit}"
        size /= 1024
    return f"{size:.4g} TiB"


def name_text(word: str) -> str:
    """The name of an array for people: `hex:` and 32 digits stand for bytes that aren't printable ASCII alone."""
    if not re.fullmatch(r"hex:[0-9a-f]{32}", word):
        return word
    return bytes.fromhex(word[4:]).rstrip(b"\0 ").decode("utf-8", "backslashreplace")


def member_of(words: list[str]) -> Record:
    """A line `member R ..` of `show` or `assemble`."""
    rest = words[2:]
    member: Record = {"reference": words[1], "state": "present", "slot": None, "sectors": None, "bytes": None, "spare": None, "behind": False}
    if rest in (["absent"], ["missing"]):
        return {**member, "state": rest[0]}
    member["slot"], member["sectors"] = int(rest[1]), int(rest[3])
    member["bytes"] = member["sectors"] * SECTOR
    if "spare" in rest:
        member["spare"] = rest[rest.index("spare") + 1]
    member["behind"] = rest[-1] == "behind"
    return member


def array_of(words: list[str]) -> Record:
    """A line `array NAME ..` of `show` or `assemble`."""
    array: Record = {"name": words[1], "text": name_text(words[1]), "blocks": None, "bytes": None, "marked": False, "refusal": None}
    if words[2] == "unusable":
        return {**array, "state": "unusable", "refusal": int(words[3])}
    blocks = int(words[3])
    return {**array, "blocks": blocks, "bytes": blocks * SECTOR, "state": words[4], "marked": words[-1] == "marked"}


def group_of(lines: list[str]) -> Record:
    """The lines of a group, as `show` and `assemble` print them."""
    first = lines[0].split()
    words = [line.split() for line in lines[1:]]
    return {
        "guid": first[1],
        "sequence": int(first[3]),
        "members": [member_of(line) for line in words if line[0] == "member"],
        "arrays": [array_of(line) for line in words if line[0] == "array"],
    }


def header_of(text: str) -> Record:
    """What stands behind `primary header` or `secondary header`."""
    found = re.fullmatch(r"(closed|open) sequence (\d+)", text)
    if found:
        return {"state": found[1], "sequence": int(found[2]), "why": None}
    return {"state": "damaged", "sequence": None, "why": text}


def record_of(words: list[str]) -> Record:
    """A line `record N ..` of `examine`."""
    record: Record = {"slot": int(words[1]), "kind": words[2]}
    if words[2] in ("element", "copy"):
        places = [place.split("+") for place in words[15:]]
        record.update(array=words[3], element=int(words[4]), elements=int(words[6]), level=words[8], qualifier=words[9])
        record.update(strip=int(words[11]), blocks=int(words[13]), members=[{"reference": it, "start": int(start)} for it, start in places])
    elif words[2] == "spare":
        record.update(type=words[3], arrays=words[4:])
    elif words[2] == "notes":
        record.update(sequence=int(words[4]))
    elif words[2] == "vendor":
        record.update(guid=words[3])
    return record


def slot_line(slot: Record, line: str) -> None:
    """Takes a line that `examine` prints behind the first one of a slot."""
    words = line.split()
    if words[0] == "anchor":
        for name, value in zip(words[::2], words[1::2]):
            slot["places"][name] = int(value)
    elif words[0] in ("primary", "secondary"):
        rest = line.split(" ", 2)[2]
        if words[1] == "header":
            slot[words[0]] = {**header_of(rest), "whole": False, "copy": None}
        else:
            slot[words[0]].update(whole=rest == "whole", copy=None if rest == "whole" else rest)
    elif words[0] in ("closed", "newest"):
        slot[words[0]] = words[1]
    elif words[0] == "disk":
        slot["disks"].append({"reference": words[1], "guid": words[2], "type": words[4], "state": words[6], "sectors": int(words[8])})
    elif words[0] == "array":
        entry = {"name": words[1], "text": name_text(words[1]), "guid": words[2], "number": int(words[4]), "state": words[6], "init": words[8]}
        slot["arrays"].append(entry)
    elif words[0] == "record":
        slot["records"].append(record_of(words))
    elif words[:2] == ["bad", "blocks"]:
        slot["bad_blocks"] = int(words[2])
    else:
        raise ValueError(f"a line of examine isn't known: {line}")


def slots_of(lines: list[str]) -> list[Record]:
    """The slots that `examine` prints."""
    slots: list[Record] = []
    for line in lines:
        words = line.split()
        if words[0] != "slot":
            slot_line(slots[-1], line)
        elif words[2] == "sectors":
            slots.append({"slot": int(words[1]), "state": "records", "why": None, "sectors": int(words[3]), "group": words[5], "revision": words[7]})
            slots[-1].update(bytes=slots[-1]["sectors"] * SECTOR, places={}, disks=[], arrays=[], records=[], bad_blocks=None)
        else:
            slots.append({"slot": int(words[1]), "state": words[2], "why": " ".join(words[3:]) or None})
    return slots


def elements_of(slots: list[Record], group: Record, name: str) -> list[Record]:
    """The elements of an array of a group, in order, as the slots at the group's sequence number record them, each with that slot as `on`."""
    place = [array["name"] for array in group["arrays"]].index(name)
    leaders = [it for it in slots if it["state"] == "records" and it["group"] == group["guid"] and is_at(it, group["sequence"])]
    if not leaders:
        return []
    guid = leaders[0]["arrays"][place]["guid"]
    found = {}
    for slot in leaders:
        for record in slot["records"]:
            if record["kind"] in ("element", "copy") and record["array"] == guid:
                found.setdefault(record["element"], {**record, "on": slot})
    return [found[number] for number in sorted(found)]


def newest_of(slot: Record) -> str | None:
    """Which copy of a slot with records counts."""
    return {"neither": None, "secondary": "secondary"}.get(slot["newest"], "primary")


def is_at(slot: Record, sequence: int) -> bool:
    """Whether the newest copy of a slot has this sequence number."""
    newest = newest_of(slot)
    return newest is not None and slot[newest]["sequence"] == sequence
