#!/usr/bin/env python3
"""Writes mirrors by hand on disks whose bad block logs have entries, and lets `ddf` read them and write to them.

    scripts/logs.py [ENTRIES..]

Of logs of one entry, of 1,025 and of 65,535, which is as many as a log can count, or of so many ENTRIES each: `read` gives each block what was put at its place, or at the
spare place of its log, by each disk alone; behind a `write` each sector of each disk, the bad ones too, has what it had or the block that belongs there, and both copies'
logs have the bytes that they had. A log that breaks a rule by one sector is refused (31), standard error says which rule and by which entry, and without its disk all is read.
So it is where a disk's two copies carry different logs, until its group is assembled, and where such a disk is to join a group. Of small logs by chance, near each bound, those
are served that docs/FORMAT.md says fit, and no others.

The disks, their logs and the places of blocks are counted here (handmade.py), by docs/FORMAT.md, and not by `ddf`. DDF names a built program. Where an image differs it
tells the first sector that does.
"""
import os
import random
import subprocess
import sys
import tempfile
from dataclasses import replace
from pathlib import Path
from struct import pack

from handmade import GROUP, LOG, SECTOR, UNSPARED, Disk, Entry, Group, log_of

TOP = Path(__file__).resolve().parent.parent
PROGRAM = os.environ.get("DDF", str(TOP / "ddf"))
TRIED = (1, 1025, 65535)
CHANCES = 400
# More than a program reads at once.
LONG = 3000


def stop(why):
    sys.exit(f"logs: {why}")


def ddf(*words, given=b""):
    """The status of a call, what it prints, and what it says."""
    ended = subprocess.run([PROGRAM, *words], input=given, capture_output=True, check=False)
    return ended.returncode, ended.stdout, ended.stderr.decode()


def wants(words, printed, given=b""):
    """A call that ends well and prints this."""
    status, found, said = ddf(*words, given=given)
    if (status, found) != (0, printed):
        at = next((at for at in range(min(len(found), len(printed))) if found[at] != printed[at]), min(len(found), len(printed)))
        stop(f"{' '.join(words)} ended with {status} and printed {len(found)} bytes, {found[:80]!r}, other ones from {at} on; it said {said}")
    return said


def filler(disk, lba):
    """What a sector holds in which nothing was put."""
    return pack(">IIQ", 0xF111ED00 + disk, 0, lba) * 32


def block_of(writing, block):
    """What a block has by the writing of that number."""
    return pack(">IIQ", 0xB10C0000, writing, block) * 32


# ---- disks


def stretches(chance, entries, start, blocks, room):
    """Entries in no order, without a bad sector or a spare one in common, most of them under the array's blocks; how many sectors arrays get, and how many spare ones there are.
    One entry is long, where there are few of them, and one ends with the last sector of arrays."""
    most, gap = (40 if entries < 5000 else 1), max(2, blocks // entries)
    found, at = [], start - 3
    for place in range(entries):
        many = LONG if place == 1 and most > 1 else chance.randint(1, most)
        found.append((at, many))
        at += many + (0 if chance.random() < 0.3 else chance.randint(1, max(1, 2 * gap - 2 * many)))
    first, many = found[-1]
    size = max(first + many, start + blocks)
    found[-1] = (size - many, many)
    made, spare = [], 0
    for first, many in chance.sample(found, entries):
        spare += chance.choice((0, 0, 0, 1))
        made.append(Entry(first, spare, many))
        spare += many
    chance.shuffle(made)
    return made, size, spare + room


def mirror(entries, room=0):
    """Two disks with logs of so many entries each, and a mirror on them that begins at other places. So many spare sectors are left over."""
    chance = random.Random(entries)
    blocks = 65536 if entries < 5000 else 150000
    disks = []
    for number, start in enumerate((64, 4321)):
        log, size, spares = stretches(chance, entries, start, blocks, room)
        disks.append(Disk(number, size, start, spares, log))
    return Group(disks, blocks)


def placed(group, disk, writings):
    """The sectors of a disk before its records: each block of the array by its last writing, all else as it was filled. `writings` are pairs of the first block of each and the
    one behind its last."""
    held = bytearray(b"".join(filler(disk.number, lba) for lba in range(disk.secondary)))
    lies = disk.exchanged()
    for writing, (first, behind) in enumerate(writings):
        for block in range(first, behind):
            lba = lies.get(disk.start + block, disk.start + block)
            held[SECTOR * lba : SECTOR * lba + SECTOR] = block_of(writing, block)
    return bytes(held)


def compare(group, paths, writings):
    """Compares each sector before the records of each disk, and its logs, with what they are to have."""
    for disk, path in zip(group.disks, paths):
        held = Path(path).read_bytes()
        wanted = placed(group, disk, writings)
        if not held.startswith(wanted):
            at = next(at for at in range(0, len(wanted), SECTOR) if held[at : at + SECTOR] != wanted[at : at + SECTOR])
            stop(f"sector {at // SECTOR} of {path} begins with {held[at : at + 16].hex()} and not with {wanted[at : at + 16].hex()}")
        for lba in (disk.primary, disk.secondary):
            if held[SECTOR * (lba + LOG) :][: SECTOR * disk.log_sectors] != log_of(disk):
                stop(f"the log behind sector {lba} of {path} isn't what it was")


# ---- what is tried


def data(writings, first, behind):
    """What blocks have by their last writing."""
    held = {}
    for writing, (start, end) in enumerate(writings):
        held.update((block, writing) for block in range(max(start, first), min(end, behind)))
    return b"".join(block_of(held[block], block) for block in range(first, behind))


def reads(group, paths, writings):
    """What is read of the array, whole and without each disk, is what was put there."""
    ends = [(0, group.blocks)]
    ends += [(disk.entries[0].start - disk.start, disk.entries[0].start - disk.start + disk.entries[0].count) for disk in group.disks]
    for given in (paths, paths[:1], paths[1:]):
        for first, behind in ends:
            first, behind = max(0, first - 1), min(group.blocks, behind + 1)
            if first < behind:
                wants([*given, "--", "read", "pair", str(first), str(behind - first)], data(writings, first, behind))


def told(group, paths):
    """Standard error tells of each disk how many ranges it has, and `examine` how many entries."""
    said = ddf(*paths, "--", "show")[2]
    for slot, (disk, path) in enumerate(zip(group.disks, paths)):
        many = len(disk.entries)
        ranges = "1 range of bad sectors is read and written at a spare place" if many == 1 else f"{many} ranges of bad sectors are read and written at spare places"
        if f"ddf: slot {slot} ({path}): {ranges}, as its log says\n" not in said:
            stop(f"of {many} entries show says {said}")
    counts = [line for line in ddf(*paths, "--", "examine")[1].decode().splitlines() if line.startswith("bad blocks")]
    if counts != [f"bad blocks {len(disk.entries)}" for disk in group.disks]:
        stop(f"examine tells {counts}")


def serve(folder, entries):
    """A mirror under logs of so many entries is read, written and compared."""
    group = mirror(entries)
    writings = [(0, group.blocks)]
    paths = group.write(folder, lambda disk: placed(group, disk, writings))
    told(group, paths)
    wants([*paths, "--", "scrub", "pair"], b"clean\n")
    reads(group, paths, writings)
    compare(group, paths, writings)
    entry = group.disks[0].entries[0]
    within = max(0, entry.start - group.disks[0].start)
    for first, behind in ((0, group.blocks), (within, within + entry.count), (group.blocks // 3, group.blocks // 3 + 5000)):
        behind = min(behind, group.blocks)
        writings.append((first, behind))
        printed = f"ok sequence {group.sequence + 2 * len(writings) - 2}\n".encode()
        wants([*paths, "--", "write", "pair", str(first), str(behind - first)], printed, data(writings, first, behind))
        compare(group, paths, writings)
    reads(group, paths, writings)
    wants([*paths, "--", "scrub", "pair"], b"clean\n")
    for path in paths:
        os.remove(path)


def broken(disk):
    """Logs that break a rule by one sector, and what is wrong with each."""
    by_start, by_spare = sorted(disk.entries, key=lambda entry: entry.start), sorted(disk.entries, key=lambda entry: entry.spare)
    beside = next(later for entry, later in zip(by_spare, by_spare[1:]) if entry.spare + entry.count == later.spare)
    some, second, last = by_start[2], by_start[1], by_start[-1]

    def other(entry, **fields):
        return replace(disk, entries=[replace(each, **fields) if each is entry else each for each in disk.entries])

    yield "an entry without a spare one", other(some, spare=UNSPARED)
    yield "an entry of no sectors", other(some, count=0)
    yield "a bad sector in common", other(second, start=by_start[0].start + by_start[0].count - 1)
    yield "a spare sector in common", other(beside, spare=beside.spare - 1)
    yield "a spare sector past the spare area", other(some, spare=disk.spares - some.count + 1)
    yield "a bad sector past those of arrays", other(last, start=last.start + 1)
    yield "a spare area that begins among them", replace(disk, first_spare=disk.size - 1)
    yield "a spare area that ends in the workspace", replace(disk, spares=disk.spares + 1)


def meets(first, many, other, length):
    return first < other + length and other < first + many


def stretches_of(disk):
    """The sectors that are kept, the bad ones of each entry and its spare ones: the first and how many."""
    kept = [(disk.workspace, 18)] + [(header, LOG + disk.log_sectors) for header in (disk.primary, disk.secondary)]
    bad = [(entry.start, entry.count) for entry in disk.entries]
    spare = [(disk.first_spare + entry.spare, entry.count) for entry in disk.entries]
    return kept, bad, spare


def wrong_with(disk, entry):
    """What is wrong with an entry by itself."""
    kept = stretches_of(disk)[0]
    if entry.spare == UNSPARED or entry.count == 0:
        return "has no spare sectors"
    if entry.start + entry.count > disk.size:
        return "has sectors behind those of arrays"
    if any(meets(entry.start, entry.count, *other) for other in kept):
        return "has sectors among the disk's records"
    return "has spare sectors behind the spare area" if entry.spare + entry.count > disk.spares else None


def unfit(disk):
    """What is to be said of the log of a disk that can't be honoured: of its spare area, or else of the first entry that breaks a rule by itself, or else of the first that has
    a sector of one before it."""
    kept, bad, spare = stretches_of(disk)
    area = (disk.first_spare, disk.spares)
    if disk.first_spare < disk.size or sum(area) > disk.anchor or any(meets(*area, *other) for other in kept):
        return "the spare area of its bad block log lies among the sectors of arrays or of records, or passes the anchor"
    wrong = [(place, wrong_with(disk, entry)) for place, entry in enumerate(disk.entries)]
    shared = [(place, "has a sector in common with one before it") for runs in (bad, spare) for place in range(len(runs)) if any(meets(*runs[place], *run) for run in runs[:place])]
    place, what = next((pair for pair in wrong if pair[1]), None) or min(shared)
    return f"entry {place} of its bad block log, counted from 0, {what}"


def says(said, slot, path, what):
    """Standard error has a line of the disk in a slot."""
    if f"ddf: slot {slot} ({path}): {what}\n" not in said:
        stop(f"of slot {slot} it is to be said: {what}, and what is said is {said}")


# The way out of a log that doesn't fit, where it does by now, and of copies that carry different ones.
LEAVE_OUT = "read without this image, where the array can do without its disk, loses nothing"
AGAIN = "its bad block log can be served by now; give the command again"
DIFFER = "its two copies carry different bad block logs; assemble its own group first: that makes them alike"


def refuse(folder):
    """Logs that don't fit are refused, which is said of the entry, and without their disk all is read. How many."""
    group = mirror(1025, 10000)
    first, second = group.disks
    writings = [(0, group.blocks)]
    logs = list(broken(first))
    for what, disk in logs:
        disk.workspace, disk.secondary, disk.primary, disk.anchor = first.workspace, first.secondary, first.primary, first.anchor
        paths = replace(group, disks=[disk, second]).write(folder, lambda each: placed(group, group.disks[each.number], writings))
        status, printed, said = ddf(*paths, "--", "read", "pair", "0", str(group.blocks))
        if (status, printed) != (1, b"refused 31 bad blocks on slot 0\n"):
            stop(f"of a log with {what} read ended with {status} and printed {printed[:80]!r}; it said {said}")
        says(said, 0, paths[0], f"{unfit(disk)}; {LEAVE_OUT}")
        wants([paths[1], "--", "read", "pair", "0", str(group.blocks)], data(writings, 0, group.blocks))
    return len(logs)


def lag(group, disk, path):
    """Writes the secondary copy of a disk of a group as an update that was stopped would leave it: of the sequence number before, and here with an entry less."""
    with open(path, "r+b") as image:
        image.seek(SECTOR * disk.secondary)
        image.write(replace(group, sequence=group.sequence - 1).copy(replace(disk, entries=disk.entries[:-1]), 2))


def differ(folder):
    """A disk whose two copies carry different logs is refused until its group is assembled; in a batch to its end, and then the command is to be given again."""
    group = replace(mirror(4), sequence=2)
    writings = [(0, group.blocks)]
    paths = group.write(folder, lambda disk: placed(group, disk, writings))
    lag(group, group.disks[0], paths[0])
    status, printed, said = ddf(*paths, "--", "read", "pair", "0", "1")
    if (status, printed) != (1, b"refused 31 bad blocks on slot 0\n"):
        stop(f"of copies that differ read ended with {status} and printed {printed[:80]!r}; it said {said}")
    says(said, 0, paths[0], DIFFER)
    for words, given, ending in ((["assemble"], b"", 0), (["batch"], b"assemble\nscrub pair\n", 1)):
        group.write(folder, lambda disk: placed(group, disk, writings))
        lag(group, group.disks[0], paths[0])
        status, printed, said = ddf(*paths, "--", *words, given=given)
        if status != ending or ending == 1 and not printed.endswith(b"\nrefused 31 bad blocks on slot 0\n"):
            stop(f"of copies that differ {words[0]} ended with {status} and printed {printed[-80:]!r}; it said {said}")
        if ending == 1:
            says(said, 0, paths[0], AGAIN)
        compare(group, paths, writings)
        reads(group, paths, writings)


def join(folder):
    """A disk whose log can't be honoured joins no group, which is said of its entry, nor does one whose copies carry different logs."""
    disk = Disk(0, 200, 10, 8, [Entry(20, 0, 2), Entry(30, 1, 1)])
    group = Group([disk], 100, 2)
    (path,) = group.write(folder)
    home = os.path.join(folder, "home.img")
    with open(home, "wb") as image:
        image.truncate(SECTOR * 70000)
    wants([home, "--", "label"], b"ok sequence 1\n")
    name = ddf(home, "--", "show")[1].split()[1].decode()
    words = [home, path, "--", f"@{name}", "import", GROUP.hex()]
    for what in (f"{unfit(disk)}; {LEAVE_OUT}", DIFFER):
        status, printed, said = ddf(*words)
        if (status, printed) != (1, b"refused 31 bad blocks on slot 1\n"):
            stop(f"import ended with {status} and printed {printed[:80]!r}, where {what}; it said {said}")
        says(said, 1, path, what)
        lag(group, disk, path)


# ---- logs by chance


def fits(disk):
    """Whether the log of a disk can be honoured."""
    spares = (disk.first_spare, disk.spares)
    kept, bad, stand_in = stretches_of(disk)
    return not disk.entries or (
        all(entry.spare != UNSPARED and entry.count > 0 and entry.spare + entry.count <= disk.spares for entry in disk.entries)
        and all(first + many <= disk.size for first, many in bad)
        and disk.first_spare >= disk.size
        and sum(spares) <= disk.anchor
        and not any(meets(*run, *other) for run in [spares, *bad] for other in kept)
        and not any(meets(*run, *other) for runs in (bad, stand_in) for place, run in enumerate(runs) for other in runs[:place])
    )


def by_chance(chance):
    """A disk with a small log, most of whose numbers lie beside a bound. Its own entry may give arrays more than lies before its workspace, and there is room before its anchor."""
    disk = Disk(0, 200, 10, 40)
    disk.anchor += 60
    bounds = [disk.workspace, disk.workspace + 18, disk.secondary, disk.primary, disk.anchor - 60, disk.anchor]
    disk.size = chance.choice([200] * 6 + bounds[:3])
    disk.spares = chance.choice([8, 8, 8, 1, 40])
    disk.first_spare = chance.choice([disk.size] * 4 + [disk.workspace + 18] * 4 + bounds + [bound - disk.spares for bound in bounds]) + chance.choice([0, 0, 0, 0, -1, 1])
    near = [10, 14, 20, 108, disk.size - 2, *bounds[:3]]
    for _ in range(chance.choice([0, 1, 1, 2, 2, 3])):
        start, spare = chance.choice(near[:4] if chance.random() < 0.7 else near) + chance.randint(-2, 2), chance.choice([0, 2, 4, 5, disk.spares - 1, disk.spares - 2])
        disk.entries.append(Entry(start, UNSPARED if chance.random() < 0.03 else max(0, spare), chance.choice([1, 1, 2, 2, 3, 0 if chance.random() < 0.2 else 1])))
    return disk


def try_chances(folder, count):
    """Reads an array under each log: it is refused where the log doesn't fit, and else gives what lies at its places. How many fit."""
    chance, fitting = random.Random(count), 0
    for number in range(count):
        disk = by_chance(chance)
        group, lies = Group([disk], 100), disk.exchanged() if fits(disk) else {}
        path = group.write(folder)[0]
        with open(path, "r+b") as image:
            for block in range(group.blocks):
                image.seek(SECTOR * lies.get(disk.start + block, disk.start + block))
                image.write(block_of(0, block))
        wanted = (0, data([(0, group.blocks)], 0, group.blocks)) if fits(disk) else (1, b"refused 31 bad blocks on slot 0\n")
        found = ddf(path, "--", "read", "pair", "0", str(group.blocks))
        if found[:2] != wanted:
            stop(f"the log {number} of {count}, {disk}, {'fits' if fits(disk) else 'does not fit'}; read ended with {found[0]} and printed {found[1][:80]!r}")
        if not fits(disk):
            says(found[2], 0, path, f"{unfit(disk)}; {LEAVE_OUT}")
        fitting += fits(disk) and bool(disk.entries)
    return fitting


def main():
    if "--help" in sys.argv[1:]:
        print(__doc__.strip())
        return
    counts = [int(word) for word in sys.argv[1:]] or TRIED
    with tempfile.TemporaryDirectory() as folder:
        for entries in counts:
            serve(folder, entries)
            print(f"logs: {entries} entries are served at their spare places, and no other sector is touched", flush=True)
        print(f"logs: {refuse(folder)} logs that break a rule are refused, and which entry does is said", flush=True)
        differ(folder)
        join(folder)
        print("logs: copies that carry different logs are refused until they are assembled, and a disk with a log that can't be honoured joins no group", flush=True)
        print(f"logs: of {CHANCES} small logs by chance those are served that fit, {try_chances(folder, CHANCES)} with entries")


main()
