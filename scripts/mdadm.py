#!/usr/bin/env python3
"""Makes disks with `label linux` and changes them, and asks Linux's mdadm what they are.

Behind each change of a group, from its label on, mdadm names the container, the number of the change, each array with its level, size and disks, and
the state of each disk, as was worked out by hand from the changes: of each disk behind the first two, of one of each kind behind the others. Each
record of each disk has the CRC that Linux counts, which is counted here, not by `ddf`. A disk that a plain `label` makes mdadm doesn't take. The
program's standard error says what Linux doesn't take, and no more.

Where there is no mdadm it ends with 77: MDADM names one that stands in no folder of commands, and DDF a built program. It reads the images as files,
so that nothing is assembled, and nothing of the system changes.
"""
import os
import re
import shutil
import struct
import subprocess
import sys
import tempfile
import zlib
from pathlib import Path

TOP = Path(__file__).resolve().parent.parent
os.environ["PATH"] += os.pathsep + "/sbin:/usr/sbin"
MDADM = os.environ.get("MDADM", "mdadm")
PROGRAM = Path(os.environ.get("DDF", TOP / "ddf")).resolve()
PARTLY = "Linux doesn't start it with all its disks: it takes none of 65536 sectors or less"
FORCED = "Linux doesn't start it without --force: nothing has made its parity agree with its data yet"

# Arrays of the kinds that Linux starts: the words that make each, its state, and what mdadm tells of its element on these disks.
PARITY = "0@18432K 1@18432K 2@16384K"
FIXED = "0@26624K 1@26624K 2@24576K"
ADJACENT = "0@28672K 1@28672K 2@26624K"
STARTED = [
    ("str", "raid0 3 single 2,3@16384", "Optimal, Consistent", {"d2.img": "RAID0; single; 16384K; 2 (2@0K 3@0K)"}),
    (
        "ten",
        "raid1 7 striped 0,1@8192 2,3@8192",
        "Optimal, Not Consistent",
        {"d0.img": "RAID1; Striped; 8192K; 2 (0@10240K 1@10240K)", "d2.img": "RAID1; Striped; 8192K; 2 (2@8192K 3@8192K)"},
    ),
    (
        "two",
        "raid1 7 spanned 0,1@8192 2,3@8192",
        "Optimal, Not Consistent",
        {"d0.img": "RAID1; Spanned; 8192K; 2 (0@14336K 1@14336K)", "d2.img": "RAID1; Spanned; 8192K; 2 (2@12288K 3@12288K)"},
    ),
    (
        "par",
        "raid5.rn 7 single 0,1,2@16384",
        "Optimal, Not Consistent",
        {disk: f"RAID5; single; 16384K; 3 ({PARITY})" for disk in ("d0.img", "d2.img")},
    ),
    (
        "fixed",
        "raid4.last 7 single 0,1,2@4096",
        "Optimal, Not Consistent",
        {disk: f"RAID4; single; 4096K; 3 ({FIXED})" for disk in ("d0.img", "d2.img")},
    ),
    (
        "adj",
        "raid1e.adjacent 7 single 0,1,2@8192",
        "Optimal, Not Consistent",
        {disk: f"RAID1E; single; 6144K; 3 ({ADJACENT})" for disk in ("d0.img", "d2.img")},
    ),
]

SIGNATURES = (0xAD111111, 0x22222222, 0xDDDDDDDD, 0xEEEEEEEE, 0x55555555, 0x88888888, 0x33333333, 0xABADB10C)


def stop(why):
    sys.exit(f"mdadm: {why}")


def ddf(images, *words):
    """What a command prints, and the lines of standard error that speak of Linux."""
    ended = subprocess.run([PROGRAM, *images, "--", *words], stdin=subprocess.DEVNULL, capture_output=True, text=True, check=False)
    if ended.returncode != 0:
        stop(f"{words} ended with {ended.returncode}: {ended.stdout}{ended.stderr}")
    return ended.stdout, [line.removeprefix("ddf: ") for line in ended.stderr.splitlines() if "Linux doesn't" in line]


def change(images, sequence, *words, notes=()):
    """Gives a command that makes a change, and compares its answer with the number of the change."""
    printed, said = ddf(images, *words)
    if printed != f"ok sequence {sequence}\n":
        stop(f"{words} printed {printed}")
    if said != list(notes):
        stop(f"{words} said {said}")


def examine(image):
    ended = subprocess.run([MDADM, "--examine", image], capture_output=True, text=True, check=False)
    return ended.returncode, ended.stdout + ended.stderr


def told(image):
    """What mdadm tells of an image, a line for each thing that is compared."""
    status, text = examine(image)
    if status != 0 or re.search("crc|corrupt|mismatch", text, re.IGNORECASE):
        stop(f"{image} isn't right for it: {text}")
    value = dict(re.findall(r"^ *([A-Z][A-Za-z ]*) : (.*)$", text, re.MULTILINE))
    group = value["Container GUID"].replace(":", "").lower()
    lines = [f"{value['Version']} container {group} sequence {int(value['Seq'], 16)} both headers {value['Redundant hdr']}"]
    for part in text.split(" VD GUID[")[1:]:
        field = {name.strip(): found.strip() for name, found in re.findall(r"^ *([A-Za-z ]*)\[\d+\] : (.*)$", part, re.MULTILINE)}
        what = [field["Name"], field["state"], field["init state"]]
        if "Raid Level" in field:
            what += [field["Raid Level"], field.get("Secondary Level", "single"), field["Array Size"] + "K", field["Raid Devices"]]
        lines.append("; ".join(what))
    for number, size, state in re.findall(r"^ +(\d+) +[0-9a-f]{8} +(\d+K) *(\S.*)$", text, re.MULTILINE):
        lines.append(f"disk {number} {size} {state}")
    return lines


def linux_crc(record):
    return zlib.crc32(record[:4] + b"\xff" * 4 + record[8:], 0xFFFFFFFF) ^ 0xFFFFFFFF


def look(image):
    """Looks at the CRC of each record of a disk: its anchor, and of both copies the headers and each section. How many there are."""
    held = Path(image).read_bytes()
    last = len(held) // 512 - 1

    def check(lba, sectors):
        record = held[512 * lba : 512 * (lba + sectors)]
        if struct.unpack(">I", record[4:8])[0] != linux_crc(record):
            stop(f"the record at sector {lba} of {image} isn't sealed as Linux does it")

    check(last, 1)
    anchor = held[512 * last :]
    places = struct.unpack(">QQ", anchor[96:112])
    slot = struct.unpack(">H", anchor[134:136])[0]
    count = 1
    for header in places:
        check(header, 1)
        count += 1
        for section in range(6):
            at, length = struct.unpack(">II", anchor[192 + 8 * section : 200 + 8 * section])
            step = slot if section == 3 else length
            for first in range(header + at, header + at + length, step):
                found = struct.unpack(">I", held[512 * first : 512 * first + 4])[0]
                if found in SIGNATURES:
                    check(first, step)
                    count += 1
                elif section != 3 or found != 0xFFFFFFFF:
                    stop(f"sector {first} of {image} begins with {found:08x}")
    return count


def compare(image, group, sequence, records, arrays, disks):
    """Compares what mdadm tells of an image with what it is to tell, and the records that there are with their number."""
    wanted = [f"01.02.00 container {group} sequence {sequence} both headers yes", *arrays]
    wanted += [f"disk {number} {size} {state}" for number, (size, state) in enumerate(disks)]
    found = told(image)
    if found != wanted:
        stop(f"of {image} it tells\n" + "\n".join(found) + "\nand not\n" + "\n".join(wanted))
    count = look(image)
    if count != records:
        stop(f"{image} has {count} records, and not {records}")


def make(names, megabytes=64):
    for name in names:
        with open(name, "wb") as image:
            image.truncate(megabytes << 20)
    return names


def group_of(images):
    return re.match("group ([0-9a-f]+) ", ddf(images, "assemble")[0])[1]


def follow_group():
    """A group of five disks, from its label to an array that is deleted."""
    disks = make([f"d{number}.img" for number in range(5)])
    change(disks, 1, "label", "linux")
    group = group_of(disks)

    # A disk has 131072 sectors, of which 32849 lie behind what arrays may use. Of records each disk has an anchor, and in both copies a
    # header, five sections, and the notes in the first slot of the sixth. Each element of an array is one more in both, or a copy of one.
    size = "49111K"
    states = [(size, "/Online")] * 5
    for disk in disks:
        compare(disk, group, 1, 15, [], states)

    change(disks, 2, "create", "mir", "raid1", "0", "single", "0,1@20480")
    mir = "mir; Optimal, Not Consistent; Not Initialised"
    own = "RAID1; single; 10240K; 2 (0@0K 1@0K)"
    states = [(size, "active/Online")] * 2 + [(size, "/Online")] * 3
    for disk in disks[:2]:
        compare(disk, group, 2, 17, [f"{mir}; {own}"], states)
    for disk in disks[2:]:
        compare(disk, group, 2, 17, [mir], states)

    # One array of each kind that Linux starts, each behind the one before it.
    arrays = {"mir": mir}
    held = {"d0.img": {"mir": own}, "d2.img": {}, "d4.img": {}}
    states = [(size, "active/Online")] * 4 + [(size, "/Online")]
    for sequence, (name, words, state, elements) in enumerate(STARTED, 3):
        notes = [f"array {name}: {FORCED}"] if name in ("par", "fixed") else []
        change(disks, sequence, "create", name, *words.split(), notes=notes)
        arrays[name] = f"{name}; {state}; Not Initialised"
        for disk, element in elements.items():
            held[disk][name] = element
        compare_arrays(group, sequence, arrays, held, states)

    # An array that is accepted is consistent, and nothing has initialised it.
    change(disks, 9, "accept", "mir")
    arrays["mir"] = "mir; Optimal, Consistent; Not Initialised"
    compare_arrays(group, 9, arrays, held, states)

    # A spare is a record on each disk that is one.
    change(disks, 10, "spare", "4", "global")
    states[4] = (size, "Global-Spare/Online")
    compare_arrays(group, 10, arrays, held, states, spares=["d4.img"])

    # A member fails: the arrays that have it are degraded, and it keeps its records of before.
    before = (group, 10, dict(arrays), {"d1.img": held["d0.img"]}, list(states))
    change(disks, 12, "fail", "1")
    compare_arrays(*before)
    states[1] = (size, "active/Offline, Failed, Missing")
    for name in ("mir", "ten", "two", "par", "fixed", "adj"):
        arrays[name] = arrays[name].replace("Optimal", "Degraded")
    compare_arrays(group, 12, arrays, held, states, spares=["d4.img"])

    change(disks, 13, "delete", "ten")
    for of_disk in [arrays, *held.values()]:
        of_disk.pop("ten", None)
    compare_arrays(group, 13, arrays, held, states, spares=["d4.img"])


def compare_arrays(group, sequence, arrays, held, states, spares=()):
    """Compares what mdadm tells of these disks: each lists all arrays, and what is told of an element is told of a disk of its own."""
    count = sum(1 + (name in ("ten", "two")) for name in arrays)
    for disk, elements in held.items():
        lines = [f"{line}; {elements[name]}" if name in elements else line for name, line in arrays.items()]
        compare(disk, group, sequence, 15 + 2 * count + 2 * (disk in spares), lines, states)


def follow_large():
    """Large groups: one of 17 disks, with an array over all of them, and one of two disks that `large` makes."""
    disks = make([f"w{number}.img" for number in range(17)])
    change(disks, 1, "label", "linux")
    group = group_of(disks)

    # A disk keeps 33169 sectors of its 131072 behind what arrays may use, and its table has room for 63 disks.
    size = "48951K"
    for disk in (disks[0], disks[16]):
        compare(disk, group, 1, 15, [], [(size, "/Online")] * 17)
    numbers = range(17)
    change(disks, 2, "create", "wide", "raid0", "3", "single", ",".join(str(number) for number in numbers) + "@4096")
    places = " ".join(f"{number}@0K" for number in numbers)
    wide = f"wide; Optimal, Consistent; Not Initialised; RAID0; single; 34816K; 17 ({places})"
    for disk in (disks[0], disks[16]):
        compare(disk, group, 2, 17, [wide], [(size, "active/Online")] * 17)

    two = make([f"v{number}.img" for number in range(2)])
    change(two, 1, "label", "linux", "large")
    group = group_of(two)
    change(two, 2, "create", "mir", "raid1", "0", "single", "0,1@128")
    mir = "mir; Optimal, Not Consistent; Not Initialised; RAID1; single; 64K; 2 (0@0K 1@0K)"
    for disk in two:
        compare(disk, group, 2, 17, [mir], [(size, "active/Online")] * 2)


def follow_spare():
    """A revertible spare, from its record until it gives its place back: mdadm takes it for a global one, and for none while it stands in."""
    disks = make([f"s{number}.img" for number in range(4)])
    ddf(disks, "label", "linux")
    group = group_of(disks)
    ddf(disks, "create", "mir", "raid1", "0", "single", "0,1@128")
    ddf(disks, "accept", "mir")
    size, free, spare, used = "49111K", "/Online", "Global-Sparespare/Online", "active/Online"
    optimal, degraded = (f"mir; {state}, Consistent; Not Initialised" for state in ("Optimal", "Degraded"))
    own = "RAID1; single; 64K; 2 (0@0K {}@0K)"

    # Its record is one more in both copies, as the global one's is.
    change(disks, 4, "spare", "2", "revertible")
    states = [(size, state) for state in (used, used, spare, free)]
    compare("s0.img", group, 4, 17, [f"{optimal}; {own.format(1)}"], states)
    compare("s2.img", group, 4, 19, [optimal], states)
    change(disks, 5, "spare", "2", "global")
    states[2] = (size, "Global-Spare/Online")
    compare("s2.img", group, 5, 19, [optimal], states)
    change(disks, 6, "spare", "2", "revertible")
    change(disks, 8, "fail", "1")
    states[1:3] = [(size, "active/Offline, Failed, Missing"), (size, spare)]
    compare("s2.img", group, 8, 19, [degraded], states)

    # It stands in, and is a spare again.
    left = ["s0.img", "s2.img", "s3.img"]
    change(left, 10, "rebuild", "mir")
    states[1:3] = [(size, "/Offline, Failed, Missing"), (size, used)]
    compare("s2.img", group, 10, 17, [f"{optimal}; {own.format(2)}"], states)
    change(left, 11, "copyback", "mir", "s3.img")
    states[2:] = [(size, spare), (size, used)]
    compare("s2.img", group, 11, 19, [optimal], states)
    compare("s3.img", group, 11, 17, [f"{optimal}; {own.format(3)}"], states)


def name_untaken():
    """What Linux doesn't take is made, and named. What mdadm doesn't take for its size alone isn't."""
    small, large = make(["small.img"], 32), make([f"l{number}.img" for number in range(6)])
    printed, said = ddf(small, "label", "linux")
    if said != ["slot 0 (small.img): Linux doesn't take it: it has no more than 65536 sectors"]:
        stop(f"label of a small disk printed {printed} and said {said}")
    change(large, 1, "label", "linux")
    untaken = [
        ("raid5.rn 2 single 0,1,2@128", ": it has no strips of less than 4 KiB (code 3)"),
        ("raid4.first 7 single 0,1,2@128", ": it has no RAID 4 with its parity first"),
        ("raid1 7 single 0,1,2,3@128", ": it has no RAID 1 of four disks and more"),
        ("jbod 0 single 0@128", ": it has no JBOD"),
        ("concat 0 single 0,1@128", ": it has no concatenation"),
        ("raid1e.adjacent 7 striped 0,1,2@256 3,4,5@256", ": of several elements it has those of RAID 1 alone, striped or spanned"),
        ("raid0 7 striped 0,1@128 2,3@128", ": of several elements it has those of RAID 1 alone, striped or spanned"),
        ("raid1 7 concat 0,1@128 2,3@128", ": of several elements it has those of RAID 1 alone, striped or spanned"),
        ("raid0 7 mirrored 0,1@128 2,3@128", ": of several elements it has those of RAID 1 alone, striped or spanned"),
        ("raid1 7 striped 0,1@128 2,3,4@128", ": of several elements it has those of equally many disks alone"),
    ]
    for number, (words, why) in enumerate(untaken):
        change(large, 2 + number, "create", f"a{number}", *words.split(), notes=[f"array a{number}: Linux doesn't start it{why}"])

    # A disk that is too small mdadm doesn't take, so that an array which lies on it isn't whole for it.
    mixed = [*make(["m0.img"], 32), *make(["m1.img"])]
    ddf(mixed, "label", "linux")
    change(mixed, 2, "create", "mir", "raid1", "0", "single", "0,1@128", notes=[f"array mir: {PARTLY}"])
    status, text = examine(mixed[0])
    if status == 0 or "No md superblock" not in text:
        stop(f"a small disk is taken: {text}")
    if examine(mixed[1])[0] != 0:
        stop("the disk beside a small one isn't taken")

    # Of an image whose size is no multiple of 512 mdadm sees nothing, though its last whole sector is an anchor.
    odd = make(["odd.img"])
    with open(odd[0], "ab") as image:
        image.write(bytes(100))
    change(odd, 1, "label", "linux")
    status, text = examine(odd[0])
    if status == 0 or "No md superblock" not in text:
        stop(f"an image with a part of a sector is taken: {text}")


def refuse_plain():
    """Disks of the standard's kind mdadm doesn't take, and nothing is said of Linux where they are made and changed."""
    images = make(["p0.img", "p1.img"])
    change(images, 1, "label")
    change(images, 2, "create", "vol", "jbod", "0", "single", "0@128")
    status, text = examine(images[0])
    if status == 0 or "No md superblock" not in text:
        stop(f"a plain label is taken: {text}")


def main():
    if shutil.which(MDADM) is None:
        print("mdadm: not tried: no mdadm")
        sys.exit(77)
    with tempfile.TemporaryDirectory() as work:
        os.chdir(work)
        follow_group()
        follow_large()
        follow_spare()
        name_untaken()
        refuse_plain()
        os.chdir(TOP)
    print("mdadm: disks of `label linux` are as they are to be, behind each change")


main()
