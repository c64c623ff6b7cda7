#!/usr/bin/env python3
"""Plays random histories of two groups over disks in memory, one of which joins the other by an import: commands that are stopped or meet failing
writes, losses and returns of disks, stops that keep some of the writes that no sync made sure. Of half of them some disks have bad sectors under
their arrays, which lie at spare places. Behind each it looks whether what the program promises holds: what was acknowledged is there
(promise:acknowledged), the groups are assembled, the import has happened or it hasn't (promise:joined), each block of both groups has its last
acknowledged bytes, or the old or new ones of a write that was cut short (promise:read), and positions lie on the disks that rebuilds and copybacks
put them on, the spares being those that they leave (promise:returned): so the arrays are told to be as they are, a copyback is answered as it should
be, and blocks are read short of a disk.

    scripts/histories.py [COUNT [SEED]]

DDF_RIG names a built program that plays scenarios. A history that breaks a promise is printed as a scenario."""
import os
import random
import re
import subprocess
import sys
import tempfile
from collections import Counter
from dataclasses import dataclass

from positions import Layout

TOP = os.path.dirname(os.path.dirname(os.path.abspath(__file__)))
RIG = os.path.abspath(os.environ.get("DDF_RIG", f"{TOP}/crates/ddf_rig/out/ddf_rig"))
DISKS = 8
LOOK = 15 * DISKS
READS = DISKS + LOOK
KEEPS = ["none", "all", "second", "-+", "+--", "--+", "++-"]
PARITY = ["raid4.first", "raid4.last", "raid5.r0", "raid5.rn", "raid5.rnc"]
MEMBER = re.compile(r"member (\S+) (?:slot (\d+) size \d+(.*)|(missing|absent))$")
ARRAY = re.compile(r"array (\S+) blocks \d+ (optimal|degraded|failed)( marked)?$")


@dataclass(frozen=True, eq=False)
class Group:
    """A group as it is labelled: its chance, its disks, its arrays that stay with the blocks of each, and how they are made."""
    high: int
    low: int
    slots: tuple[int, ...]
    blocks: dict[str, int]
    made: tuple[str, ...]

    def guid(self) -> str:
        return f"524444462d47202052854b00{self.low:024x}"

    def stamp(self) -> str:
        return f"% stamp 1700000000 {self.high} {self.low}"

    def slot_of(self, reference: int) -> int | None:
        """The slot of a member of this group."""
        place = reference - self.high - 1
        return self.slots[place] if 0 <= place < len(self.slots) else None


LARGE = Group(6, 7, (0, 1, 2, 3, 4, 7), {"m": 4, "p": 6, "s": 8, "t": 4},
              ("create m raid1 0 single 0,1@4", "accept m", "create p PARITY 0 single 1,2,3@3", "accept p", "create s raid0 1 single 0,2@4",
               "create t raid1 0 striped 0,1@2 2,3@2", "accept t", "spare 4 SPARE"))
PAIR = Group(40, 9, (5, 6), {"q": 4, "u": 3}, ("create q raid1 0 single 5,6@4", "accept q", "create u jbod 0 single 6@3"))
SINGLE = Group(40, 9, (5,), {"u": 3}, ("create u jbod 0 single 5@3",))
# Disks that no array is created on, and those that others may be moved from: an import takes such a one off the list once it is missing.
UNUSED = {4, 7}
LEAVING = {1, 3, 4, 7}
# The arrays that can do without a disk, and the disks that they are created on.
LIES = {"m": {0, 1}, "p": {1, 2, 3}, "t": {0, 1, 2, 3}, "q": {5, 6}}


class Maker:
    """Writes a history: the lines of a scenario, and of each line what it is for. The group `guest` joins the group `host`."""

    def __init__(self, chance: random.Random):
        self.chance, self.lines, self.kinds = chance, [], []
        self.lost, self.noted, self.failed, self.gone = set(), set(), set(), set()
        self.made = 0
        self.is_asked = False
        groups = [LARGE, chance.choice([PAIR, PAIR, SINGLE])]
        self.host, self.guest = groups if chance.random() < 0.7 else reversed(groups)

    def say(self, line: str, *kind):
        self.lines.append(line)
        self.kinds.append(kind)

    def command(self, group: Group, words: str):
        if words.startswith("create"):
            self.say(group.stamp(), "still")
        self.say(f"$ @{group.guid()} {words}", "command", words.split(), group, frozenset(self.lost | self.gone))

    def stop(self, how: str = ""):
        self.say(f"% stop {self.chance.choice(KEEPS)}{how}", "stop")
        self.unplug(self.lost | self.gone, "still")

    def unplug(self, slots: set, *kind):
        for slot in sorted(slots):
            self.say(f"% unplug {slot}", *kind)

    def begin(self):
        size = self.chance.choice(["65536", "65536", "65536", "131072"])
        has_logs = self.chance.random() < 0.5
        self.say("% disks " + " ".join([size] * DISKS) + " room 60000", "new")
        for group in (LARGE, self.host if self.guest is LARGE else self.guest):
            kind = self.chance.choice(["linux ", ""] if size == "131072" else [""])
            self.say(group.stamp(), "still")
            self.say(f"$ label {kind}" + " ".join(map(str, group.slots)), "command", ["label"], group, frozenset())
            if has_logs:
                self.log(group, int(size), kind)
            for words in group.made:
                kind = self.chance.choice(["revertible", "revertible", "global"])
                self.command(group, words.replace("PARITY", self.chance.choice(PARITY)).replace("SPARE", kind))
        self.look()

    def log(self, group: Group, size: int, kind: str):
        """Bad sectors in the logs of some disks of a group, in both copies, among the first sectors: there arrays will lie. Their spare places are in the workspace."""
        for slot in group.slots:
            if self.chance.random() < 0.3:
                continue
            places, at = f"{slot} {size - 2},{size - 42} 1", 0
            starts = sorted(self.chance.sample(range(0, 40, 3), self.chance.randint(1, 9)))
            spares = self.chance.sample(range(0, 3 * len(starts), 3), len(starts))
            self.say(f"% put {places} 10 {3 * len(starts):08x}", "still")
            self.say(f"% put {places} 24 {size - 32849 + 18 + self.chance.randint(0, 1000):016x}", "still")
            for start, spare in zip(starts, spares):
                self.say(f"% put {places} {32 + at} {start:016x}{spare:08x}{self.chance.randint(1, 3):04x}", "still")
                at += 16
            self.say(f"% set {places} 8 {len(starts):04x}", "still")
            if kind:
                self.say(f"% turn {places}", "still")

    def look(self):
        """What both groups are told to be, and what is read of their arrays. Once the import was given, those of the guest are looked at under either name."""
        away = frozenset(self.lost | self.gone)
        self.look_at(self.host, self.blocks_of(self.host), away)
        self.say("$ show", "nameless")
        self.look_at(self.guest, self.guest.blocks, away)

    def look_at(self, group: Group, blocks: dict, away: frozenset):
        self.say(f"$ @{group.guid()} show", "show", group, away)
        for name, count in blocks.items():
            self.say(f"$ @{group.guid()} read {name} 0 {count}", "read", group, name)
            self.say(f"$ @{group.guid()} scrub {name}", "scrub", group, name)

    def has_both(self, group: Group) -> bool:
        """Whether the group may have the other one's disks and arrays."""
        return self.is_asked and group is self.host

    def blocks_of(self, group: Group) -> dict:
        return self.host.blocks | self.guest.blocks if self.has_both(group) else group.blocks

    def slots_of(self, group: Group) -> list:
        return [*self.host.slots, *self.guest.slots] if self.has_both(group) else list(group.slots)

    def words(self, group: Group) -> str:
        """A command that may write."""
        kinds = ["write"] * 5 + ["resync"] * 4 + ["rebuild"] * 4 + ["copyback"] * 3 + ["create", "delete", "spare", "spare", "assemble", "assemble"]
        kind = self.chance.choice(kinds + ["fail"] * (self.chance.random() < 0.3))
        blocks, slots = self.blocks_of(group), self.slots_of(group)
        if kind == "write":
            name = self.chance.choice(list(blocks))
            start = self.chance.randrange(blocks[name])
            count = self.chance.randint(1, blocks[name] - start)
            self.say(f"% input {512 * count}x{self.chance.randrange(0x81, 0xff):02x}", "input")
            return f"write {name} {start} {count}"
        if kind in ("resync", "rebuild"):
            return f"{kind} {self.chance.choice([name for name in blocks if name in 'mptq'] or ['u'])}"
        if kind == "create":
            self.made += 1
            return f"create o{self.made} jbod 0 single {self.chance.choice([slot for slot in slots if slot not in UNUSED])}@2"
        if kind == "delete":
            return f"delete o{max(1, self.made)}"
        if kind == "spare":
            return f"spare {self.chance.choice(slots)} {self.chance.choice(['revertible', 'revertible', 'global', 'off', 'for m', 'for p t', 'for q'])}"
        if kind == "copyback":
            return f"copyback {self.chance.choice([name for name in blocks if name in 'mptq'] or ['u'])} {self.chance.choice(slots)}"
        if kind == "fail":
            slot = self.chance.choice(slots)
            self.failed.add(slot)
            return f"fail {slot}"
        return kind

    def fault(self, reads: int, reaches: list) -> str:
        """A stop within the next command, which makes so many reads of a look at first, or a call behind these that fails, or nothing."""
        kind = self.chance.choice(["", "", "", " after", " after", " after", " failing"])
        if kind:
            reach = reads + DISKS + self.chance.choice(reaches)
            self.stop(f"{kind} {self.chance.randrange(reads if kind == ' failing' or self.chance.random() < 0.8 else 0, reach)}")
        return kind

    def act(self):
        """A command, which may be stopped, or meet a write or a sync that fails. Nothing is written under the name of the group that joins, once the import was given."""
        group = self.host if self.is_asked or self.chance.random() < 0.7 else self.guest
        fault = self.fault(READS, [25, 120, 350, 600])
        self.command(group, self.words(group))
        if fault or self.chance.random() < 0.3:
            self.stop()

    def go_back(self):
        """A disk is lost, a spare takes its place in an array, most often a revertible one, and then the position goes to another disk, where it can."""
        group = self.host if self.is_asked else LARGE
        spare, goal = self.chance.sample([4, 7], 2)
        if self.chance.random() < 0.8:
            self.command(group, f"spare {spare} revertible")
        self.lose(self.chance.choice([0, 1, 2, 3]) if self.chance.random() < 0.8 else None)
        self.look()
        out = self.lost | self.noted | self.failed
        name = self.chance.choice([name for name in LIES if name in self.blocks_of(group) and LIES[name] & out] or ["m"])
        goal = goal if self.chance.random() < 0.7 else self.chance.choice(self.slots_of(group))
        for words, is_cut in ((f"rebuild {name}", 0.3), (f"copyback {name} {goal}", 0.6)):
            fault = self.chance.random() < is_cut and self.fault(READS, [25, 60, 120, 200, 250])
            self.command(group, words)
            if fault or self.chance.random() < 0.3:
                self.stop()
            self.look()
        if self.chance.random() < 0.7:
            self.look_short(group)

    def look_short(self, group: Group):
        """What is read of a group that is assembled, short of one more of its disks."""
        if self.chance.random() < 0.5:
            self.stop()
        self.command(group, "assemble")
        slot = self.chance.choice([slot for slot in self.slots_of(group) if slot not in self.lost | self.gone])
        self.unplug({slot}, "still")
        for name, count in self.blocks_of(group).items():
            self.say(f"$ @{group.guid()} read {name} 0 {count}", "short", group, name, frozenset(self.lost | self.gone | {slot}))
        self.say("% stop all", "still")
        self.unplug(self.lost | self.gone, "still")

    def join(self):
        """The import, perhaps with a disk away, which is stopped, fails or is done. A disk that it may take off the list is taken out for good."""
        if self.chance.random() < 0.3:
            self.lose()
        leaving = LEAVING & {*self.host.slots} & (self.lost | self.noted | self.failed) - self.gone
        if leaving:
            self.gone |= leaving
            self.unplug(leaving, "lost")
        fault = self.fault(READS + LOOK, [10, 60, 160, 240, 350])
        self.give_import(bool(fault))
        if fault:
            self.stop()
            if self.chance.random() < 0.4:
                self.look()
                self.follow()

    def follow(self):
        """Behind an import that was cut short a disk is lost, and the next command is cut short too."""
        self.lose()
        self.stop(f" after {READS - 15 + self.chance.randrange(DISKS + self.chance.choice([25, 60, 120]))}")
        self.command(self.host, "assemble" if self.chance.random() < 0.5 else self.words(self.host))
        self.stop()

    def give_import(self, may_fail: bool):
        self.is_asked = True
        self.say(f"$ @{self.host.guid()} import {self.guest.guid()}", "import", may_fail, frozenset(self.lost | self.gone))

    def lose(self, slot: int | None = None):
        """A disk is lost, this one of the large group or any."""
        group = self.chance.choice([self.host, self.guest]) if slot is None else LARGE
        slot = self.chance.choice(group.slots) if slot is None else slot
        away = self.lost | self.noted | self.failed | self.gone
        if len(away & set(group.slots)) < len(group.slots) // 2 and slot not in away:
            self.lost.add(slot)
            self.unplug({slot}, "lost")

    def give_back(self):
        """Lost disks come back, once their group has gone on without them."""
        if self.lost:
            self.stop()
            for group in [self.host] if self.is_asked else [self.host, self.guest]:
                self.command(group, "assemble")
            self.noted |= self.lost
            back, self.lost = self.lost, set()
            self.say("% stop all", "back", back)
            self.unplug(self.gone, "still")

    def end(self):
        """Whatever was stopped is gone on with, and the import is given again where it hasn't happened."""
        self.stop()
        self.command(self.host, "assemble")
        self.look()
        self.give_import(False)
        self.stop()
        self.command(self.host, "assemble")
        self.look()

    def history(self):
        self.begin()
        steps = self.chance.randint(6, 14)
        asked = self.chance.randrange(steps)
        for step in range(steps):
            kinds = [self.act] * 8 + [self.go_back] * 3 + [self.lose, self.give_back] + [self.join] * (3 * self.is_asked)
            (self.join if step == asked else self.chance.choice(kinds))()
            self.look()
        self.end()
        return self


class Judge:
    """What a history has promised so far, and whether the answers keep it."""

    def __init__(self, host: Group, guest: Group):
        self.host, self.guest = host, guest
        self.acknowledged = {host: 1, guest: 1}
        self.allowed = {name: [{0}] * count for group in (host, guest) for name, count in group.blocks.items()}
        self.names, self.unsure = {}, set()
        self.state, self.risky = {host: {}, guest: {}}, {host: False, guest: False}
        self.missing, self.back, self.apart = set(), set(), set()
        self.byte, self.told = 0, ""
        # Where the positions of each group may lie, those that the last look told of, and the groups that were looked at since anything happened.
        self.layouts = {group: {Layout(group.slots)} for group in (host, guest)}
        self.now, self.fresh, self.whole, self.is_sure = dict(self.layouts), set(), set(), True
        # Whether the group that goes on is told to have the other one's disks, where that is known, and whether it is for good: since that is acknowledged, or
        # as long as no disk is lost.
        self.is_in, self.is_asked = False, False
        self.is_known, self.is_settled = True, True
        self.must_be_in, self.stays_in = False, False
        self.met = Counter()

    def take(self, kind, line: str, answer: str) -> str | None:
        """What is wrong with an answer, if anything is."""
        status = re.search(r"^\[(\d)\]$", answer, re.M)
        self.status = int(status[1]) if status else 0
        self.text = re.sub(r"^\[\d\]\n", "", answer, flags=re.M)
        if self.status in (5, 6):
            return "memory ran out, or the output failed"
        if self.status == 4 and not self.back:
            return "records contradict each other"
        if kind[0] not in ("import", "nameless") and re.search(r"^refused (39|13|2|5)\b", self.text, re.M):
            return "the group is refused"
        if line.startswith("% input"):
            self.byte = int(line[-2:], 16)
        return getattr(self, f"see_{kind[0]}", lambda *_: None)(*kind[1:])

    def see_stop(self):
        self.is_known, self.is_settled, self.is_sure = False, True, False
        self.unsettle()

    def unsettle(self):
        """What was looked at may be otherwise since: a write that no sync made sure is gone, or a disk is."""
        self.now, self.fresh = dict(self.layouts), set()

    def see_lost(self):
        self.unsettle()
        self.risky = {self.host: True, self.guest: True}
        self.is_known = self.stays_in = False

    def see_back(self, slots):
        self.back |= slots
        self.apart |= slots
        self.is_known = False
        self.unsettle()

    def see_command(self, words, group, away):
        wrong = self.see_copyback(words, group, away) if words[0] == "copyback" and group in self.fresh else None
        if wrong or (wrong := self.see_change(words, group, away)):
            return wrong
        self.is_known = self.is_settled = False
        if words[0] == "fail":
            self.risky = {self.host: True, self.guest: True}
            self.apart.add(int(words[1]))
        if words[0] in ("create", "delete") and self.status == 3:
            self.unsure.add(words[1])
        if self.status == 0 and (wrong := self.acknowledge(group)):
            return wrong
        if self.status == 0 and words[0] in ("create", "delete"):
            self.unsure.discard(words[1])
            self.names.pop(words[1], None)
            if words[0] == "create":
                self.names[words[1]] = group
        if words[0] == "write" and words[1] in self.allowed and self.status != 1:
            self.write(words[1], int(words[2]), int(words[3]))
        return None

    def see_copyback(self, words, group, away):
        """A copyback that nothing cut short is answered as it should be where the group was looked at before."""
        marked = self.state[group].get(words[1], ("", False))[1]
        wanted = {layout.refusal_of_copyback(words[1], int(words[2]), away, marked) or "ok sequence" for layout in self.now[group]}
        self.met["copybacks looked at"] += 1
        if self.status != 4 and not any(self.text.startswith(one) for one in wanted):
            return f"a copyback isn't answered as {' or '.join(sorted(wanted))}"
        return None

    def see_change(self, words, group, away):
        """What a command made of the places of positions: where it was cut short some of it, or nothing."""
        self.whole.discard(group)
        if self.status not in (0, 3) or words[0] == "label":
            return None
        before = self.now[group]
        if self.status == 0:
            self.layouts[group] = {made[-1] for layout in before if (made := layout.after(words, away))}
            self.whole.add(group)
            self.met["copybacks done"] += words[0] == "copyback"
        else:
            self.layouts[group] = self.layouts[group] | {one for layout in before for one in [layout.lost(away), *layout.after(words, away)]}
            self.met["copybacks cut short"] += words[0] == "copyback"
        self.unsettle()
        return None if self.layouts[group] else "a command is done that can't be"

    def acknowledge(self, group):
        found = int(re.search(r"sequence (\d+)", self.text)[1])
        if found < self.acknowledged[group]:
            return "what was acknowledged is gone"
        self.acknowledged[group] = found
        return None

    def write(self, name, start, count):
        blocks = self.allowed[name]
        for place in range(start, start + count):
            blocks[place] = {self.byte} if self.status == 0 else blocks[place] | {self.byte}

    def see_import(self, may_fail, away):
        """It is done where it hasn't happened, and refused where it has; one that is cut short may end otherwise. A disk that is away is lost with it."""
        was_in = self.is_in if self.is_known else None
        self.is_asked, self.is_known, self.is_settled = True, False, False
        self.met["given again"] += was_in is False and not may_fail and self.status == 0
        self.see_joining(may_fail, away)
        if self.status == 0:
            self.must_be_in = True
            self.missing |= away
            self.met["done with disks away"] += bool(away)
            return "an import that has happened is done again" if was_in else self.acknowledge(self.host)
        if may_fail or was_in is None or self.status == 4:
            return None
        if was_in and not re.match(r"refused (12|34|39)\b", self.text):
            return "an import that has happened isn't refused as such"
        if not was_in and not re.match(r"refused 21\b", self.text):
            return "an import that hasn't happened isn't done"
        return None

    def see_joining(self, may_fail, away):
        """What an import made of the places of positions."""
        self.whole.discard(self.host)
        made = {one.lost(away).joined(other.lost(away)) for one in self.now[self.host] for other in self.now[self.guest] if not {*self.guest.slots} & {*one.members}}
        if self.status == 0:
            self.layouts[self.host] = made
        elif self.status == 3:
            self.layouts[self.host] = self.layouts[self.host] | made | {one.lost(away) for one in self.now[self.host]}
        self.unsettle()

    def see_layout(self, group, members, lost, is_acknowledged):
        """Whether spares and arrays are told as they are. Of what nothing has acknowledged more than one may be on the disks."""
        told = {slot: member[3] for slot, member in members.items() if member[2]}
        matching = {layout for layout in self.layouts[group] if self.is_told(layout, group, members, told, lost)}
        if not matching:
            return f"spares or arrays are told otherwise than as {self.layouts[group]}"
        self.now[group], self.is_sure = matching, True
        self.fresh.add(group)
        if is_acknowledged:
            self.layouts[group] = matching
        self.met["looks at spares"] += 1
        return None

    def is_told(self, layout, group, members, told, lost):
        if bool({*self.guest.slots} & {*layout.members}) != bool({*self.guest.slots} & members.keys()) and group is self.host:
            return False
        for slot, text in told.items():
            use = layout.use(slot)
            word = re.search(r"spare (\w+)", text)
            if (word[1] if word else None) != ("dedicated" if isinstance(use, tuple) else use):
                return False
        if {*re.findall(r"^array (\S+)", self.text, re.M)} != {name for name, _ in layout.arrays}:
            return False
        return all(layout.state(name, lost) == self.state[group][name][0] for name, _ in layout.arrays if name in self.state[group])

    def see_short(self, group, name, away):
        """Blocks are there without one disk more, where the array can do without it. Parity counts only where it is known that nothing is marked."""
        layouts = [layout for layout in self.layouts[group] if layout.array(name)]
        if group not in self.whole or name not in self.allowed or self.status == 4 or not layouts or len(layouts) != len(self.layouts[group]):
            return None
        if name not in self.state[group] or any(layout.state(name, away) == "failed" for layout in layouts):
            return None
        if name == "p" and (self.state[group][name][1] or not self.is_sure):
            return None
        self.met["reads short of a disk"] += 1
        return self.see_blocks(name) if self.status == 0 else "blocks that are promised aren't told short of a disk"

    def see_show(self, group, lost):
        if group is self.guest and self.is_in is not False:
            return None
        if self.status != 0:
            self.is_in = None if group is self.host else self.is_in
            return "the group isn't told" if self.status != 4 else None
        sequence = int(re.search(r"sequence (\d+)", self.text)[1])
        if sequence < self.acknowledged[group]:
            return "what was acknowledged is gone"
        members = {self.slot_of(member): member for line in self.text.splitlines() if (member := MEMBER.match(line))}
        is_acknowledged = sequence <= self.acknowledged[group]
        wrong = self.see_joined(members, is_acknowledged) if group is self.host else None
        wrong = wrong or self.see_members(group, members, lost, is_acknowledged) or self.see_arrays(group)
        return wrong or self.see_layout(group, members, lost, is_acknowledged)

    def slot_of(self, member) -> int | None:
        return next((slot for group in (self.host, self.guest) if (slot := group.slot_of(int(member[1], 16))) is not None), None)

    def see_joined(self, members, is_acknowledged):
        """Whether the group has the other one's disks, which it keeps once that is acknowledged, or told behind a stop as long as no disk is lost."""
        was_in, self.is_in, self.is_known, self.told = self.is_in, not members.keys().isdisjoint(self.guest.slots), True, self.text
        if self.is_in and not self.is_asked:
            return "disks joined that no import was given for"
        if not self.is_in and (self.must_be_in or self.stays_in):
            return "an import that had happened hasn't"
        self.met["happened"] += self.is_in and was_in is False and not self.must_be_in
        self.met["undone by a loss"] += was_in is True and not self.is_in
        self.must_be_in |= self.is_in and is_acknowledged
        self.stays_in |= self.is_in and self.is_settled
        return None

    def see_members(self, group, members, lost, is_acknowledged):
        both = {*self.host.slots, *self.guest.slots} if group is self.host and self.is_in else {*group.slots}
        if not both - LEAVING <= members.keys() or not members.keys() <= both:
            return "other members are listed than the group has"
        for slot, member in members.items():
            if member[4] == "absent" and slot not in lost:
                return "a disk that is there is absent"
            if member[4] != "missing" and slot in self.missing:
                return "a disk that was missing is a member again"
            if member[2] and int(member[2]) != slot:
                return "a disk is in another slot"
            if member[4] == "missing" and is_acknowledged:
                self.missing.add(slot)
        return None

    def see_arrays(self, group):
        told = {found[1]: (found[2], bool(found[3])) for line in self.text.splitlines() if (found := ARRAY.match(line))}
        owned = {name for name, owner in self.names.items() if owner is group or (group is self.host and self.is_in)}
        if owned - self.unsure - told.keys():
            return "an array that was acknowledged is gone"
        if told.keys() - owned - self.unsure:
            return "an array is there that was deleted, or isn't the group's"
        for name in owned & self.allowed.keys():
            state, marked = told[name]
            if state == "failed" or (marked and self.risky[group]):
                del self.allowed[name]
        self.state[group], self.risky[group] = told, False
        return None

    def see_nameless(self):
        """Without a name the group is meant that the other one has joined, where no disk shows the latter any more; as long as it hasn't joined there are two."""
        if self.status == 4 or self.is_in is None or self.apart & {*self.guest.slots}:
            return None
        if self.text == self.told and self.is_in:
            return None
        if re.match(r"refused 13\b", self.text) and not (self.is_in and " behind" not in self.told):
            return None
        return "other groups are told without a name than with one"

    def see_read(self, group, name):
        if name not in self.allowed or self.status == 4 or self.is_in is None:
            return None
        if group is self.guest and self.is_in:
            return self.see_blocks(name) if self.status == 0 and not self.apart & {*group.slots} else None
        if name not in self.state[group]:
            return None if self.status == 1 else "an array is read that the group hasn't"
        state, marked = self.state[group][name]
        if self.status != 0:
            return None if marked and state == "degraded" and name == "p" else "blocks that are promised aren't told"
        return self.see_blocks(name)

    def see_blocks(self, name):
        blocks = []
        for count, first, last in re.findall(r"(\d+) of (?:each of )?(\w\w)(?: to (\w\w))?", self.text):
            for byte in range(int(first, 16), int(last or first, 16) + 1):
                blocks += [byte] * (int(count) // 512)
        if len(blocks) != len(self.allowed[name]):
            return "other than whole blocks"
        if any(byte not in allowed for byte, allowed in zip(blocks, self.allowed[name])):
            return f"a block has other bytes than it may: {blocks} of {self.allowed[name]}"
        return None

    def see_scrub(self, group, name):
        if name not in self.allowed or self.status == 4 or self.is_in is None or (group is self.guest and self.is_in):
            return None
        if name not in self.state[group] or self.state[group][name][1]:
            return None
        return None if self.text == "clean\n" else "an array that isn't marked doesn't agree"


def played(lines: list[str]) -> list[str]:
    """What each line is answered."""
    with tempfile.NamedTemporaryFile("w", suffix=".txt", delete=False) as file:
        file.write("\n".join(lines) + "\n")
    told = subprocess.run([RIG, file.name], capture_output=True, text=True, check=False)
    os.unlink(file.name)
    if told.returncode not in (0, 1):
        sys.exit(f"histories: the rig says {told.stderr}")
    answers, place = [""] * len(lines), None
    for line in told.stdout.splitlines()[1:]:
        if begun := re.match(r"line (\d+): [$%]", line):
            place = int(begun[1]) - 1
        else:
            answers[place] += line + "\n"
    return answers


def judge(maker: Maker, answers: list[str], met: Counter) -> bool:
    """Whether the answers to a history keep what is promised. One that doesn't is printed up to there."""
    one = Judge(maker.host, maker.guest)
    for place, (kind, line, answer) in enumerate(zip(maker.kinds, maker.lines, answers)):
        met["answers looked at"] += 1
        met["contradictions"] += "[4]" in answer
        if wrong := one.take(kind, line, answer):
            print(f"histories: {wrong}, at the end of")
            for told in range(place + 1):
                print(maker.lines[told], answers[told], sep="\n", end="")
            return False
    met.update(one.met)
    return True


def main() -> None:
    count = int(sys.argv[1]) if len(sys.argv) > 1 else 1000
    seed = int(sys.argv[2]) if len(sys.argv) > 2 else 1
    broken, met = 0, Counter()
    for first in range(seed, seed + count, 50):
        makers = [Maker(random.Random(number)).history() for number in range(first, min(first + 50, seed + count))]
        answers = played([line for maker in makers for line in maker.lines])
        for maker in makers:
            own, answers = answers[: len(maker.lines)], answers[len(maker.lines):]
            broken += not judge(maker, own, met)
    print(f"histories: {count} of seed {seed}, {met['answers looked at']} answers looked at, {met['contradictions']} contradictions, {broken} broke a promise")
    print(f"histories: of imports that were cut short {met['happened']} had happened, {met['undone by a loss']} of which a loss undid, and {met['given again']} were given again; "
          f"{met['done with disks away']} were done with disks away")
    print(f"histories: {met['copybacks done']} copybacks were done and {met['copybacks cut short']} cut short, {met['copybacks looked at']} answers to them, {met['looks at spares']} groups "
          f"and {met['reads short of a disk']} reads short of a disk more were as the model has them")
    sys.exit(broken > 0)


main()
