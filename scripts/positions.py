"""Where the positions of a group's arrays lie, by the slots of their disks, which are in sync, which disks are spares, and which stand in: a model of
its own of what losses, rebuilds and copybacks make of it, for scripts/histories.py. Marks, sectors and sequence numbers are none of it."""
from dataclasses import dataclass, replace
from typing import NamedTuple

# What a disk is a spare for: all arrays, or these.
Use = str | tuple[str, ...] | None


class Element(NamedTuple):
    """The slots of the disks of its positions, which of these are in sync, and the slot of the disk that stands in."""
    slots: tuple[int, ...]
    synced: tuple[bool, ...]
    stand_in: int | None = None


class Array(NamedTuple):
    level: str
    elements: tuple[Element, ...]

    def slots(self) -> set[int]:
        return {slot for element in self.elements for slot in element.slots}


def created(words: list[str]) -> Array:
    """The array that `create NAME LEVEL STRIP SECONDARY ELEMENT..` makes."""
    elements = [tuple(map(int, word.partition("@")[0].split(","))) for word in words[5:]]
    return Array(words[2].partition(".")[0], tuple(Element(slots, (True,) * len(slots)) for slots in elements))


@dataclass(frozen=True)
class Layout:
    """A group: the slots of its members in the order of the table, those that are missing, its arrays by name, and what each spare is one for."""
    members: tuple[int, ...]
    missing: frozenset[int] = frozenset()
    arrays: tuple[tuple[str, Array], ...] = ()
    uses: tuple[tuple[int, Use], ...] = ()

    def array(self, name: str) -> Array | None:
        return dict(self.arrays).get(name)

    def use(self, slot: int) -> Use:
        return dict(self.uses).get(slot)

    def with_array(self, name: str, array: Array) -> "Layout":
        return replace(self, arrays=tuple({**dict(self.arrays), name: array}.items()))

    def without_array(self, name: str) -> "Layout":
        return replace(self, arrays=tuple(one for one in self.arrays if one[0] != name))

    def with_use(self, slot: int, use: Use) -> "Layout":
        uses = {**dict(self.uses), slot: use}
        return replace(self, uses=tuple(sorted((one for one in uses.items() if one[1]), key=lambda one: one[0])))

    def seats(self, away: frozenset[int]) -> list[int]:
        """The members that are there."""
        return [slot for slot in self.members if slot not in self.missing | away]

    def joined(self, other: "Layout") -> "Layout":
        return Layout(self.members + other.members, self.missing | other.missing, self.arrays + other.arrays, tuple(sorted(self.uses + other.uses, key=lambda one: one[0])))

    def lost(self, slots: frozenset[int]) -> "Layout":
        """These are missing: their positions are out of sync, and they stand in no more."""
        def without(element: Element) -> Element:
            synced = tuple(one and slot not in slots for slot, one in zip(element.slots, element.synced))
            return Element(element.slots, synced, None if element.stand_in in slots else element.stand_in)
        arrays = tuple((name, Array(array.level, tuple(map(without, array.elements)))) for name, array in self.arrays)
        return replace(self, missing=self.missing | slots & set(self.members), arrays=arrays)

    def state(self, name: str, away: frozenset[int]) -> str:
        array, state = self.array(name), "optimal"
        for element in array.elements:
            out = sum(not synced or slot in away | self.missing for slot, synced in zip(element.slots, element.synced))
            spared = {"raid1": len(element.slots) - 1, "raid4": 1, "raid5": 1}.get(array.level, 0)
            if out > spared:
                return "failed"
            state = "degraded" if out else state
        return state

    def moved(self, name: str, element: int, position: int, slot: int, synced: bool, stand_in: int | None) -> "Layout":
        """A position of an array is on this disk."""
        array = self.array(name)
        old = array.elements[element]
        slots = old.slots[:position] + (slot,) + old.slots[position + 1:]
        new = Element(slots, old.synced[:position] + (synced,) + old.synced[position + 1:], stand_in)
        return self.with_array(name, Array(array.level, array.elements[:element] + (new,) + array.elements[element + 1:]))

    def spare_for(self, name: str, away: frozenset[int]) -> int | None:
        """The spare that a rebuild takes: the first of those for the array, else of those for all."""
        free = [slot for slot in self.seats(away) if slot not in self.array(name).slots()]
        own = [slot for slot in free if isinstance(self.use(slot), tuple) and name in self.use(slot)]
        return next(iter(own + [slot for slot in free if isinstance(self.use(slot), str)]), None)

    def rebuilt(self, name: str, away: frozenset[int]) -> list["Layout"]:
        """What a rebuild comes to, one change after another, where it can be done."""
        array = self.array(name)
        out = [(place, at) for place, element in enumerate(array.elements) for at, synced in enumerate(element.synced) if not synced]
        if not out:
            return [self]
        (place, at), begun = out[0], self
        element = array.elements[place]
        slot, stand_in = element.slots[at], element.stand_in
        if slot not in self.seats(away):
            slot = self.spare_for(name, away)
            if slot is None:
                return []
            if self.use(slot) == "revertible" and stand_in not in element.slots:
                stand_in = slot
            begun = self.with_use(slot, None).moved(name, place, at, slot, False, stand_in)
        return [begun, begun.moved(name, place, at, slot, True, stand_in)]

    def going_back(self, name: str, away: frozenset[int]) -> tuple[int, int] | None:
        """The element and the position that a copyback moves."""
        for place, element in enumerate(self.array(name).elements):
            for at, slot in enumerate(element.slots):
                if slot == element.stand_in and element.synced[at] and slot in self.seats(away):
                    return place, at
        return None

    def refusal_of_copyback(self, name: str, slot: int, away: frozenset[int], marked: bool) -> str | None:
        array = self.array(name)
        if array is None:
            return "refused 16 no array"
        if slot not in self.seats(away):
            return f"refused 15 slot {slot} not a member"
        if self.state(name, away) == "failed":
            return "refused 22 lost"
        if marked:
            return "refused 24 marked"
        if self.going_back(name, away) is None:
            return "refused 38 no stand-in"
        return f"refused 33 slot {slot} in use" if self.use(slot) or slot in array.slots() else None

    def returned(self, name: str, slot: int, away: frozenset[int]) -> list["Layout"]:
        """What a copyback makes, where it can be done: the spare is one again where nothing else lies on it."""
        if self.refusal_of_copyback(name, slot, away, False):
            return []
        place, at = self.going_back(name, away)
        former = self.array(name).elements[place].slots[at]
        after = self.moved(name, place, at, slot, True, None)
        holds = any(former in array.slots() for _, array in after.arrays)
        return [after if holds or after.use(former) else after.with_use(former, "revertible")]

    def after(self, words: list[str], away: frozenset[int]) -> list["Layout"]:
        """What a command comes to over the disks that aren't away, one change after another; nothing where it can't be done."""
        lost = self.lost(away)
        match words[0]:
            case "create":
                return [lost.with_array(words[1], created(words))]
            case "delete":
                return [lost.without_array(words[1])]
            case "fail":
                return [lost.lost(frozenset({int(words[1])}))]
            case "spare":
                return [lost.with_use(int(words[1]), tuple(words[3:]) if words[2] == "for" else words[2] if words[2] != "off" else None)]
            case "rebuild":
                return lost.rebuilt(words[1], away) if lost.array(words[1]) else []
            case "copyback":
                return lost.returned(words[1], int(words[2]), away)
        return [lost]
