"""Patterns for the names of a circuit. A part of tools/from-aiger.

A pattern that is a name, or a name as it is shown, means that alone. Else the name of a bus means its bits, BUS[3], BUS[7:4] and BUS[*] mean
bits as in Verilog, and what is left is a pattern of the shell, for names and for those of buses.
"""

import os
import re
from collections.abc import Iterable, Iterator, Mapping
from fnmatch import fnmatchcase
from typing import Optional

from qrptools.command import finding
from qrptools.names import BIT, NUMBER

LISTED = 12  # names in a message
SLICE = re.compile(r"(.+)\[(?:([0-9]{1,9})(?::([0-9]{1,9}))?|\*)\]")
WILD = re.compile(r"[*?[]")


def base_of(name: str) -> str:
    """The name of the bus that a bit belongs to, else the name."""
    bit = BIT.fullmatch(name)
    return bit[1] if bit else name


def word_of(name: str) -> str:
    """A name as one word that a file of names takes: as it is shown."""
    word = "_".join(name.split())
    return f"_{word}" if word[0] in "-!~#" or NUMBER.fullmatch(word) else word


def is_like(name: str, pattern: str) -> bool:
    return name == pattern or fnmatchcase(name, pattern)


def is_wild(pattern: str) -> bool:
    """Whether a pattern is one of the shell, and not a name with perhaps a bit or a slice."""
    parts = SLICE.fullmatch(pattern)
    return bool(WILD.search(parts[1] if parts else pattern))


def listed(names: list[str]) -> str:
    return ", ".join(names[:LISTED]) + (" .." if len(names) > LISTED else "")


class Pattern:
    """A pattern of the command line, for names of this kind."""

    def __init__(self, text: str, kind: str = "input") -> None:
        self.text = os.fsencode(text).decode(errors="surrogateescape")  # as names are read
        self.kind, self.slice = kind, SLICE.fullmatch(self.text)

    def meant(self, names: list[str]) -> set[str]:
        """The names that it means, at least one."""
        found = next(filter(None, self.ways(names)), None)
        if not found:
            raise finding(f"no {self.kind} is called '{self.text}'; the {self.kind}s are {listed(names) or 'none'}")
        return found

    def ways(self, names: list[str]) -> Iterator[set[str]]:
        """What each way to read it means, of which the first that means something counts."""
        yield {name for name in names if name == self.text}
        yield {name for name in names if word_of(name) == self.text}
        yield {name for name in names if self.text in (base_of(name), base_of(word_of(name)))}
        if self.slice:
            yield self.bits(names)
        yield {name for name in names if any(is_like(called, self.text) for called in called_by(name))}

    def bits(self, names: list[str]) -> set[str]:
        """The bits of buses that a slice means. One of a single bus means only bits that the bus has."""
        base, first, last = (self.slice[1], self.slice[2], self.slice[3]) if self.slice else ("", None, None)
        ends = sorted((int(first), int(last or first))) if first else None
        found: dict[str, int] = {}
        for name in names:
            bit = BIT.fullmatch(name)
            if bit and any(is_like(called, base) for called in (bit[1], word_of(bit[1]))) and in_range(int(bit[2]), ends):
                found[name] = int(bit[2])
        if found and ends and not WILD.search(base) and len(found) < ends[1] - ends[0] + 1:
            lacking = next(place for place in range(ends[0], ends[1] + 1) if place not in found.values())
            raise finding(f"'{self.text}': no {self.kind} is called '{base}[{lacking}]'; yosys counts the bits of a bus from 0, whatever its range")
        return set(found)


def in_range(place: int, ends: Optional[list[int]]) -> bool:
    return ends is None or ends[0] <= place <= ends[1]


def called_by(name: str) -> tuple[str, ...]:
    """What a name is called: by itself and its bus, as in the file and as it is shown."""
    return name, base_of(name), word_of(name), base_of(word_of(name))


def sizes_of(names: Iterable[str]) -> dict[str, int]:
    """How many bits each bus has."""
    return {bus: len(places) for bus, places in bits_by_bus(names).items()}


def compressed(names: Iterable[str], whole: Mapping[str, int]) -> list[str]:
    """Names with one in place of all bits of a bus, of which it says how many that are, and with slices of a bus of which some are missing."""
    found = []
    for bus, places in bits_by_bus(names).items():
        if places == [-1] or len(places) == whole.get(bus, 0):
            found.append(bus)
        else:
            found += [f"{bus}{slice}" for slice in slices([place for place in places if place >= 0])] + [bus] * (-1 in places)
    return found


def bits_by_bus(names: Iterable[str]) -> dict[str, list[int]]:
    """The bits of each bus; of a name that is no bit -1."""
    found: dict[str, list[int]] = {}
    for name in names:
        bit = BIT.fullmatch(name)
        found.setdefault(bit[1] if bit else name, []).append(int(bit[2]) if bit else -1)
    return found


def slices(places: list[int]) -> list[str]:
    """Places as slices, from the highest on."""
    found: list[list[int]] = []
    for place in sorted(places, reverse=True):
        if found and found[-1][1] == place + 1:
            found[-1][1] = place
        else:
            found.append([place, place])
    return [f"[{high}]" if high == low else f"[{high}:{low}]" for high, low in found]
