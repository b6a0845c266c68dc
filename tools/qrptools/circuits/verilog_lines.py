"""Names for assertions and assumptions, from the map that yosys writes beside a circuit (write_aiger -vmap). A part of tools/from-aiger and
tools/play.

yosys writes no symbols for them in AIGER. In its map the wire that an assertion checks has a name with the file and the line of the Verilog.
"""

import re
from typing import Optional

from qrptools.circuits.aiger import Circuit
from qrptools.command import finding, read_file

WIRE = re.compile(r"wire ([0-9]{1,10}) [0-9]+ (.+)")
CHECKED = re.compile(r"\$formal\$(.*?)([^/$]+:[0-9]+)(?:\.[0-9-.]*)?\$[0-9]+_CHECK\b")


def name_by_map(circuit: Circuit, path: str) -> None:
    """Gives names to the bad states and the constraints that have none: the file and the line of the Verilog."""
    lines = read_file(path, "the map").decode(errors="surrogateescape").split("\n")
    wires = [found for found in map(WIRE.fullmatch, lines) if found]
    if not wires:
        raise finding(f"{path} is no map of yosys with wires: `write_aiger -vmap FILE` writes one")
    checked: dict[int, list[str]] = {}
    for wire in wires:
        found = CHECKED.search(wire[2])
        if found:
            checked.setdefault(int(wire[1]), []).append(found[2])
    seen: set[str] = set()
    for kind, literals, sign in (("b", circuit.bads, 1), ("c", circuit.constraints, 0)):
        for place, literal in enumerate(literals):
            name = next((name for name in names_of(circuit, literal, sign, checked) if name not in seen), None)
            if name and (kind, place) not in circuit.names:
                circuit.names[kind, place] = f"{name}_fails" if kind == "b" else name
                seen.add(name)


def names_of(circuit: Circuit, literal: int, sign: int, checked: dict[int, list[str]]) -> list[str]:
    """What is checked where this literal is false, or with the sign where it is true: by itself, or if something else holds too."""
    both: Optional[tuple[int, int]] = circuit.gates.get(literal & ~1)
    if checked.get(literal ^ sign) or not both:
        return checked.get(literal ^ sign, [])
    return [name for other in both for name in checked.get(other ^ 1, [])]
