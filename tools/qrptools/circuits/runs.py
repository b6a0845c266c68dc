"""A run of a circuit whose inputs are the values of a formula's variables: what happens in it, and as files for other programs. A part of
tools/play and tools/explain-strategy.

The circuit is simulated in its steps, and the formula has no part in that. A witness is written as AIGER 1.9 has it (Biere, Heljanko, Wieringa
2011), and a waveform in the format VCD (IEEE 1364-2005, section 18).
"""

import argparse
import re
from collections.abc import Iterator
from typing import NamedTuple, Optional

from qrptools.checking.sources import Source
from qrptools.circuits.aiger import Circuit, read_circuit
from qrptools.circuits.encoding import named
from qrptools.circuits.patterns import word_of
from qrptools.circuits.unrolled import Input, Property, value_of
from qrptools.circuits.verilog_lines import name_by_map
from qrptools.command import counted, finding, replaced
from qrptools.formula import Formula
from qrptools.names import BIT, Names

# Comments as tools/from-aiger writes them: the steps, and what each clause asks.
STEPS = re.compile(rb"^c .*, in ([0-9]{1,6}) steps\r?$", re.MULTILINE)
MADE = re.compile(rb"^c '.*': the (?:outputs are true|bad states are false)", re.MULTILINE)
ASKED = re.compile(r"^c clause [0-9]+: (.*?)(?: of step [0-9]+)? (?:holds|is false)\r?$", re.MULTILINE)
OUTPUT = re.compile(r"(not_)?(.+?)(?:_of_step_([0-9]+))?'*")
SIGNAL = 10  # units of time of a step


class Step(NamedTuple):
    """The values of all literals of the circuit in a step that are even."""

    values: dict[int, int]

    def value(self, literal: int) -> int:
        return value_of(literal, self.values)


class Run:
    """A run of a circuit: its steps, with these literals of a formula that was made of it."""

    def __init__(self, circuit: Circuit, names: Names, formula: Formula, true: set[int]) -> None:
        self.circuit, self.names, self.true = circuit, names, true
        comments = bytes(formula.data[: formula.header_end])
        found = STEPS.search(comments)
        self.count = int(found[1]) if found else 1
        self.asked = set(ASKED.findall(comments.decode(errors="surrogateescape"))) if MADE.search(comments) else None
        self.inputs = [circuit.name("i", place) for place in range(len(circuit.inputs))]
        self.inputs += [circuit.name("l", place) for place, latch in enumerate(circuit.latches) if latch.reset == latch.literal]
        if len(set(map(word_of, self.inputs))) < len(self.inputs):
            raise finding("two inputs of the circuit are shown by one name, so the formula does not say which is which")
        if circuit.latches and not found:
            raise finding("the formula does not say in how many steps the circuit runs: it is not one of from-aiger")
        if not any(self.variable(Input(name, step)) for name in self.inputs for step in range(self.count)):
            raise finding("no input of the circuit is a variable of the formula by its names")
        self.steps = list(self.simulated())
        self.refuse_other()

    def variable(self, own: Input) -> int:
        """The variable of an input in a step, 0 if the formula has none."""
        variables = self.names.variables
        return variables.get(named(own, self.count), 0) or variables.get(word_of(own.name), 0)

    def input(self, name: str, step: int) -> int:
        """The value of an input. One that the formula does not have is 0."""
        return int(self.variable(Input(name, step)) in self.true)

    def simulated(self) -> Iterator[Step]:
        circuit = self.circuit
        order = circuit.order([*circuit.gates]) or []
        latches = {
            latch.literal: latch.reset if latch.reset < 2 else self.input(circuit.name("l", place), 0) for place, latch in enumerate(circuit.latches)
        }
        for step in range(self.count):
            values = {0: 0, **latches, **{literal: self.input(circuit.name("i", place), step) for place, literal in enumerate(circuit.inputs)}}
            for gate in order:
                one, other = circuit.gates[gate]
                values[gate] = value_of(one, values) & value_of(other, values)
            yield Step(values)
            latches = {latch.literal: value_of(latch.next, values) for latch in circuit.latches}

    def signals(self) -> Iterator[tuple[Property, int]]:
        """The outputs, bad states and constraints, with their literals."""
        for kind, literals in (("o", self.circuit.outputs), ("b", self.circuit.bads), ("c", self.circuit.constraints)):
            yield from ((Property(kind, place, self.circuit.name(kind, place)), literal) for place, literal in enumerate(literals))

    def is_asked(self, own: Property) -> bool:
        """Whether the formula asks for an output, a bad state or a constraint: by its comments, else as from-aiger does without options."""
        if self.asked is None:
            return own.kind == "b" or own.kind == "o" and not self.circuit.bads
        return own.name in self.asked or f"{own.kind}{own.place}" in self.asked

    def refuse_other(self) -> None:
        """Ends the command if an output or a bad state has another value than its variable: then the formula is of another circuit."""
        literals = {word_of(own.name): literal for own, literal in self.signals()}
        inputs = {named(Input(name, step), self.count) for name in self.inputs for step in (*range(self.count), None)}
        for name, variable in self.names.variables.items():
            found = OUTPUT.fullmatch(name)
            if name in inputs or not found or not {variable, -variable} & self.true:
                continue
            is_whole = f"{found[1] or ''}{found[2]}" in literals
            literal = literals.get(f"{found[1] or ''}{found[2]}" if is_whole else found[2])
            step, wanted = int(found[3] or 0), (variable in self.true) != (bool(found[1]) and not is_whole)
            if literal is not None and (step >= self.count or bool(self.steps[step].value(literal)) != wanted):
                raise finding(f"in a simulation of the circuit {name} has another value: the formula or its names are of another circuit")

    def wrong(self) -> list[tuple[int, str]]:
        """What is not as it has to be, each a step and a sentence, up to the step in which an assumption is false."""
        found: list[tuple[int, str]] = []
        for place, step in enumerate(self.steps):
            broken = [own for own, literal in self.signals() if own.kind == "c" and not self.is_asked(own) and not step.value(literal)]
            if broken:
                return found + [(place, f"the assumption {word_of(broken[0].name)} is false, so nothing is asked any more")]
            for own, literal in self.signals():
                if self.is_asked(own) and step.value(literal) != (own.kind != "b"):
                    found.append((place, f"{WORDS[own.kind]} {word_of(own.name)} is {'true' if own.kind == 'b' else 'false'}"))
        return found

    def sentence(self) -> str:
        """What happens in the run, in one line."""
        wrong = self.wrong()
        if not wrong:
            return f"in a simulation of {counted(self.count, 'step')} " + ("no bad state is reached" if self.circuit.bads else "all outputs are true")
        first = wrong[0][0]
        return f"in a simulation, in step {first} of 0 to {self.count - 1}: {', '.join(said for place, said in wrong if place == first)}"

    def stimulus(self) -> Iterator[str]:
        """The lines of a witness: its status, the bad states that are reached first, the first values of the latches, and the inputs of each step
        up to then. The status is 1; it is 2, of what is not decided, if none is reached: then all steps are there, and the property is the first
        one."""
        last, bads = self.reached()
        yield "1" if bads else "2"
        yield "".join(f"b{place}" for place in bads or [0])
        yield "".join(str(self.steps[0].value(latch.literal)) for latch in self.circuit.latches)
        for step in self.steps[: last + 1]:
            yield "".join(str(step.value(literal)) for literal in self.circuit.inputs)
        yield "."

    def reached(self) -> tuple[int, list[int]]:
        """The first step with a bad state up to which the constraints hold, and its bad states; else the last step."""
        for place, step in enumerate(self.steps):
            if not all(map(step.value, self.circuit.constraints)):
                break
            bads = [number for number, literal in enumerate(self.circuit.bads) if step.value(literal)]
            if bads:
                return place, bads
        return self.count - 1, []

    def waveform(self) -> Iterator[str]:
        """The lines of a waveform: a step takes some units of time, and the bits of a bus are one signal."""
        signals = list(self.waves())
        yield "$version qrp_cmd $end"
        yield "$timescale 1 ns $end"
        yield "$scope module circuit $end"
        yield f"$var integer 32 {code(0)} step $end"
        for place, (name, bits) in enumerate(signals, 1):
            width = f" [{max(bits)}:{min(bits)}]" if list(bits) != [-1] else ""
            yield f"$var wire {max(bits) - min(bits) + 1} {code(place)} {name}{width} $end"
        yield "$upscope $end"
        yield "$enddefinitions $end"
        before: dict[int, str] = {}
        for number, step in enumerate(self.steps):
            yield f"#{SIGNAL * number}"
            yield f"b{number:b} {code(0)}"
            for place, (_, bits) in enumerate(signals, 1):
                value = shown(bits, step)
                if before.get(place) != value:
                    yield f"{value}{code(place)}"
                    before[place] = value
        yield f"#{SIGNAL * self.count}"

    def waves(self) -> Iterator[tuple[str, dict[int, int]]]:
        """The signals: a name, and the literals of its bits; -1 is the bit of one that is no bus."""
        found: dict[str, dict[int, int]] = {}
        circuit = self.circuit
        rows = [(circuit.name("i", place), literal) for place, literal in enumerate(circuit.inputs)]
        rows += [(circuit.name("l", place), latch.literal) for place, latch in enumerate(circuit.latches)]
        for name, literal in [*rows, *((own.name, literal) for own, literal in self.signals())]:
            word = word_of(name)
            bit = BIT.fullmatch(word)
            base, place = (bit[1], int(bit[2])) if bit else (word, -1)
            while base in found and (place in found[base] or (place < 0) != (-1 in found[base])):
                base += "'"
            found.setdefault(base, {})[place] = literal
        yield from found.items()


WORDS = {"o": "the output", "b": "the bad state", "c": "the constraint"}


def shown(bits: dict[int, int], step: Step) -> str:
    """The value of a signal, before its code."""
    if list(bits) == [-1]:
        return str(step.value(bits[-1]))
    places = range(max(bits), min(bits) - 1, -1)
    return "b" + "".join(str(step.value(bits[place])) if place in bits else "x" for place in places) + " "


def code(number: int) -> str:
    """The code of a signal: letters from ! to ~."""
    text = ""
    while True:
        number, letter = divmod(number, 94)
        text += chr(33 + letter)
        if not number:
            return text


def add_options(parser: argparse.ArgumentParser) -> None:
    parser.add_argument("--model", metavar="FILE", help="the circuit in AIGER that from-aiger made the formula of")
    parser.add_argument("--map", metavar="FILE", help="what yosys says of its Verilog (write_aiger -vmap), for the lines of assertions")
    parser.add_argument("--stim", metavar="FILE", help="write the run as a witness of AIGER to this file")
    parser.add_argument("--vcd", metavar="FILE", help="write the run as a waveform to this file")


def refuse_options(parser: argparse.ArgumentParser, arguments: argparse.Namespace) -> None:
    if (arguments.stim or arguments.vcd or arguments.map) and not arguments.model:
        parser.error("--stim, --vcd and --map go with --model")
    if arguments.model and not arguments.names:
        parser.error("--model goes with --names, the file that from-aiger wrote")


def model_of(arguments: argparse.Namespace) -> Optional[Circuit]:
    """The circuit that the options name, with names of the map; None if there is none."""
    if not arguments.model:
        return None
    circuit = read_circuit(arguments.model, Source(arguments.model).whole())
    if arguments.map:
        name_by_map(circuit, arguments.map)
    return circuit


def write_run(arguments: argparse.Namespace, run: Run) -> str:
    """Writes the files that the options name, and returns what happens in the run."""
    for path, lines in ((arguments.stim, run.stimulus()), (arguments.vcd, run.waveform())):
        if path:
            with replaced(path) as new, open(new, "x", encoding="utf-8", errors="surrogateescape") as file:
                file.writelines(f"{line}\n" for line in lines)
    return run.sentence()
