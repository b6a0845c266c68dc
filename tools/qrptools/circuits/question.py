"""What is asked of a circuit: which outputs and bad states, what is assumed and what is demanded, and what a user should know of it. A part of
tools/from-aiger.
"""

import argparse
from collections.abc import Iterator
from typing import NamedTuple

from qrptools.circuits.aiger import KINDS, Circuit
from qrptools.circuits.encoding import Encoding, Prefix, named, shown
from qrptools.circuits.patterns import Pattern, compressed, is_wild, sizes_of, word_of
from qrptools.circuits.unrolled import Input, Property, Unrolled
from qrptools.command import finding
from qrptools.formula import EXISTS, FOR_ALL

INITIAL = "init:"  # how yosys begins the name of an input that is the first value of a register
NAMED = 3  # names in a sentence


class Names(NamedTuple):
    """The names of the inputs, and of the latches whose first value is free."""

    inputs: list[str]
    free: list[str]

    def meant(self, text: str, is_outer: bool) -> set[str]:
        """What a pattern means. Of what is bound outermost a first value is meant by its name alone, since it is one of step 0 only."""
        wild = is_outer and is_wild(text)
        return Pattern(text).meant(self.inputs if wild else [*self.inputs, *self.free])


def names_of(circuit: Circuit) -> Names:
    free = [circuit.name("l", place) for place, latch in enumerate(circuit.latches) if latch.reset == latch.literal]
    inputs = [circuit.name("i", place) for place in range(len(circuit.inputs))]
    names = [*inputs, *free]
    doubled = next((name for name in names if names.count(name) > 1), None) if len(set(names)) < len(names) else None
    if doubled:
        raise finding(f"two inputs are called '{doubled}'")
    return Names(inputs, free)


def properties_of(circuit: Circuit, patterns: list[str]) -> list[Property]:
    """What is asked: what the patterns mean, else the bad states, and the outputs if there are none."""
    all_of = [
        Property(kind, place, circuit.name(kind, place))
        for kind, found in (("b", circuit.bads), ("o", circuit.outputs))
        for place in range(len(found))
    ]
    if not all_of:
        raise finding("the circuit has neither outputs nor bad states, so nothing is asked of it")
    if not patterns:
        return [own for own in all_of if own.kind == all_of[0].kind]
    names = [own.name for own in all_of]
    wanted = set().union(*(Pattern(pattern, "output or bad state").meant(names) for pattern in patterns))
    return [own for own in all_of if own.name in wanted]


class Question:
    """A question about a circuit, by the words of the command line."""

    def __init__(self, circuit: Circuit, arguments: argparse.Namespace) -> None:
        self.circuit = circuit
        self.names = names_of(circuit)
        self.properties = properties_of(circuit, arguments.ask)
        outer = [(quantifier, is_one, self.names.meant(text, True)) for quantifier, is_one, text in arguments.outer]
        once = set().union(*(names for _, is_one, names in outer if is_one))
        rows = [(quantifier, self.names.meant(text, False)) for quantifier, text in arguments.wanted]
        self.prefix = Prefix([(quantifier, names) for quantifier, _, names in outer], rows)
        self.first_values = {*self.names.free, *(name for name in self.names.inputs if name.startswith(INITIAL))}
        self.unrolled = Unrolled(circuit, arguments.steps or 1, lambda name: name in once, self.properties)
        self.roles = Roles(self, arguments.assume, arguments.demand)
        self.unrolled.demand(self.roles.demanded)
        self.encoding = Encoding(self.unrolled, self.prefix)

    def is_plain(self) -> bool:
        """Whether one output is all that the circuit has, so that nobody needs to be told what is asked."""
        return len(self.circuit.outputs) == 1 and not self.circuit.bads and not self.circuit.constraints and not self.circuit.passed_over

    def asked(self) -> str:
        """What has to hold, in one line."""
        parts = []
        for kind, one, more in (("o", "is true", "are true"), ("b", "is false", "are false")):
            names = [own.name for own in self.properties if own.kind == kind]
            all_names = [self.circuit.name(kind, place) for place in range(len(self.circuit.outputs if kind == "o" else self.circuit.bads))]
            parts += (
                [f"{shown(compressed(map(word_of, names), sizes_of(map(word_of, all_names))))} {one if len(names) == 1 else more}"] if names else []
            )
        demanded = [self.constraint(place) for place in sorted(self.roles.demanded)]
        assumed = [self.constraint(place) for place in range(len(self.circuit.constraints)) if place not in self.roles.demanded]
        parts += [f"{shown(demanded)} hold{'s' if len(demanded) == 1 else ''}"] if demanded else []
        return f"asked: {', '.join(parts)}" + (f"; as long as {shown(assumed)} hold{'s' if len(assumed) == 1 else ''}" if assumed else "")

    def constraint(self, place: int) -> str:
        return word_of(self.circuit.name("c", place))

    def not_asked(self) -> list[str]:
        """What the circuit has that nothing is asked of."""
        asked = {(own.kind, own.place) for own in self.properties}
        found = []
        for kind, count in (("o", len(self.circuit.outputs)), ("b", len(self.circuit.bads))):
            names = [word_of(self.circuit.name(kind, place)) for place in range(count) if (kind, place) not in asked]
            every = [word_of(self.circuit.name(kind, place)) for place in range(count)]
            found += [f"{KINDS[kind]}{'s' if len(names) > 1 else ''} {shown(compressed(names, sizes_of(every)))}"] if names else []
        return found + self.circuit.passed_over

    def is_existential(self, own: Input) -> bool:
        return self.prefix.quantifier(own) == EXISTS

    def shown(self, inputs: list[Input]) -> str:
        """Inputs as a part of a sentence, without their steps."""
        names = list(dict.fromkeys(word_of(own.name) for own in inputs))
        return shown(compressed(names, sizes_of(map(word_of, self.names.inputs))), NAMED)

    def warnings(self) -> Iterator[str]:
        """What may make the question another one than was meant."""
        inputs = self.encoding.inputs.values()
        free = [own for own in inputs if own.name in self.first_values and own.step in (0, None)]
        hidden = [own for own in free if not self.is_existential(own)]
        first = min(map(self.prefix.place, hidden), default=None)
        late = [own for own in inputs if first and self.is_existential(own) and self.prefix.place(own) > first and own not in free]
        if late:
            yield (
                f"{named(late[0], self.unrolled.steps)} comes after the first value of {self.shown(hidden)}, so it may depend on it; if whoever sets "
                f"it does not know that value, bind it by --blind '{word_of(late[0].name)}'"
            )
        chosen = [own for own in free if self.is_existential(own)]
        if chosen:
            yield f"the first value of {self.shown(chosen)} is existential: what is asked holds if it is well chosen, not for each"
        yield from self.roles.notes


class Roles:
    """Which constraints are assumed, and which have to hold: those that only the existential player can break are this player's duty."""

    def __init__(self, question: Question, assume: list[str], demand: list[str]) -> None:
        circuit = question.circuit
        names = [circuit.name("c", place) for place in range(len(circuit.constraints))]
        taken, wanted = (set().union(*(Pattern(pattern, "constraint").meant(names) for pattern in patterns)) for patterns in (assume, demand))
        self.demanded: set[int] = set()
        self.notes: list[str] = []
        for place, name in enumerate(names):
            if name in taken and name in wanted:
                raise finding(f"the constraint {name} is both assumed and demanded")
            if name in wanted or name not in taken and self.is_duty(question, place, word_of(name)):
                self.demanded.add(place)

    def is_duty(self, question: Question, place: int, name: str) -> bool:
        inputs = question.unrolled.inputs_of(place)
        own = [one for one in inputs if question.is_existential(one)]
        if not own:
            return False
        others = [one for one in inputs if not question.is_existential(one)]
        if others:
            raise finding(
                f"the constraint {name} depends on {question.shown(own)}, which the existential player sets, and on {question.shown(others)}, which "
                f"the other one sets: say by --demand {name} that it has to hold, or by --assume {name} that nothing is asked any more once it is "
                "false, whoever breaks it"
            )
        self.notes.append(
            f"the constraint {name} depends on {question.shown(own)} alone, which the existential player sets, so it has to hold; --assume {name} "
            "takes it for granted"
        )
        return True
