"""Writes a strategy for readers and for other programs. A part of tools/explain-strategy. Each format is a function that gives the lines."""

import re
from collections.abc import Iterator
from typing import Callable

from qrptools.command import counted, finding
from qrptools.formula import ADJECTIVES, Formula
from qrptools.names import Names
from qrptools.strategies.expressions import Expressions, Style
from qrptools.strategies.labels import Labels
from qrptools.strategies.strategy import Strategy

COLUMNS = 8  # inputs of a table
WIDTH = 100  # of a line of BLIF
SIMPLE = re.compile("[A-Za-z_][A-Za-z0-9_]*", re.ASCII)
MODULE = "strategy"
BUSES = "verilog-buses"  # the format whose interface does not change with the answer
# Words that are no names in Verilog without a backslash: the keywords of SystemVerilog (IEEE 1800-2017, annex B), which has those of Verilog.
KEYWORDS = frozenset(
    """accept_on alias always always_comb always_ff always_latch and assert assign assume automatic before begin bind bins binsof bit break
    buf bufif0 bufif1 byte case casex casez cell chandle checker class clocking cmos config const constraint context continue cover
    covergroup coverpoint cross deassign default defparam design disable dist do edge else end endcase endchecker endclass endclocking
    endconfig endfunction endgenerate endgroup endinterface endmodule endpackage endprimitive endprogram endproperty endsequence
    endspecify endtable endtask enum event eventually expect export extends extern final first_match for force foreach forever fork
    forkjoin function generate genvar global highz0 highz1 if iff ifnone ignore_bins illegal_bins implements implies import incdir include
    initial inout input inside instance int integer interconnect interface intersect join join_any join_none large let liblist library
    local localparam logic longint macromodule matches medium modport module nand negedge nettype new nexttime nmos nor noshowcancelled
    not notif0 notif1 null or output package packed parameter pmos posedge primitive priority program property protected pull0 pull1
    pulldown pullup pulsestyle_ondetect pulsestyle_onevent pure rand randc randcase randsequence rcmos real realtime ref reg reject_on
    release repeat restrict return rnmos rpmos rtran rtranif0 rtranif1 s_always s_eventually s_nexttime s_until s_until_with scalared
    sequence shortint shortreal showcancelled signed small soft solve specify specparam static string strong strong0 strong1 struct super
    supply0 supply1 sync_accept_on sync_reject_on table tagged task this throughout time timeprecision timeunit tran tranif0 tranif1 tri
    tri0 tri1 triand trior trireg type typedef union unique unique0 unsigned until until_with untyped use uwire var vectored virtual void
    wait wait_order wand weak weak0 weak1 while wildcard wire with within wor xnor xor""".split()
)


def text(strategy: Strategy, names: Names, formula: Formula) -> Iterator[str]:
    """Each output as an expression, block by block."""
    labels, expressions = Labels(strategy, names, ""), Expressions(strategy)
    style = Style(("!", "&", "|"), ("false", "true"), labels.wire)
    sizes = [counted(len(strategy.outputs), "output"), counted(len(strategy.inputs), "input"), counted(len(strategy.gates), "gate")]
    yield f"the {ADJECTIVES[strategy.winner]} player's strategy: {', '.join(sizes)}"
    block = 0
    constants: list[int] = []
    for variable, new, text in expressions.definitions(style):
        if formula.places[variable].block != block:
            yield from numbers(constants, names)
            block, constants = formula.places[variable].block, []
            yield f"block {block} ({ADJECTIVES[strategy.winner]})"
        yield from (f"    {labels.gate(gate)} = {own}" for gate, own in new)
        literal = strategy.outputs[variable]
        yield f"    {labels.variables[variable]} = {text}"
        if literal < 2:
            constants.append(variable if literal else -variable)
    yield from numbers(constants, names)


def numbers(constants: list[int], names: Names) -> Iterator[str]:
    """The buses of which all bits are constants, as numbers."""
    found = " ".join(f"{bus}={number}" for bus, number in names.values(constants))
    if found:
        yield f"    as numbers: {found}"


class Numbered:
    """A circuit with the numbers of AIGER: the inputs come first, and then the gates, each after its inputs."""

    def __init__(self, strategy: Strategy) -> None:
        self.strategy = strategy
        self.wires = {0: 0, **{literal: 2 * place for place, literal in enumerate((*strategy.inputs, *strategy.gates), 1)}}

    def wire(self, literal: int) -> int:
        return self.wires[literal & ~1] ^ (literal & 1)

    def header(self, word: str) -> str:
        own = self.strategy
        return f"{word} {len(self.wires) - 1} {len(own.inputs)} 0 {len(own.outputs)} {len(own.gates)}"

    def outputs(self) -> Iterator[str]:
        return (str(self.wire(literal)) for literal in self.strategy.outputs.values())

    def gates(self) -> Iterator[tuple[int, int, int]]:
        for gate, both in self.strategy.gates.items():
            one, other = sorted(map(self.wire, both), reverse=True)
            yield self.wire(gate), one, other

    def symbols(self, names: Names) -> Iterator[str]:
        for kind, variables in ("i", self.strategy.inputs.values()), ("o", self.strategy.outputs):
            yield from (f"{kind}{place} {names.name(variable)}" for place, variable in enumerate(variables))


def aag(strategy: Strategy, names: Names, _formula: Formula) -> Iterator[str]:
    """The circuit in AIGER's ASCII format, with names as symbols."""
    circuit = Numbered(strategy)
    yield circuit.header("aag")
    yield from (str(circuit.wire(literal)) for literal in strategy.inputs)
    yield from circuit.outputs()
    yield from (" ".join(map(str, gate)) for gate in circuit.gates())
    yield from circuit.symbols(names)


def aig(strategy: Strategy, names: Names) -> bytes:
    """The circuit in AIGER's binary format, with names as symbols."""
    circuit = Numbered(strategy)
    lines = "".join(f"{line}\n" for line in (circuit.header("aig"), *circuit.outputs()))
    gates = bytearray()
    for gate, one, other in circuit.gates():
        for number in gate - one, one - other:
            while number > 127:
                gates.append(number & 127 | 128)
                number >>= 7
            gates.append(number)
    symbols = "".join(f"{line}\n" for line in circuit.symbols(names))
    return lines.encode() + bytes(gates) + symbols.encode(errors="surrogateescape")


def verilog(strategy: Strategy, names: Names, _formula: Formula) -> Iterator[str]:
    """A module of Verilog with these inputs and outputs."""
    labels = Labels(strategy, names, spelled=identifier)
    ports = [*(f"input {label}" for label in labels.inputs()), *(f"output {label}" for label in labels.outputs())]
    return module(strategy, labels, ports)


def verilog_buses(strategy: Strategy, names: Names, _formula: Formula) -> Iterator[str]:
    """The same, with the bits of a bus as one port."""
    labels = Labels(strategy, names, spelled=identifier)
    ports: dict[str, None] = {}  # in the order of their first bits
    for direction, variables in ("input", set(strategy.inputs.values())), ("output", set(strategy.outputs)):
        own = {
            variable: bus
            for bus, bits in names.buses.items()
            if bus not in names.variables and variables.issuperset(bits.values())
            for variable in bits.values()
        }
        for variable in [*strategy.inputs.values(), *strategy.outputs]:
            if variable in own:
                bits = names.buses[own[variable]]
                place = next(place for place, bit in bits.items() if bit == variable)
                labels.variables[variable] = f"{identifier(own[variable])}[{place}]"
                ports[f"{direction} [{max(bits)}:0] {identifier(own[variable])}"] = None
            elif variable in variables:
                ports[f"{direction} {labels.variables[variable]}"] = None
    return module(strategy, labels, list(ports))


def module(strategy: Strategy, labels: Labels, ports: list[str]) -> Iterator[str]:
    """A module with these ports."""
    expressions = Expressions(strategy)
    style = Style(("~", "&", "|"), ("1'b0", "1'b1"), labels.wire)
    yield f"module {MODULE} ("
    yield from (f"    {port}{',' if place < len(ports) else ''}" for place, port in enumerate(ports, 1))
    yield ");"
    for variable, new, text in expressions.definitions(style):
        yield from (f"    wire {labels.gate(gate)} = {own};" for gate, own in new)
        yield f"    assign {labels.variables[variable]} = {text};"
    yield "endmodule"


def identifier(name: str) -> str:
    """A name as Verilog has it: if it is not a simple one, between a backslash and a blank."""
    return name if SIMPLE.fullmatch(name) and name not in KEYWORDS else f"\\{name} "


def blif(strategy: Strategy, names: Names, _formula: Formula) -> Iterator[str]:
    """A model in Berkeley's format BLIF, with a table for each gate."""
    labels = Labels(strategy, names, spelled=word)
    yield f".model {MODULE}"
    yield from wrapped([".inputs", *labels.inputs()])
    yield from wrapped([".outputs", *labels.outputs()])
    for gate, both in strategy.gates.items():
        yield from function(both, labels.gate(gate), labels)
    for variable, literal in strategy.outputs.items():
        yield from function((literal,), labels.variables[variable], labels)
    yield ".end"


def function(given: tuple[int, ...], label: str, labels: Labels) -> Iterator[str]:
    """The table of the conjunction of some literals. One that is false has no row."""
    is_false = 0 in given or any(literal ^ 1 in given for literal in given)
    literals = [] if is_false else list(dict.fromkeys(literal for literal in given if literal > 1))
    yield " ".join([".names", *(labels.wire(literal & ~1) for literal in literals), label])
    if not is_false:
        yield " ".join(filter(None, ["".join("10"[literal & 1] for literal in literals), "1"]))


def word(name: str) -> str:
    """A name without what means something in BLIF."""
    return re.sub(r"[^!-~]|[#\\\"='`]", "_", name)


def wrapped(words: list[str]) -> Iterator[str]:
    """A line of BLIF, with a backslash before each line end in it."""
    line = words[0]
    for more in words[1:]:
        if len(line) + len(more) > WIDTH:
            yield f"{line} \\"
            line = "   "
        line += f" {more}"
    yield line


def table(strategy: Strategy, names: Names, _formula: Formula) -> Iterator[str]:
    """The values of the outputs for all values of the inputs that they depend on."""
    strategy = strategy.part(strategy.outputs)
    count = len(strategy.inputs)
    if count > COLUMNS:
        raise finding(f"the outputs depend on {count} inputs, and a table has at most {COLUMNS}: choose outputs by --only or --block")
    rows = 1 << count
    columns = {variable: alternating(rows, rows >> place) for place, variable in enumerate(strategy.inputs.values(), 1)}
    values = {**columns, **strategy.run(columns, (1 << rows) - 1)}
    labels = Labels(strategy, names, "")
    shown = lambda texts: " | ".join(" ".join(part) for part in (texts[:count], texts[count:]) if part)
    yield shown(list(map(labels.variables.__getitem__, values)))
    for row in range(rows):
        yield shown([str(bits >> row & 1).rjust(len(labels.variables[variable])) for variable, bits in values.items()])


def alternating(rows: int, run: int) -> int:
    """A bit for each row, the first the lowest: so many zeros, as many ones, and so on."""
    return sum(1 << row for row in range(rows) if row & run)


def dot(strategy: Strategy, names: Names, _formula: Formula) -> Iterator[str]:
    """A graph for Graphviz with the inputs that are used: an edge with a circle at its end is a negation."""
    strategy = strategy.part(strategy.outputs)
    labels = Labels(strategy, names, "")
    outputs = {f"o{variable}": [literal] for variable, literal in strategy.outputs.items()}
    ends = {**{f"g{gate // 2}": [*both] for gate, both in strategy.gates.items()}, **outputs}
    yield f"digraph {MODULE} {{"
    yield "    rankdir=LR;"
    if any(literal < 2 for literals in ends.values() for literal in literals):
        yield "    false [shape=plaintext];"
    yield from (node(f"i{literal // 2}", label, "box") for literal, label in zip(strategy.inputs, labels.inputs()))
    yield from (node(f"g{gate // 2}", "&", "circle") for gate in strategy.gates)
    yield from (node(end, label, "doubleoctagon") for end, label in zip(outputs, labels.outputs()))
    for end, literals in ends.items():
        for literal in literals:
            kind = "i" if literal & ~1 in strategy.inputs else "g"
            start = f"{kind}{literal // 2}" if literal > 1 else "false"
            yield f"    {start} -> {end}{' [arrowhead=odot]' if literal & 1 else ''};"
    yield "}"


def node(name: str, label: str, shape: str) -> str:
    quoted = label.replace("\\", "\\\\").replace('"', '\\"')
    return f'    {name} [label="{quoted}", shape={shape}];'


FORMATS: dict[str, Callable[[Strategy, Names, Formula], Iterator[str]]] = {
    "text": text,
    "aag": aag,
    "verilog": verilog,
    BUSES: verilog_buses,
    "blif": blif,
    "table": table,
    "dot": dot,
}
