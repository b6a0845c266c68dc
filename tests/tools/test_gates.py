"""Tests formulas of gates from their texts to verified answers. usage: tests/tools/test_gates.py PROGRAM ..; tests/tools/test-tools calls it.

PROGRAM is qrp_cmd, and qrp_gates has to be beside it. Random formulas by all gates are decided by trying all values of their variables, gate by
gate, without a clause (gate_formulas.py); the solver DepQBF, if it is there, answers each by its clauses, and its proof has to be one of the gates.
The winner's circuit is played against all moves. Texts that are cut or damaged are refused by the reader of the tools as the program refuses them.
Then come the tools, which take a formula of gates where they take one in clauses, and the examples.
"""

import json
import os
import random
import shutil
import subprocess
import sys
import tempfile
from concurrent.futures import ThreadPoolExecutor
from itertools import product
from pathlib import Path
from typing import Any, Union

ROOT = Path(__file__).resolve().parents[2]
TOOLS = ROOT / "tools"
sys.path[:0] = [str(ROOT / "tests"), str(TOOLS), str(ROOT / "tests" / "tools")]
sys.dont_write_bytecode = True
from expect import expect, finish, skip  # noqa: E402
from gate_formulas import GateFormula, random_formula  # noqa: E402
from qrptools.questions.reader import QuestionFault, read_question  # noqa: E402

Program = Union[str, Path]

FORMULAS = 2000
PLAYED = 200  # of them by a circuit, against all moves
VERIFIED = 40  # of these by explain-strategy
SOLVE = ["depqbf", "--trace=qrp", "--dep-man=simple", "--no-qbce-dynamic", "--traditional-qcdcl"]
TRUTHS = {10: True, 20: False}
BITS = "#QCIR-14\nexists(h_1, h_0)\nforall(a)\nexists(7, b)\noutput(-ok)\nsum = xor(a, 7)\nboth = and(sum, h_0, -h_1)\nok = ite(both, -b, h_1)\n"
WRONG = [
    ("h_1, h_0", "h_1, h_1"),
    ("\nboth =", "\nb ="),
    ("forall(", "free("),
    ("and(sum", "exists(sum"),
    ("xor(a, 7)", "xor(a)"),
    ("-b, h_1)", "-b)"),
    ("sum = xor(a, 7)\nboth = and(sum, h_0, -h_1)", "both = and(sum, h_0, -h_1)\nsum = xor(a, 7)"),
    ("ite(both, -b, h_1)", "ite(ok, -b, h_1)"),
    ("ite(both, -b, h_1)", "ite(both, -c, ok)"),
]


class Use:
    """The programs, and a folder."""

    def __init__(self, program: Program, folder: Path) -> None:
        self.checker, self.gates, self.folder = program, str(Path(program).with_name("qrp_gates")), folder
        self.environment = {**os.environ, "QRP_CMD": program}

    def file(self, name: str, text: Union[str, bytes]) -> Path:
        path = self.folder / name
        path.write_bytes(text if isinstance(text, bytes) else text.encode())
        return path

    def ask(self, *words: object) -> tuple[Any, Any, Any]:
        """The status, the output and the errors of qrp_gates."""
        ended = subprocess.run([self.gates, *map(str, words)], capture_output=True, text=True, check=False)
        return ended.returncode, ended.stdout, ended.stderr

    def tool(self, name: str, *words: object) -> tuple[Any, Any, Any]:
        ended = subprocess.run(
            [sys.executable, TOOLS / name, *map(str, words)],
            capture_output=True,
            text=True,
            env=self.environment,
            stdin=subprocess.DEVNULL,
            check=False,
        )
        return ended.returncode, ended.stdout, ended.stderr


def solved(use: Use, seed: int) -> tuple[Any, Any, Any, Any, Any, Any]:
    """What is found of a random formula: its truth by all values, what the tools read, the solver's status, and the line of its proof."""
    text = random_formula(random.Random(seed))
    question, clauses, trace = (use.folder / f"{seed}.{kind}" for kind in ("qcir", "qdimacs", "qrp"))
    question.write_text(text)
    formula, found = GateFormula(text), read_question(text.encode())
    names = [name for _, name in formula.prefix] + [name for name, _, _ in formula.gates]
    is_read = found.names[1:] == names and list(found.gates) == list(range(len(formula.prefix) + 1, len(names) + 1))
    with open(clauses, "wb") as out:
        made = subprocess.run([use.gates, "clauses", question], stdout=out, stderr=subprocess.PIPE, check=False)
    status, line = None, ""
    if made.returncode == 0 and shutil.which("depqbf"):
        with open(trace, "wb") as out:
            status = subprocess.run([*SOLVE, clauses], stdout=out, stderr=subprocess.DEVNULL, check=False).returncode
        line = use.ask("check", question, trace)[1].strip()
    return text, formula.truth(), is_read, made, status, line


def try_random(use: Use) -> None:
    """Random formulas: the solver's answer by the clauses, and the verdict of its proof, are what all values say."""
    with ThreadPoolExecutor(4) as pool:
        found = list(pool.map(lambda seed: solved(use, seed), range(FORMULAS)))
    for seed, (text, truth, is_read, made, status, line) in enumerate(found):
        expect(f"formula {seed}: its names and gates", is_read, text)
        expect(f"formula {seed}: its clauses", made.returncode == 0, (made, text))
        if shutil.which("depqbf"):
            answer = (TRUTHS.get(status), line)
            expect(f"formula {seed}: the answer", answer == (truth, f"VERIFIED {str(truth).lower()}"), (truth, answer, text))
    if not shutil.which("depqbf"):
        skip("the solver's answers on formulas of gates", "there is no depqbf")
    truths = [truth for _, truth, *_ in found]
    expect("there are many formulas of both truths", min(truths.count(True), truths.count(False)) > FORMULAS // 4, truths.count(True))


def outputs_of(text: str, values: Any) -> dict[str, Any]:
    """The values of the outputs of a circuit in ASCII AIGER by their names, if the inputs with these names have these values."""
    lines = text.split("\n")
    _, inputs, _, outputs, gates = map(int, lines[0].split()[1:])
    symbols = dict(line.split(" ", 1) for line in lines[1 + inputs + outputs + gates :] if line[:1] in ("i", "o"))
    known = {0: False}
    known.update((int(line), values[symbols[f"i{place}"]]) for place, line in enumerate(lines[1 : 1 + inputs]))
    value = lambda literal: known[literal & ~1] != bool(literal & 1)
    for line in lines[1 + inputs + outputs : 1 + inputs + outputs + gates]:
        gate, one, other = map(int, line.split())
        known[gate] = value(one) and value(other)
    return {symbols[f"o{place}"]: value(int(line)) for place, line in enumerate(lines[1 + inputs : 1 + inputs + outputs])}


def try_played(use: Use) -> None:
    """The winner's circuit has an output for each of the winner's variables and for no gate, and wins against all moves."""
    if not shutil.which("depqbf"):
        skip("circuits of formulas of gates", "there is no depqbf")
        return

    def shown(seed: int) -> Any:
        return use.tool("explain-strategy", "--format", "aag", *(use.folder / f"{seed}.{kind}" for kind in ("qcir", "qrp")))

    with ThreadPoolExecutor(4) as pool:
        circuits = list(pool.map(shown, range(PLAYED)))
    for seed, (status, text, said) in enumerate(circuits):
        formula = GateFormula((use.folder / f"{seed}.qcir").read_text())
        truth = formula.truth()
        own, other = ([name for quantifier, name in formula.prefix if (quantifier == "e") == (truth == is_own)] for is_own in (True, False))
        if not expect(f"formula {seed}: a circuit", status == 0, said):
            continue
        moves = [dict(zip(other, values)) for values in product((False, True), repeat=len(other))]
        answers = [outputs_of(text, {**dict.fromkeys(own, False), **values}) for values in moves]
        is_whole = all(sorted(answer) == sorted(own) for answer in answers)
        wins = is_whole and all(formula.holds({**values, **answer}) == truth for values, answer in zip(moves, answers))
        is_causal = all(sees_only_before(formula, moves, answers, name) for name in own) if is_whole else False
        expect(f"formula {seed}: the circuit wins against all moves", wins and is_causal, (text, formula.prefix))
        if seed < VERIFIED:
            words = ["--circuit", use.file("cut.aag", text), use.folder / f"{seed}.qcir"]
            ended = use.tool("explain-strategy", "--verify", *words)
            expect(f"formula {seed}: the circuit without gates is verified", ended[0] == 0, (ended, text))


def sees_only_before(formula: GateFormula, moves: Any, answers: Any, name: str) -> bool:
    """Whether an output has one value for all moves that have the same values before it."""
    order = [variable for _, variable in formula.prefix]
    before = [variable for variable in order[: order.index(name)] if variable in moves[0]]
    seen: dict[Any, Any] = {}
    return all(seen.setdefault(tuple(move[one] for one in before), answer[name]) == answer[name] for move, answer in zip(moves, answers))


def said_of(data: bytes) -> str:
    """What the reader of the tools says of a text, as the program would."""
    try:
        read_question(data)
        return ""
    except QuestionFault as fault:
        return f"REFUSED formula {fault.name} line {fault.line}\n"


def try_damaged(use: Use) -> None:
    """Texts that are cut at each place, and texts with a byte more, less or another, are refused as the program refuses them."""
    texts = [BITS, *(random_formula(random.Random(-seed)) for seed in range(1, 5))]
    damaged = [text.encode()[:end] for text in texts for end in range(len(text) + 1)]
    pick, marks = random.Random(3), b"(),=-# \t\r\nag1_;\xff\0"
    for text in texts * 60:
        data, place = text.encode(), pick.randrange(len(text))
        byte = bytes([pick.choice(marks)])
        damaged.append(pick.choice((data[:place] + byte + data[place + 1 :], data[:place] + byte + data[place:], data[:place] + data[place + 1 :])))
    damaged += [BITS.replace(*wrong).encode() for wrong in WRONG]
    paths = [use.file(f"damaged{place}", data) for place, data in enumerate(damaged)]
    with ThreadPoolExecutor(4) as pool:
        answers = list(pool.map(lambda path: use.ask("clauses", path), paths))
    for data, (status, _, said) in zip(damaged, answers):
        expect(f"a damaged text: {data[:60]!r}", said == said_of(data) and status == (2 if said else 0), (data, said, said_of(data)))
    kinds = {answer[2].split()[2] for answer in answers if answer[2]}
    expect("they are refused in many ways", kinds == {"Q2", "Q3", "Q4", "Q5", "Q6", "Q7", "Q8", "Q9", "Q12"}, kinds)


def try_tools(use: Use) -> None:
    """The tools take a formula of gates, and speak of its names."""
    question = use.file("bits.qcir", BITS)
    clauses = use.file("bits.qdimacs", use.ask("clauses", question)[1])
    if not shutil.which("depqbf"):
        skip("the tools on a formula of gates", "there is no depqbf")
        return
    trace = use.folder / "bits.qrp"
    ended = use.tool("solve", "--play", "--keep", trace, question)
    expect("solve", ended[0] == 10 and ended[1].startswith("s cnf 1 8 "), ended)
    expect("solve: the moves are those of names, without gates", "by the proof: -h_1 " in ended[1] and "sum" not in ended[1], ended)
    expect("solve: the values", [line for line in ended[1].splitlines() if line[0] == "V"][:1] == ["V -1 0"], ended)
    ended = use.tool("play", "--reply", "a", question, trace)
    told = ended[1].splitlines()
    expect("play", ended[0] == 0 and told[0] == "VERIFIED true: the existential player wins" and "the matrix holds" in told[-1], ended)
    expect("play: gates are not told one by one", any(", and 3 gates as defined" in line and "both" not in line for line in told), ended)
    ended = use.tool("play", "--reply", "a=0", question, trace)
    expect("play: a name with a value", ended[0] == 0, ended)
    ended = use.tool("play", "--reply", "5", question, trace)
    expect("play: a number that is no name", ended[0] == 2 and "'5' is not a literal" in ended[2] and "has the variables a" in ended[2], ended)
    names = use.file("names", "1 h[1]\n2 h[0]\n3 in[0]\n")
    ended = use.tool("play", "--names", names, "--reply", "in[0]", question, trace)
    expect("play: other names", ended[0] == 0 and "by the proof: -h[1] " in ended[1] and "as numbers: h=" in ended[1], ended)
    ended = use.tool("explain-strategy", question, trace)
    expect("explain-strategy", ended[0] == 0 and "    h_1 = false\n" in ended[1] and ": 4 outputs, 1 input, " in ended[1], ended)
    circuit = use.file("bits.aag", use.tool("explain-strategy", "--format", "aag", question, trace)[1])
    ended = use.tool("play", "--strategy", circuit, "--reply", "-a", question)
    expect("play: a circuit without gates", ended[0] == 0 and ended[1].endswith("the existential player has won\n"), ended)
    for ending in "aag", "aig":
        own = use.folder / f"solved.{ending}"
        ended = use.tool("solve", "--strategy", own, question)
        shown = use.tool("explain-strategy", "--circuit", own, question)
        expect(f"solve --strategy: {ending}", ended[0] == 10 and shown[1] == use.tool("explain-strategy", question, trace)[1], (ended, shown))
    made = use.ask("strategy", question, trace)[1]
    expect("solve --strategy: the circuit of qrp_gates", (use.folder / "solved.aag").read_text() == made and "\ni0 a\n" in made, made)
    names = use.file("swapped", "1 a\n3 h_1\n")
    ended = use.tool("explain-strategy", "--names", names, question, trace)
    expect("explain-strategy: the names of other variables", ended[0] == 0 and "    a = false\n" in ended[1], ended)
    ended = use.tool("explain-strategy", "--circuit", circuit, question)
    expect("explain-strategy: a circuit without gates", ended[1] == use.tool("explain-strategy", question, trace)[1], ended)
    ended = use.tool("explain-strategy", "--verify", question, trace)
    expect("explain-strategy --verify", ended[0] == 0 and ended[1].startswith("the circuit wins: "), ended)
    ended = use.tool("explain", question)
    expect(
        "explain",
        ended[:2] == (0, "qrp_gates prints no line.\n\nThe formula is closed and has no fault: it binds 5 variables, and has 3 gates.\n"),
        ended,
    )
    damaged = use.file("damaged.qrp", trace.read_text().replace("r SAT", "r UNSAT"))
    line = use.ask("check", question, damaged)[1]
    ended = use.tool("explain", question, damaged)
    expect(
        "explain: a refusal", ended[0] == 0 and ended[1].startswith(f"qrp_gates says: {line}") and "`qrp_gates clauses FORMULA`" in ended[1], ended
    )
    ended = use.tool("explain", "--json", use.file("bad.qcir", BITS.replace("both)", "bath)").replace("ite(both", "ite(bath")), trace)
    found = json.loads(ended[1]) if ended[0] == 0 else {}
    expect("explain: a fault as JSON", (found.get("fault"), found.get("line"), found.get("column")) == ("Q12", 8, 10), ended)
    ended = use.tool("explain", "--mend", question)
    expect("explain --mend", ended[0] == 2 and "--mend are for formulas in QDIMACS" in ended[2], ended)
    try_checks(use, question, clauses, trace, damaged, line)
    opposite = use.file("false.qcir", BITS.replace("exists(h_1", "forall(h_1").replace("output(-ok)", "output(ok)").replace("forall(a)", "exists(a)"))
    ended = use.tool("solve", "--play", opposite)
    expect("solve: a false one", ended[0] == 20 and ended[1].startswith("s cnf 0 8 ") and "by the proof: -h_1 " in ended[1], ended)


def try_checks(use: Use, question: Any, clauses: Any, trace: Any, damaged: Path, line: str) -> None:
    """check and check-many, also of compressed files, and of a program that is not there."""
    expect("check", use.tool("check", question, trace)[:2] == (0, "VERIFIED true\n"))
    ended = use.tool("check", question, damaged)
    expect("check: a refusal", ended[1] == line and "`qrp_gates clauses FORMULA`" in ended[2] and ended[0] == 1, ended)
    packed = Path(f"{question}.gz")
    subprocess.run(["gzip", "-k", question], check=True)
    expect("check: a compressed one", use.tool("check", packed, trace)[:2] == (0, "VERIFIED true\n"))
    use.environment["QRP_GATES"] = "no_such_program"
    ended = use.tool("check", question, trace)
    expect("check: no program", ended[0] == 3 and "the program no_such_program cannot be run" in ended[2], ended)
    del use.environment["QRP_GATES"]
    if not shutil.which("parallel"):
        skip("check-many on formulas of gates", "there is no GNU parallel")
        return
    rows = [("gates", question, trace), ("packed", packed, trace), ("clauses", clauses, trace), ("damaged", question, damaged)]
    proofs = use.file("list", "".join("\t".join(map(str, row)) + "\n" for row in rows))
    ended = use.tool("check-many", proofs)
    found = [row.split("\t")[1] for row in ended[1].splitlines()]
    expect("check-many", found == [*["VERIFIED true"] * 3, line.strip()] and ended[0] == 1, ended)


def try_examples(use: Use) -> None:
    """The stored formulas of gates are those that make them, and their stored proofs show what all values say."""
    folder, examples = ROOT / "examples" / "gates", {"blind-box": False, "eight-matches": False, "arbiter": True}
    expect("examples: all are known", {path.stem for path in folder.glob("*.qcir")} == set(examples))
    for name, truth in examples.items():
        path = folder / f"{name}.qcir"
        ended = use.ask("check", path, folder / f"{name}.qrp")
        expect(f"example {name}: its proof", ended[:2] == (0, f"VERIFIED {str(truth).lower()}\n"), ended)
        expect(f"example {name}: all values", GateFormula(path.read_text()).truth() == truth)
    words = ["--qcir", "--steps", "3", "--forall", "r*", "--exists", "g*", ROOT / "examples" / "arbiter" / "arbiter.aag"]
    expect("example arbiter: as from-aiger makes it", use.tool("from-aiger", *words)[1] == (folder / "arbiter.qcir").read_text())
    made = subprocess.run([folder / "make-matches"], capture_output=True, text=True, check=False).stdout
    expect("example eight-matches: as its script makes it", made == (folder / "eight-matches.qcir").read_text())


def try_verilog(use: Use) -> None:
    """From Verilog to a controller, which yosys confirms in the Verilog itself; one with an output turned is refused."""
    if not shutil.which("yosys") or not shutil.which("depqbf"):
        skip("a controller in Verilog", "there is no yosys, or no depqbf")
        return
    source, aiger = ROOT / "examples" / "arbiter" / "arbiter.v", use.folder / "watched.aig"
    script = f"read_verilog -formal {source}; synth -flatten -top arbiter; async2sync; dffunmap; aigmap; write_aiger -symbols -zinit {aiger}"
    subprocess.run(["yosys", "-q", "-p", script], capture_output=True, check=False)
    question = use.file("watched.qcir", use.tool("from-aiger", "--qcir", "--steps", "3", "--forall", "r*", "--exists", "g*", aiger)[1])
    trace = use.folder / "watched.qrp"
    use.tool("solve", "--keep", trace, question)
    controller = use.tool("explain-strategy", "--format", "verilog", question, trace)[1]
    for name, text, wanted in (("right", controller, True), ("wrong", controller.replace("assign ga_1 = ", "assign ga_1 = ~"), False)):
        files = f"{source} {use.file(f'{name}.v', text)} {ROOT}/examples/gates/three-steps.v"
        script = f"read_verilog -formal {files}; prep -flatten -top three_steps; sat -verify -seq 3 -prove-asserts"
        ended = subprocess.run(["yosys", "-q", "-p", script], capture_output=True, text=True, check=False)
        is_shown = ended.returncode == 0 if wanted else "proof did fail" in ended.stdout + ended.stderr
        expect(f"the controller in Verilog: {name}", is_shown, (ended, text))


def main() -> int:
    with tempfile.TemporaryDirectory() as name:
        use = Use(os.path.abspath(sys.argv[1]), Path(name))
        if not Path(use.gates).is_file():
            skip("formulas of gates", f"there is no {use.gates}")
            return finish(0)
        for case in try_random, try_played, try_damaged, try_tools, try_examples, try_verilog:
            case(use)
    return finish(7908)


if __name__ == "__main__":
    sys.exit(main())
