"""The page docs/FAST.md, made from the files of bench/switches and from docs/fast.rows, which has what was measured."""

import os
import sys
from pathlib import Path

from crates import Stopped
from fast_ways import PROGRAM, ROOT, FastWay, switched
from inputs import INPUTS
from rooms import Files

PAGE = ROOT / "docs" / "FAST.md"
ROWS = ROOT / "docs" / "fast.rows"
WIDTH = 142
SHORT = 0.02  # seconds: less than that says nothing of time
# How a row names the program without all fast ways.
PLAIN = "plain"
# The rooms of the house beside those of the checker, by the crates at which each begins. What the rooms before need is none of the next ones.
ROOMS = {
    "strategies": ["qrp_strategy"],
    "questions in gates": ["qcir", "gate_verify", "gate_strategy", "qrp_gates"],
    "the library": ["qrp_c"],
    "completeness": ["qbf_completeness", "qrp_completeness"],
}
CHECKER, FAST, LINEAR, REST = "the checker", "fast ways", "what keeps a check linear", "laws, worked rows and tests"
HEAD = """# lines NAME LINES FILES: what is behind the doors of a fast way, or in a room
# run NAMES INPUT INSTRUCTIONS-WITHOUT INSTRUCTIONS SECONDS-WITHOUT SECONDS: by bench/without
# machine WORDS: where the last run was, and the load of that minute
"""


# ---- rows


def rows(kind: str) -> list[list[str]]:
    """The rows of a kind, without that word."""
    lines = ROWS.read_text(encoding="utf-8").splitlines() if ROWS.exists() else []
    return [line.split("\t")[1:] for line in lines if line.split("\t")[0] == kind]


def put_row(kind: str, row: list[str], keys: int) -> None:
    """Puts a row in place of that of the same first columns."""
    text = ROWS.read_text(encoding="utf-8") if ROWS.exists() else HEAD
    same = "\t".join([kind, *row[:keys]]) + "\t" * (keys > 0)
    lines = [line for line in text.splitlines() if not line.startswith(same)]
    ROWS.write_text("\n".join([*lines, "\t".join([kind, *row])]) + "\n", encoding="utf-8")


def store_run(row: list[str]) -> None:
    """Keeps the figures of a run, and the machine."""
    put_row("run", row, 2)
    with open("/proc/cpuinfo", encoding="utf-8") as lines:
        model = next((line.partition(":")[2].strip() for line in lines if line.startswith("model name")), "an unknown processor")
    put_row("machine", [f"{len(os.sched_getaffinity(0))} processors ({model}), and a load of {os.getloadavg()[0]:.0f}"], 0)


def ratio(without: str, of_all: str) -> str:
    """How many times, with three digits."""
    value = float(without) / max(float(of_all), 0.001)
    digits = sum(value < least for least in (9.995, 99.95))
    return f"{value:.{digits}f}"


# ---- lines


def doors(way: FastWay, known: dict[str, FastWay]) -> set[Path]:
    """The doors of a fast way, and of those that it carries."""
    carried = [file for other in known.values() if other.under == way.name for file in doors(other, known)]
    return {ROOT / "crates" / name for name in way.doors} | set(carried)


def all_lines(known: dict[str, FastWay]) -> dict[str, tuple[int, int]]:
    """The lines and the files behind the doors of each fast way, and in each room."""
    files = Files(ROOT)
    program = files.of_crate(PROGRAM)
    found = {name: files.behind(program, doors(way, known)) for name, way in known.items()}
    checker = files.needed(program)
    fast = files.behind(program, {door for way in known.values() if not way.keeps_linear for door in doors(way, {way.name: way})})
    both = files.behind(program, {door for way in known.values() for door in doors(way, known)})
    found |= {CHECKER: checker - both, LINEAR: both - fast, FAST: fast}
    entered = set(checker)
    for room, crates in ROOMS.items():
        needed = files.needed({file for crate in crates for file in files.of_crate(crate)})
        found[room] = needed - entered
        entered |= needed
    found[REST] = set(files.texts) - entered
    return {name: (files.lines(some), len(some)) for name, some in found.items()}


def store_lines(known: dict[str, FastWay]) -> None:
    """Counts the lines anew, and keeps them."""
    for name, (lines, files) in all_lines(known).items():
        put_row("lines", [name, str(lines), str(files)], 1)


# ---- the page


def wrapped(text: str, inset: str = "", front: str = "") -> str:
    """The text in lines of the page's width, after `front`; the lines after the first are set in."""
    lines, line = [], front
    for word in text.split(" "):
        if len(line) + 1 + len(word) > WIDTH:
            lines.append(line)
            line = f"{inset}{word}"
        else:
            line = f"{line} {word}" if line.strip() and line != front else f"{line}{word}"
    return "\n".join([*lines, line])


def depth(way: FastWay, known: dict[str, FastWay]) -> int:
    """How many of its own kind carry a fast way."""
    return 1 + depth(known[way.under], known) if way.under and known[way.under].keeps_linear == way.keeps_linear else 0


def counted(name: str) -> str:
    """The lines of a fast way or of a room in words."""
    found = [row[1:] for row in rows("lines") if row[0] == name]
    return f"{int(found[0][0]):,} lines in {found[0][1]} files" if found else "lines not counted"


def behind(way: FastWay) -> str:
    """What is behind the doors of a fast way, in words; nothing, if it has no file of its own."""
    files = [Path(name) for name in way.doors]
    names = ", ".join(f"`{file.name}`" + (f" of `{file.parts[0]}`" if file.parts[0] != way.crate else "") for file in files)
    return f" Behind {names}: {counted(way.name)}." if files else ""


def rooms() -> str:
    """The rooms of the house and their sizes."""
    names = [CHECKER, LINEAR, FAST, *ROOMS, REST]
    return "\n".join(["| Room | Size |", "|---|---|", *(f"| {name} | {counted(name)} |" for name in names)])


def item(way: FastWay, known: dict[str, FastWay]) -> str:
    """A point of the tree."""
    front = "  " * depth(way, known)
    places = ", ".join(f"`{place}`" for place in switched(way))
    says = f"{way.says[:1].upper()}{way.says[1:]}. Switch `{way.name}`: {places} of `{way.crate}`.{behind(way)}"
    return wrapped(f"**{way.title[:1].upper()}{way.title[1:]}.** {says}", front + "  ", f"{front}- ")


def figures(way: FastWay, known: dict[str, FastWay]) -> dict[str, list[str]]:
    """The rows of the runs without a fast way, by input: those in which no other one counts that is out of use there too."""
    found = {}
    for names, name, *row in rows("run"):
        others = [known[other] for other in names.split("+") if other in known and other != way.name]
        if way.name in names.split("+") and name in way.inputs and not any(name in other.inputs + other.also for other in others):
            found[name] = row
    return found


def ratios(row: list[str]) -> str:
    """The instructions and the CPU time without a fast way, as those of the program; no time if that is too short to tell."""
    return ratio(row[0], row[1]) + (f" ({ratio(row[2], row[3])})" if float(row[3]) >= SHORT else "")


def price(way: FastWay, known: dict[str, FastWay]) -> str:
    """A row of the prices."""
    found = figures(way, known)
    said = ", ".join(f"{name} {ratios(found[name])}" for name in INPUTS if name in found) or "not measured"
    return f"| {'– ' * depth(way, known)}{way.title} | {said} |"


def by_price(known: dict[str, FastWay]) -> dict[str, FastWay]:
    """The fast ways in the order of the tree: of those that one carries the dearest first, with what it carries itself."""
    found: dict[str, FastWay] = {}

    def most(way: FastWay) -> float:
        own = [float(row[0]) / float(row[1]) for row in figures(way, known).values()]
        return max([0, *own, *(most(below) for below in known.values() if below.under == way.name)])

    def put(under: str) -> None:
        for way in sorted((below for below in known.values() if below.under == under), key=most, reverse=True):
            found[way.name] = way
            put(way.name)

    put("")
    return found


def table(ways: list[FastWay], known: dict[str, FastWay]) -> str:
    head = "| Without | Instructions, and in brackets CPU time; of the program they are 1 |\n|---|---|\n"
    return head + "\n".join(price(way, known) for way in ways)


def plain_prices() -> str:
    """The figures of the plain program."""
    found = {name: row for names, name, *row in rows("run") if names == PLAIN}
    said = ", ".join(f"{name} {ratios(found[name])}" for name in INPUTS if name in found)
    return f"On these inputs it takes, in the same terms: {said}." if said else "It was not measured."


def not_measured(known: dict[str, FastWay]) -> str:
    """Which fast ways have no figures on some of their inputs."""
    left = []
    for way in known.values():
        inputs = [name for name in way.inputs if name not in figures(way, known)]
        if inputs:
            left.append(way.title + (f" ({', '.join(inputs)})" if len(inputs) < len(way.inputs) else ""))
    return f"Not measured in these runs: {'; '.join(left)}." if left else ""


def text(known: dict[str, FastWay]) -> str:
    """The text of the page."""
    known_rows(known)
    known = by_price(known)
    fast = [way for way in known.values() if not way.keeps_linear]
    linear = [way for way in known.values() if way.keeps_linear]
    machine = "; ".join(row[0] for row in rows("machine")) or "no machine yet"
    inputs = "\n".join(wrapped(f"- {name}: {one.says}", "  ") for name, one in INPUTS.items())
    parts = {"tree": [item(way, known) for way in fast], "linear": [item(way, known) for way in linear]}
    paragraphs = TEXT.format(
        tree="\n".join(parts["tree"]),
        linear="\n".join(parts["linear"]),
        prices=table(fast, known),
        linear_prices=table(linear, known),
        plain=plain_prices(),
        rooms=rooms(),
        inputs=inputs,
        machine=machine,
        left=not_measured(known),
    ).split("\n\n")
    return "\n\n".join(text if text[:1] in "#-|" else wrapped(" ".join(text.split())) for text in paragraphs if text.strip())


TEXT = """# What makes the checker fast

This page is made by `bench/without --page` from the files of bench/switches and from docs/fast.rows.

The checker is a whole one without anything that is told here: bytes to tokens, a token to its row, a step judged by sets. A fast way only takes,
accepts or guesses: if it says no, the plain way goes on and comes to the same result. So its contract says something only for a yes, and a switch of a few
lines puts it out of use. No clause, definition, lemma or stored proof changes for that. Who reads the code for the first time may leave all fast
ways closed, and open one for its price.

`bench/without NAME` puts the fast way of that name out of use, in a copy of the tree, and `bench/without --all` all of them; both prove and build
the program there, and measure it beside the one of the tree. `bench/check-plain-program` compares what the program without any prints.

## The fast ways

They are a tree: one that is set in is of no use without the one above it. Prices of one branch do not multiply. A fast way begins at its doors:
files that only it brings in. The lines are those of all files of code, definitions and proofs that nothing else needs.

{tree}

## What may stay closed

Who reads the checker needs the first room, and may leave the doors of the others closed.

{rooms}

The last row has what no file of the rooms names: laws, worked rows of definitions, and crates of tests.
`bench/without --lines` counts.

## What each buys

{prices}

## The plain program

{plain}

## What keeps a check linear

Without one of these, which belong to the plain program, the time of a check grows with the square of some size. Repetitions and parts of long
antecedents are used only while a step is judged as it is written.

{linear}

{linear_prices}

## How it was measured

Instructions are those that `valgrind --tool=callgrind` counts, which other work on the machine does not change; CPU time is the least of seven runs
of both programs by turns, and is left out below two hundredths of a second. Compare instructions first: times of a machine with other work differ by
a tenth and more. The inputs are small, so that a start of the program counts in them too. Several fast ways may be out of use in one run, if none of
them counts on the inputs of another. The command is `bench/without --store NAME ..`. The machine had {machine}. Each run is of the tree as it was
then; the lines are those of the tree of the last count.

{inputs}

{left}
"""


def write(known: dict[str, FastWay], check: bool) -> int:
    """Writes the page, or says whether it is as it would be written; the status."""
    wanted = text(known).rstrip() + "\n"
    if not check:
        PAGE.write_text(wanted, encoding="utf-8")
        return 0
    if PAGE.exists() and PAGE.read_text(encoding="utf-8") == wanted:
        return 0
    print(f"FAILED: docs/{PAGE.name} is not what bench/switches and docs/{ROWS.name} give: run bench/without --page", file=sys.stderr)
    return 1


def known_rows(known: dict[str, FastWay]) -> None:
    """Raises Stopped if a row names what is not there."""
    for names, name, *_ in rows("run"):
        lost = [name for name in names.split("+") if name not in known and name != PLAIN]
        if lost or name not in INPUTS:
            raise Stopped(f"docs/{ROWS.name} has a run of {lost[0] if lost else name}, which is not there")
