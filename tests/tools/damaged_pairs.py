"""Damaged forms of real proofs, for the tests of tools/explain: each has a name, the bytes of a formula and those of a trace.

They are made from pairs of tests/traces without chance, so each run tries the same ones.
"""

import bz2
import gzip
import re
from collections.abc import Iterator, Sequence

Damages = Iterator[tuple[str, bytes, bytes]]


def lines_of(data: bytes) -> list[bytes]:
    return data.splitlines(keepends=True)


def replaced(data: bytes, old: bytes, new: bytes, nth: int = 0) -> bytes:
    """The text with one occurrence of a line's pattern changed."""
    found = list(re.finditer(old, data, re.MULTILINE))
    place = found[min(nth, len(found) - 1)]
    return data[: place.start()] + place.expand(new) + data[place.end() :]


def looks(formula: bytes, trace: bytes) -> Damages:
    """Files of other kinds in the place of each."""
    kinds = [
        ("empty", b""),
        ("only blanks", b" \n\t\n"),
        ("gzip", gzip.compress(formula, mtime=0)),
        ("bzip2", bz2.compress(formula)),
        ("xz", b"\xfd7zXZ\0" + formula[:40]),
        ("zstd", b"\x28\xb5\x2f\xfd" + formula[:40]),
        ("zip", b"PK\x03\x04" + formula[:40]),
        ("a program", b"\x7fELF\x02\x01" + bytes(60)),
        ("QCIR", b"#QCIR-G14\nexists(v1)\noutput(g1)\ng1 = and(v1)\n"),
        ("AIGER", b"aag 1 1 0 1 0\n2\n2\n"),
        ("a web page", b"<!DOCTYPE html>\n<html></html>\n"),
        ("UTF-16", formula.decode().encode("utf-16")),
        ("binary QRP", b"p bqrp 2 5\0\0e\x01\0"),
        ("DRAT", b"1 2 0\nd 1 2 0\n0\n"),
        ("binary DRAT", b"a\x02\x04\0a\x02\0d\x02\x04\0a\0"),
        ("QRAT", b"u 1 2 0\nd 1 2 0\n0\n"),
        ("an answer", b"UNSAT\n"),
        ("an answer in QDIMACS", b"s cnf 0 2 2\n"),
    ]
    for name, data in kinds:
        if name != "QCIR":  # which is a formula, for qrp_gates
            yield f"{name} as formula", data, trace
        yield f"{name} as trace", formula, data
    yield "exchanged", trace, formula
    yield "the formula twice", formula, formula
    yield "a byte order mark before the formula", b"\xef\xbb\xbf" + formula, trace
    yield "a byte order mark before the trace", formula, b"\xef\xbb\xbf" + trace
    yield "a banner before the formula", b"Reading file\ndone\n" + formula, trace
    yield "a banner before the trace", formula, b"DepQBF 5.01\n[DM] init\n" + trace
    yield "no header of the formula", formula[formula.index(b"\n") + 1 :], trace
    yield "no header of the trace", formula, trace[trace.index(b"\n") + 1 :]


def cut(formula: bytes, trace: bytes) -> Damages:
    """Each text cut at some places."""
    for share in range(1, 12):
        yield f"formula cut at {share} of 12", formula[: len(formula) * share // 12], trace
        yield f"trace cut at {share} of 12", formula, trace[: len(trace) * share // 12]
    for less in range(1, 9):
        yield f"formula without its last {less} bytes", formula[:-less], trace
        yield f"trace without its last {less} bytes", formula, trace[:-less]
    yield "trace without its result", formula, b"".join(lines_of(trace)[:-1])


WORDS = [
    b"x",
    b"-0",
    b"+1",
    b"%",
    b"p",
    b"r",
    b"a",
    b"e",
    b"d",
    b"s",
    b"-",
    b"99999999999",
    b"2147483648",
    b"-2147483648",
    b"1" * 30,
    b"0",
    b"\xff\xfe",
    b"1.5",
]


def words(formula: bytes, trace: bytes) -> Damages:
    """A word put among the clauses, among the sets, and among the steps."""
    for word in WORDS:
        name = word.decode(errors="replace")
        yield f"'{name}' in a clause", replaced(formula, rb"^(-?\d+) (-?\d+)", rb"\1 " + word + rb" \2", 1), trace
        yield f"'{name}' before a clause", replaced(formula, rb"^(-?\d+) ", word + rb" \1 ", 2), trace
        yield f"'{name}' in a set", replaced(formula, rb"^([ae]) ", rb"\1 " + word + b" ", 1), trace
        yield f"'{name}' in the header", replaced(formula, rb"^(p cnf) \d+", rb"\1 " + word), trace
        yield f"'{name}' in a step", formula, replaced(trace, rb"^(\d+) (-?\d+) ", rb"\1 " + word + rb" \2 ", 3)
        yield f"'{name}' before a step", formula, replaced(trace, rb"^(\d+) ", word + rb" \1 ", 2)
        yield f"'{name}' among antecedents", formula, replaced(trace, rb" 0 (\d+) ", rb" 0 " + word + rb" \1 ", 2)
        yield f"'{name}' as the result", formula, replaced(trace, rb"^r .*", b"r " + word)
        yield f"'{name}' in a trace's set", formula, replaced(trace, rb"^([ae]) ", rb"\1 " + word + b" ", 1)
        yield f"'{name}' in the trace's header", formula, replaced(trace, rb"^(p qrp) \d+", rb"\1 " + word)


def header_and_sets(formula: bytes, trace: bytes) -> Damages:
    header = re.search(rb"^p cnf (\d+) (\d+)", formula, re.MULTILINE)
    assert header
    variables, clauses = map(int, header.groups())
    for more in (-2, -1, 1, 2):
        yield f"{more} clauses in the header", replaced(formula, rb"^(p cnf \d+) \d+", rb"\1 %d" % (clauses + more)), trace
        yield f"{more} variables in the header", replaced(formula, rb"^(p cnf) \d+", rb"\1 %d" % (variables + more)), trace
    sets = re.findall(rb"^[ae] .*", formula, re.MULTILINE)
    for nth, text in enumerate(sets):
        numbers = text.split()[1:-1]
        other = b"a" if text[:1] == b"e" else b"e"
        yield f"set {nth} with the other quantifier", formula.replace(text, other + text[1:], 1), trace
        yield f"set {nth} taken out", formula.replace(text + b"\n", b"", 1), trace
        yield f"set {nth} last", formula.replace(text + b"\n", b"", 1).replace(sets[-1] + b"\n", sets[-1] + b"\n" + text + b"\n", 1), trace
        yield f"set {nth} without its 0", formula.replace(text, text[:-2], 1), trace
        yield f"set {nth} binds its first variable twice", formula.replace(text, b"%s %s 0" % (text[:-2], numbers[0]), 1), trace
        yield f"set {nth} without its last variable", formula.replace(text, b" ".join([text[:1], *numbers[:-1], b"0"]), 1), trace
    for nth in range(0, clauses, max(1, clauses // 4)):
        yield f"clause {nth} without its 0", replaced(formula, rb"^(-?\d.*) 0$", rb"\1", nth), trace
        yield f"clause {nth} taken out", replaced(formula, rb"^-?\d.* 0\n", b"", nth), trace
        yield f"clause {nth} twice", replaced(formula, rb"^(-?\d.* 0\n)", rb"\1\1", nth), trace
        yield f"clause {nth} with a free variable", replaced(
            replaced(formula, rb"^(-?\d)", b"%d \\1" % (variables + 1), nth), rb"cnf \d+", b"cnf %d" % (variables + 2)
        ), trace
        yield f"clause {nth} with a sign flipped", replaced(formula, rb"^(\d)", rb"-\1", nth), trace
    yield "no quantifier set", re.sub(rb"^[ae] .*\n", b"", formula, flags=re.MULTILINE), trace
    yield "CRLF", formula.replace(b"\n", b"\r\n"), trace.replace(b"\n", b"\r\n")


def steps(formula: bytes, trace: bytes) -> Damages:
    texts = lines_of(trace)
    first = next(place for place, text in enumerate(texts) if text[:1].isdigit())
    last = len(texts) - 2
    for place in range(first, last + 1, max(1, (last - first) // 12)):
        found = re.fullmatch(rb"(\d+)((?: -?[1-9]\d*)*) 0((?: \d+)*?) 0\n", texts[place])
        assert found
        number, literals, antecedents = found[1], found[2].split(), found[3].split()

        def changed(*lines: bytes) -> tuple[bytes, bytes]:
            return formula, b"".join([*texts[:place], *lines, *texts[place + 1 :]])

        def step(literals: Sequence[bytes], antecedents: Sequence[bytes], number: bytes = number) -> bytes:
            return b" ".join([number, *literals, b"0", *antecedents, b"0"]) + b"\n"

        name = f"step {number.decode()}"
        yield (f"{name} taken out", *changed())
        yield (f"{name} twice", *changed(texts[place], texts[place]))
        yield f"{name} at the end", formula, b"".join([*texts[:place], *texts[place + 1 : -1], texts[place], texts[-1]])
        yield (f"{name} without its antecedents", *changed(step(literals, [])))
        yield (f"{name} with a third antecedent", *changed(step(literals, [*antecedents, b"1", b"2", b"3"][:3])))
        yield (f"{name} without a 0", *changed(texts[place].replace(b" 0 ", b" ", 1)))
        yield (f"{name} without its last 0", *changed(texts[place][:-3] + b"\n"))
        yield (f"{name} with the number 0", *changed(step(literals, antecedents, b"0")))
        yield (f"{name} names itself", *changed(step(literals, [number, *antecedents[1:]])))
        for nth in range(0, len(literals), 2):
            yield (f"{name} without literal {nth}", *changed(step(literals[:nth] + literals[nth + 1 :], antecedents)))
            flipped = literals[nth].lstrip(b"-") if literals[nth][:1] == b"-" else b"-" + literals[nth]
            yield (f"{name} with literal {nth} flipped", *changed(step([*literals[:nth], flipped, *literals[nth + 1 :]], antecedents)))
            yield (f"{name} with both signs of literal {nth}", *changed(step([*literals, flipped], antecedents)))
    other = b"r sat\n" if b"unsat" in texts[-1].lower() else b"r unsat\n"
    yield "the other result", formula, b"".join([*texts[:-1], other])
    yield "the result UNKNOWN", formula, b"".join([*texts[:-1], b"r UNKNOWN\n"])
    yield "the result of --qdo", formula, b"".join([*texts[:-1], b"r s cnf 0 12 13\n"])
    yield "no empty step", formula, b"".join(text for text in texts if not re.match(rb"\d+ 0 ", text))
    yield "no step", formula, b"".join([*texts[:first], texts[-1]])
    yield "the sets of the trace with other quantifiers", formula, re.sub(
        rb"^[ae] ", lambda m: b"e " if m[0] == b"a " else b"a ", trace, flags=re.MULTILINE
    )
    yield "a set of the trace names one more", formula, replaced(trace, rb"^([ae]) ", rb"\1 999 ", 1)
    yield "a formula after the sets, as of --pretty-print", formula, b"".join([*texts[:first], formula, *texts[first:]])


def damaged_pairs(formula: bytes, trace: bytes) -> Damages:
    for kind in (looks, cut, words, header_and_sets, steps):
        yield from kind(formula, trace)
