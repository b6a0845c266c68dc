"""Explains why a text is refused (F2 to F8, P2 to P8), and why a quantifier set or a whole trace is (C1 to C4).

A part of tools/explain. Each function returns sentences.
"""

import re
from collections.abc import Iterable, Iterator
from io import BytesIO
from itertools import islice, repeat
from operator import itemgetter
from typing import Callable, Optional

from qrptools.explaining.advice import LOOKS, with_number
from qrptools.command import counted
from qrptools.formula import ADJECTIVES, COMMENT_BYTES, UNBOUND, Formula
from qrptools.explaining.looks import NO_TEXTS, Look
from qrptools.steps import SetVariable, Step, Trace
from qrptools.words import GREATEST_VARIABLE, WORD, Fault, Words, value

SHOWN = 60  # bytes of a line before and after the marked word
LISTED = 12  # numbers in a sentence


def listed(numbers: Iterable[int]) -> str:
    """Some of the numbers, as a part of a sentence."""
    words = [str(number) for number in numbers]
    return ", ".join(words[:LISTED]) + (f" and {len(words) - LISTED} more" if len(words) > LISTED else "")


def shown(word: bytes) -> str:
    """A word as it may be printed."""
    text = word[:40].decode("ascii", "backslashreplace") + (".." if len(word) > 40 else "")
    return "".join(letter if letter.isprintable() else f"\\x{ord(letter):02x}" for letter in text)


def marked_line(fault: Fault) -> list[str]:
    """The line of the fault with its word marked, as lines to print; none where the text ends."""
    if fault.index is None:
        return []
    word = list(WORD.finditer(fault.text))[fault.index]
    first, last = max(0, word.start() - SHOWN), min(len(fault.text), max(word.end(), min(word.end() + SHOWN, word.start() + 2 * SHOWN)))
    last = min(last, word.start() + 2 * SHOWN)
    cut = fault.text[first:last].rstrip(b"\r\n")
    text = "".join(chr(byte) if 32 <= byte < 127 else "?" for byte in cut.replace(b"\t", b" "))
    before, after = (".. " if first else ""), (" .." if last < len(fault.text.rstrip()) else "")
    width = max(1, min(word.end(), last) - word.start())
    return [f"    {before}{text}{after}", " " * (4 + len(before) + word.start() - first) + "^" * width]


def words_from(fault: Fault) -> list[bytes]:
    """The words of the line from that of the fault on."""
    return WORD.findall(fault.text)[fault.index or 0 :]


def word_of(fault: Fault) -> bytes:
    return words_from(fault)[0]


def likely_cause(fault: Fault, data: bytes) -> Optional[str]:
    """Which of the causes of docs/REFUSED.md is likely, where the fault has several."""
    if is_second_header(fault):
        return "second"
    if is_cut(fault, data):
        return "cut"
    if fault.name in CAUSES:
        return CAUSES[fault.name](fault, data)
    return cause_of_result(fault) if fault.name == "P8" else None


def cause_of_result(fault: Fault) -> str:
    """Which of the causes of P8 a word points to."""
    word = word_of(fault)
    if word.upper() == b"UNKNOWN":
        return "limit"
    return "answer" if word == b"s" else "damaged"


def cause_of_word(fault: Fault, data: bytes) -> Optional[str]:
    """Which of the causes of F3 a word points to."""
    word = word_of(fault)
    if fault.index == 0 and word in (b"a", b"e"):
        return cause_of_late_set(fault, data)
    if fault.index == 0 and word in (b"A", b"E"):
        return "capital"
    return "dependencies" if fault.index == 0 and word == b"d" and fault.known["inside"] == BEFORE_CLAUSES else None


def cause_of_late_set(fault: Fault, data: bytes) -> str:
    """Why a quantifier set is not allowed: what comes before it is open, or has a 0 too many, or is a clause that is closed."""
    if fault.known["inside"] != "between clauses":
        return "open"
    if header_has_more(data):
        return "header"
    before = next(empty_clauses(data), fault.line)
    return "zero" if before < fault.line else "prenex"


def header_has_more(data: bytes) -> bool:
    """Whether words follow the numbers of the header in its line."""
    return bool(re.search(rb"^[ \t]*p[ \t]+cnf[ \t]+[0-9]+[ \t]+[0-9]+[ \t]+[^ \t\r\n]", data, re.MULTILINE))


STAMP = re.compile(rb"[\[(]|[0-9]+[-/:.][0-9]")


def cause_of_trace_word(fault: Fault, data: bytes) -> Optional[str]:
    """Which of the causes of P3 a word points to: a message begins a line, and what is damaged has digits or stands in the middle."""
    word = word_of(fault)
    if odd_zeros(fault, data):
        return "zeros"
    if fault.index == 0 and word in (b"a", b"e"):
        return "order"
    if fault.index == 0 and STAMP.match(word):
        return "stamps"
    return "damaged" if fault.index or re.search(rb"[0-9\0]", word) else None


def cause_of_freedom(fault: Fault, data: bytes) -> str:
    """Which of the causes of F6 is likely: a set that was closed too early, no sets at all, or one variable that was left out."""
    if begins_with_set(fault):
        return "zero"
    return "gate" if Formula(data, 0).sets else "plain"


CAUSES: dict[str, Callable[[Fault, bytes], Optional[str]]] = {
    "F3": cause_of_word,
    "F4": lambda fault, _: "open" if is_clause_in_set(fault) else None,
    "F6": cause_of_freedom,
    "F7": lambda fault, data: "open" if open_line_of(fault, data) else None,
    "F8": lambda fault, data: "empty" if fault.index is not None and any(empty_clauses(data)) else None,
    "P3": cause_of_trace_word,
    **dict.fromkeys(("P4", "P5", "P6"), lambda fault, data: "zeros" if odd_zeros(fault, data) else None),
}


def is_second_header(fault: Fault) -> bool:
    """Whether a trace is refused in another header, which a word of the first trace that was cut may stand directly before."""
    words = words_from(fault)
    return fault.name in ("P3", "P8") and fault.index is not None and words[0].endswith(b"p") and words[1:2] == [b"qrp"]


def open_line_of(fault: Fault, data: bytes) -> Optional[int]:
    """The first line of clauses that does not end with 0, if the text is cut off in a clause and another line comes after that one."""
    line = first_open_line(data) if fault.known.get("inside", "").startswith("clause ") else None
    return line if line and line < max((number for number, _ in lines_of_clauses(data)), default=0) else None


def is_cut(fault: Fault, data: bytes) -> bool:
    """Whether the text ends in the middle of the word that is refused, as it seems."""
    return fault.name in ("F3", "P3", "P5", "P8") and fault.index is not None and data.endswith(word_of(fault)) and data.endswith(fault.text)


def explain_text(text_fault: Fault, data: bytes, look: Look) -> list[str]:
    """Sentences on a fault of a text, of which `data` are the bytes; `look` is as looks.looks gives it."""
    kind, number = look
    seen = [f"{with_number(LOOKS[kind], number)}.".replace("?.", "?")] if kind else []
    if kind in NO_TEXTS:
        return seen
    sentences = {
        "F2": wrong_header,
        "P2": wrong_header,
        "F3": wrong_word,
        "P3": wrong_word,
        "F4": out_of_range,
        "P4": out_of_range,
        "F5": bound_twice,
        "F6": free_variable,
        "F7": cut_off,
        "P7": cut_off,
        "F8": wrong_count,
        "P5": number_twice,
        "P6": third_antecedent,
        "P8": wrong_result,
    }[text_fault.name](text_fault, data)
    if is_second_header(text_fault):
        sentences.append("A second header follows: two traces are in one file, and the first was cut.")
    elif is_cut(text_fault, data):
        sentences.append("The text ends with this word and has no line end: it seems to be cut.")
    elif text_fault.name in ("P3", "P4", "P5", "P6"):
        sentences += odd_zeros(text_fault, data)
    return sentences + seen


def odd_zeros(fault: Fault, data: bytes) -> list[str]:
    """Whether the line of a trace, or the one before it, has one 0 too few or too many for a set or for a step."""
    first = max(0, fault.line - 2)
    for number, line in enumerate(islice(BytesIO(data), first, fault.line), first + 1):
        what, *words = line.split() or [b""]
        zeros, wanted = sum(1 for word in words if not word.strip(b"0")), 2 if what.isdigit() else 1
        if (what.isdigit() or what in (b"a", b"e")) and abs(zeros - wanted) == 1:
            kind, which = ("step", "set")[wanted == 1], "missing" if zeros < wanted else "one too many"
            return [f"Line {number} has {counted(zeros, 'zero')} where a {kind} has {wanted}: is a 0 {which}?"]
    return []


def wrong_header(fault: Fault, _data: bytes) -> list[str]:
    wanted = "`p cnf VARIABLES CLAUSES`, with two numbers from 0 to 2147483647"
    if fault.known["word"] == "qrp":
        wanted = "`p qrp VARIABLES STEPS`, with two numbers"
    return [f"The text has to begin with {wanted}; '{shown(word_of(fault))}' does not fit."]


# What a word points to that begins a line of a formula or of a trace.
FIRST_WORDS = {
    b"p": "It looks like another header: two texts in one file, or the formula that --pretty-print writes.",
    b"%": "Some collections end their files with a line of %, which is no part of DIMACS: cut the text there.",
    b"d": "Lines of this letter belong to other formats (DQDIMACS, DRAT).",
    b"h": "Lines of this letter belong to other formats.",
    b"x": "Lines of this letter belong to other formats (xor clauses).",
    b"s": "Lines of this letter are the solver's answer, which has to go elsewhere.",
    b"v": "Lines of this letter are the solver's answer, which has to go elsewhere.",
    b"V": "Lines of this letter are the solver's answer, which has to go elsewhere.",
}


OTHER_LINES = "the lines seem to be in another order than they were written"
# Why a quantifier set comes too late, by its cause.
LATE_SETS = {
    "prenex": "The clauses before it are closed: so the formula is not prenex, with all quantifiers before the clauses.",
    "header": "The header has more than two numbers, and what follows them is read as a clause.",
    "zero": "An empty clause comes before it: a 0 too many closes it.",
    "order": f"The steps before it are closed: {OTHER_LINES}.",
}


def wrong_word(fault: Fault, data: bytes) -> list[str]:
    word, inside = word_of(fault), fault.known["inside"]
    sentences = [f"'{shown(word)}' is not allowed {BETWEEN.get(inside, f'in {inside}, a list of numbers that 0 closes.')}"]
    cause = likely_cause(fault, data)
    if cause in LATE_SETS:
        sentences.append(LATE_SETS[cause])
    elif word in (b"a", b"e") and fault.index == 0:
        sentences.append(f"Quantifier sets come before all {'clauses' if fault.name == 'F3' else 'steps'}, and 0 closes each list: is a 0 missing?")
    elif word in (b"A", b"E") and fault.index == 0:
        sentences.append("The quantifiers are small letters.")
    elif fault.index == 0 and word in FIRST_WORDS and not is_second_header(fault):
        sentences.append(FIRST_WORDS[word])
    elif word[:1] in (b"+", b"-") and word[1:].isdigit():
        sentences.append("A number has no plus sign, and 0 no minus.")
    return sentences


BEFORE_CLAUSES = "before the first clause"
BETWEEN = {
    "between clauses": "here: after a clause comes the next clause, or the end.",
    BEFORE_CLAUSES: "here: after the header come the quantifier sets, `a` or `e`, and the clauses.",
    "between steps": "here: a step begins with its number, and after the last one comes `r` with the result.",
}


def out_of_range(fault: Fault, _data: bytes) -> list[str]:
    number, known = fault.known["number"], fault.known
    if "variables" in known:
        limit = f"the header, in line {known['header']}, says that the variables are 1 to {known['variables']}"
        sentences = [f"{big(number)} is out of range: {limit}."]
        if number < 0 and -number <= known["variables"]:
            sentences = ["A quantifier set names variables, without a minus."]
            if is_clause_in_set(fault):
                sentences.append("The line looks like a clause: is the 0 missing that closes the set before it?")
        return sentences
    what = known["inside"]
    if "literals" in what or "set" in what:
        sign = "" if "literals" in what else ", without a minus"
        return [f"{big(number)} is out of range: a variable is a number from 1 to {known['greatest']}{sign}."]
    return [f"{big(number)} is out of range: the number of a step is from 1 to {known['greatest']}."]


def is_clause_in_set(fault: Fault) -> bool:
    """Whether a line that looks like a clause is read as a part of a set, which lacks its 0."""
    number: int = fault.known["number"]
    variables: int = fault.known.get("variables", 0)
    return number < 0 and -number <= variables and fault.index == 0


def big(number: int) -> str:
    return str(number) if abs(number) < 10**24 else "A number of so many digits"


def bound_twice(fault: Fault, _data: bytes) -> list[str]:
    place = fault.known["place"]
    return [f"Variable {fault.known['number']} is bound already, as {ADJECTIVES[place.quantifier]}, in line {place.line}."]


def free_variable(fault: Fault, _data: bytes) -> list[str]:
    sentences = [f"Variable {fault.known['number']} is in no quantifier set, so it is free."]
    if begins_with_set(fault):
        sentences.append("Its line begins with a quantifier set, which an earlier 0 closes: is that 0 one too many?")
    return sentences


def begins_with_set(fault: Fault) -> bool:
    return WORD.findall(fault.text)[0] in (b"a", b"e")


def cut_off(fault: Fault, data: bytes) -> list[str]:
    inside, begun = fault.known["inside"], fault.known.get("begun")
    where = f"{inside}, which begins in line {begun}," if begun else inside
    sentences = [f"The text ends in line {fault.line}, after {counted(len(data), 'byte')}, inside {where}" if inside != "between steps" else ""]
    if inside == "between steps":
        sentences = [f"The text ends in line {fault.line}, after {counted(len(data), 'byte')}, before the line `r sat` or `r unsat`"]
    end = "." if data.endswith(b"\n") or not data else "; its last line has no line end."
    return [sentences[0].rstrip(",") + end, *not_closed(open_line_of(fault, data))]


def not_closed(line: Optional[int]) -> list[str]:
    return [f"The clause in line {line} does not end with 0, so the next line belongs to it too: is a 0 missing there?"] if line else []


def wrong_count(fault: Fault, data: bytes) -> list[str]:
    known = fault.known
    if fault.index is None:
        sentences = [f"The header, in line {known['header']}, says {counted(known['count'], 'clause')}, and the text has {known['read']}."]
        return sentences + not_closed(first_open_line(data))
    more = sum(1 for _ in clause_ends(data))
    sentences = [f"The header, in line {known['header']}, says {counted(known['count'], 'clause')}, and here begins one more."]
    if more > known["count"]:
        sentences.append(f"The text has {more}.")
    empty = list(empty_clauses(data))
    if empty:
        sentences.append(f"{len(empty)} of them {'is' if len(empty) == 1 else 'are'} empty, the first in line {empty[0]}: is a 0 one too many there?")
    return sentences


def lines_of_clauses(data: bytes) -> Iterator[tuple[int, list[bytes]]]:
    """The lines of the clauses, with their numbers: what comes after the header and the quantifier sets. A set goes on up to its 0, also in
    later lines."""
    is_set = False
    for number, text in enumerate(data.splitlines(), 1):
        words = text.split()
        if not words or words[0][:1] in (b"c", b"p"):
            continue
        while words and (is_set or words[0] in (b"a", b"e")):
            closed = next((place for place, word in enumerate(words, 1) if not word.strip(b"0")), None)
            is_set, words = closed is None, words[closed:] if closed else []
        if words:
            yield number, words


def first_open_line(data: bytes) -> Optional[int]:
    return next((number for number, words in lines_of_clauses(data) if words[-1].strip(b"0")), None)


def clause_ends(data: bytes) -> Iterator[bytes]:
    for _, words in lines_of_clauses(data):
        yield from (word for word in words if not word.strip(b"0"))


EMPTY = re.compile(rb"^[ \t]*0[ \t\r]*$|[ \t]0+[ \t]+0+[ \t\r]*$", re.MULTILINE)


def empty_clauses(data: bytes) -> Iterator[int]:
    """The line of each empty clause."""
    is_begun = False
    for number, words in lines_of_clauses(data):
        for word in words:
            if not word.strip(b"0") and not is_begun:
                yield number
            is_begun = bool(word.strip(b"0"))


def empty_clause(data: bytes) -> list[str]:
    """A sentence on the first empty clause, if there is one."""
    line = next(empty_clauses(data), None) if EMPTY.search(data) else None
    return [f"The formula has an empty clause, in line {line}, and is false by it alone: is a 0 one too many there?"] if line else []


def number_twice(fault: Fault, _data: bytes) -> list[str]:
    return [f"Step {fault.known['number']} is in line {fault.known['earlier']} already. Each step has a number of its own."]


def third_antecedent(fault: Fault, _data: bytes) -> list[str]:
    return [f"'{shown(word_of(fault))}' would be the third of {fault.known['inside']}: a step has two at most."]


def wrong_result(fault: Fault, _data: bytes) -> list[str]:
    rest = words_from(fault)
    said = " ".join(shown(word) for word in rest[:6])
    sentences = [f"After `r` comes `sat` or `unsat`; here it is '{said}'."]
    if rest[:2] == [b"s", b"cnf"]:
        sentences.append("The solver wrote its answer in the form of QDIMACS, as DepQBF does with --qdo.")
    return sentences


AFTER_RESULT = re.compile(rb"^[ \t]*r[ \t]+((?i:sat|unsat))[ \t\r]*\n[ \t]*[0-9]", re.MULTILINE)


def other_order(data: bytes) -> list[str]:
    """A sentence on steps that come after the result, if there are some."""
    found = AFTER_RESULT.search(data)
    result = found and found[1].decode()
    return [f"Steps come after the line `r {result}`, and are not read: {OTHER_LINES}."] if result else []


Failing = tuple[str, SetVariable, Optional[SetVariable]]  # a fault of a variable, and the variable of the innermost block before it


def sets_that_fail(formula: Formula, trace: Trace) -> Iterator[Failing]:
    """The variables of the trace's sets that do not agree with the formula, in file order: each with its fault, and with the variable
    of the innermost block before it."""
    innermost: Optional[SetVariable] = None
    for named in trace.sets:
        place = formula.place(named.variable)
        if place == UNBOUND:
            yield "C1", named, innermost
        elif place.quantifier != named.quantifier:
            yield "C2", named, innermost
        elif innermost and place.block < formula.place(innermost.variable).block:
            yield "C3", named, innermost
        if place != UNBOUND and (innermost is None or place.block >= formula.place(innermost.variable).block):
            innermost = named


def explain_sets(formula: Formula, trace: Trace) -> Optional[tuple[str, SetVariable, list[str]]]:
    """The first fault of the sets, its variable in the trace, and sentences on it; None if they agree."""
    failing = list(sets_that_fail(formula, trace))
    if not failing:
        return None
    fault, named, before = failing[0]
    v, place = named.variable, formula.place(named.variable)
    here = f"Variable {v} is {ADJECTIVES[named.quantifier]} in line {named.line} of the trace"
    if fault == "C1":
        sentences = [f"{here}, and no quantifier set of the formula binds it."]
    elif fault == "C2" or not before:
        sentences = [f"{here}, and {ADJECTIVES[place.quantifier]} in line {place.line} of the formula."]
    else:
        other = formula.place(before.variable)
        sentences = [
            f"Line {named.line} of the trace names variable {v} after variable {before.variable} of line {before.line}.",
            f"In the formula {v} is in block {place.block} (line {place.line}), further out than {before.variable} in block {other.block} "
            f"(line {other.line}).",
        ]
    rest = {wrong.variable for _, wrong, _ in failing} - {v}
    if rest:
        sentences.append(f"{counted(len(rest), 'more variable')} of the trace's sets {'does' if len(rest) == 1 else 'do'} not agree either.")
    return fault, named, sentences


def explain_no_goal(trace: Trace) -> tuple[bool, list[str]]:
    """Whether a trace has no empty step, and sentences on that."""
    steps, goal = 0, False
    shortest: Optional[tuple[int, Step]] = None
    for line, texts in trace.pieces():
        steps += len(texts)
        heads = map(itemgetter(0), map(bytes.partition, texts, repeat(b" 0 ")))
        lengths = list(map(bytes.count, heads, repeat(b" ")))
        goal = goal or 0 in lengths
        if shortest is None or min(lengths) < shortest[0]:
            place = lengths.index(min(lengths))
            shortest = (lengths[place], Step(line + place, texts[place]))
    word = "clause" if trace.result == "unsat" else "cube"
    sentences = [f"The trace says `r {trace.result}`, and none of its {counted(steps, 'step')} is the empty {word}, so nothing is proved."]
    if not steps:
        sentences = [f"The trace says `r {trace.result}` and has no step, so nothing is proved."]
    if shortest:
        sentences.append(f"The shortest is step {shortest[1].number} in line {shortest[1].line}, with {counted(shortest[0], 'literal')}.")
    return not goal, sentences


def free_variables(formula: Formula) -> list[int]:
    """The variables of the clauses that no quantifier set binds, in their order."""
    free: set[int] = set()
    seen: set[bytes] = set()
    words = formula.words.again()
    rest = words.data[words.start + len(words.text) :].split(b"\n")
    for text in [b" ".join(words.words[words.taken :]), *rest]:
        if text.lstrip()[:1] == b"c":
            continue
        new = {word for word in WORD.findall(text) if word not in seen}
        seen |= new
        for number in map(value, new):
            if isinstance(number, int) and 0 < abs(number) <= formula.variables and abs(number) not in formula.places:
                free.add(abs(number))
    return sorted(free)


def closed(formula: Formula, free: list[int], innermost: bool) -> bytes:
    """The formula's text with its free variables bound existentially, outermost or innermost."""
    if not free:
        return formula.data[:]
    text = b"e " + b" ".join(b"%d" % v for v in free) + b" 0"
    place = formula.prefix_end if innermost and formula.sets else formula.header_end
    before, after = formula.data[:place], formula.data[place:]
    return before + text + b"\n" + after if before.endswith(b"\n") else before + b"\n" + text + after


def mended(data: bytes) -> tuple[bytes, list[int], list[int]]:
    """The formula's text with the numbers in its header that the rest has, if they are too small or another number of clauses; and what
    they were and are. What else is wrong is not looked for."""
    words = Words(data, COMMENT_BYTES, 0)
    begin = 0
    if words.next():
        begin = words.place() - 1
        words.back()
    said = words.header(b"cnf", GREATEST_VARIABLE, "F2", "F7")
    end = words.place()
    variables, clauses, in_set, is_open = said[0], 0, False, False
    for word in iter(words.next, None):
        number = value(word)
        if isinstance(number, int):
            variables = max(variables, abs(number))
            clauses += number == 0 and not in_set
            is_open = number != 0 and not in_set
        in_set = word in (b"a", b"e") or in_set and number != 0
    found = [variables, clauses + is_open]
    return (data[:begin] + b"p cnf %d %d" % tuple(found) + data[end:] if found != said else data), said, found
