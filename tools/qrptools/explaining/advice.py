"""What each line of the program points to, and what you can do. A part of tools/explain; docs/REFUSED.md has the table of the faults too.

A row of ROWS has the name of the fault, a word that tools/explain chooses the row by if a fault has several, what was found, and what
to do. A row of KINDS has a word for a kind of file, what such a file is, and what to do. N stands for a number that is put in.
"""

import re
from typing import Optional

from qrptools.command import as_called

FEW_ZEROS = "a line has a 0 too few or too many"
CORRECT_ZEROS = "correct the zeros of that line: a set has one, at its end, and a step two, after its literals and at its end"
OTHER_ORDER = "the lines are in another order, as after `sort`: give the trace as the solver wrote it"
ROWS: list[tuple[str, Optional[str], str, str]] = [
    ("F2", None, "the header is wrong", "give a formula in QDIMACS, which begins with `p cnf VARIABLES CLAUSES`"),
    ("F3", None, "a word that is not allowed there", "take the word out, or give a formula in QDIMACS"),
    ("F3", "cut", "the end of the text looks like a part of a word", "give the whole file"),
    ("F3", "open", "the list before the word lacks its 0", "close the quantifier set, or the clause, before it by 0"),
    (
        "F3",
        "prenex",
        "a quantifier set after clauses that are closed",
        "write the formula in prenex form: put all quantifier sets before the clauses, if the meaning stays the same; QDIMACS has no other form",
    ),
    ("F3", "header", "the header has a number too many", "take out what follows the two numbers of the header"),
    ("F3", "zero", "an empty clause stands before a quantifier set", "take the 0 out that is one too many"),
    ("F3", "capital", "a quantifier in a capital letter", "write `a` and `e` as small letters"),
    (
        "F3",
        "dependencies",
        "a line of DQDIMACS, which says what a variable depends on",
        "the formula is a DQBF, which qrp_cmd does not check; without that line it is another question",
    ),
    (
        "F4",
        None,
        "a number is out of range",
        "correct the number, or the number of variables in the header: `tools/explain --mend FORMULA > MENDED` does the second",
    ),
    ("F4", "open", "a clause comes after a set that lacks its 0", "close the quantifier set before it by 0"),
    ("F5", None, "a variable is bound twice", "leave one of its places out of the quantifier sets"),
    (
        "F6",
        "plain",
        "a variable is free, and there is no quantifier set",
        "bind all outermost by `e`, as solvers read such a text: `tools/explain --close FORMULA > CLOSED` does that",
    ),
    (
        "F6",
        "gate",
        "a variable is free, and others are in quantifier sets",
        "find out why it was left out. A gate's output belongs into the last set: `tools/explain --close innermost FORMULA > CLOSED` puts it there. "
        "Solvers read a free variable as bound outermost by `e`, as `--close` alone writes it: with a forgotten gate that is another question",
    ),
    ("F6", "zero", "a set is closed too early, so the variables after its 0 are free", "take the 0 out that stands in the middle of the set"),
    ("F7", None, "the formula was cut off", "give the whole file"),
    ("F7", "open", "the clause that is cut off has lines that do not end with 0", "close each clause by 0, or give the whole file"),
    (
        "F8",
        None,
        "there are more or fewer clauses than the header says",
        "correct the number in the header (`tools/explain --mend FORMULA > MENDED` does), give the whole file, or close each clause by 0: a clause "
        "without its 0 goes on in the next line",
    ),
    ("F8", "empty", "some clauses are empty, and there are more than the header says", "take the 0 out that is one too many"),
    (
        "Q2",
        None,
        "the first line is not that of the format",
        "begin the text with `#QCIR-14`; a formula in clauses begins with `p cnf VARIABLES CLAUSES`",
    ),
    (
        "Q3",
        None,
        "a line that is not allowed there",
        "correct the line: first come the sets, then the output, and then the gates, each on a line of its own (docs/FORMATS.md)",
    ),
    ("Q4", None, "a name is given twice", "give the variable or the gate another name"),
    ("Q5", None, "a gate before its definition", "put the gate before those that use it"),
    ("Q6", None, "free variables", "bind them in a set: outermost by `exists(..)`, as solvers read free variables"),
    ("Q7", None, "a gate with a quantifier", "write the formula in prenex form: all quantifiers in sets before the output"),
    ("Q8", None, "a gate has more or fewer inputs than its kind", "give `xor` two inputs and `ite` three; `and` and `or` take any number"),
    ("Q9", None, "the text ends before the output", "give the whole file, with a line `output(..)` before the gates"),
    ("Q12", None, "a name that no line gives", "bind the variable in a set, or define the gate; the name may be misspelled, or the file cut off"),
    ("P2", None, "the header is wrong", "give a trace in the text form of QRP, which begins with `p qrp`: `--trace=qrp`"),
    (
        "P3",
        None,
        "a word that is not allowed there",
        "take out the words that do not belong to the trace, such as messages; the solver should write nothing else to its standard output",
    ),
    ("P3", "damaged", "a word in the middle of a step, or one with digits", "the trace is damaged: have the solver write it again"),
    (
        "P3",
        "order",
        "a quantifier set after steps",
        OTHER_ORDER,
    ),
    ("P3", "stamps", "a time or a bracket before the numbers of a line", "take out what a log puts before each line: `cut` and `sed` do that"),
    (
        "P3",
        "second",
        "a second header `p qrp`",
        "two traces are in one file, and the first was cut: have the solver write it again, into a new file (`>`, not `>>`)",
    ),
    ("P3", "cut", "the end of the text looks like a part of a word", "give the whole file; see what the solver printed on its standard error"),
    ("P3", "zeros", FEW_ZEROS, CORRECT_ZEROS),
    ("P4", None, "a number is out of range", "the trace is damaged: have the solver write it again"),
    ("P4", "zeros", FEW_ZEROS, CORRECT_ZEROS),
    ("P5", None, "two steps have one number", "the trace is damaged, or two traces were joined: have the solver write it again"),
    (
        "P5",
        "cut",
        "the end of the text looks like a part of a number",
        "give the whole file; see what the solver printed on its standard error",
    ),
    ("P5", "zeros", FEW_ZEROS, CORRECT_ZEROS),
    ("P6", None, "a step has three antecedents", "the trace is damaged, or of another solver: write the step as several"),
    ("P6", "zeros", FEW_ZEROS, CORRECT_ZEROS),
    (
        "P7",
        None,
        "the trace was cut off",
        "see what the solver printed on its standard error: it stopped, was killed, or the disk was full. Give the whole file",
    ),
    (
        "P8",
        "limit",
        "the result is `r UNKNOWN`",
        "a limit of the solver was reached, and it did not decide the formula: give it more time",
    ),
    ("P8", "answer", "the result is `r s cnf ..`", "leave out `--qdo`, by which the solver writes its answer in another form"),
    ("P8", "cut", "the end of the text looks like a part of the word", "give the whole file"),
    (
        "P8",
        "second",
        "a second header `p qrp` after a part of the result",
        "two traces are in one file, and the first was cut: have the solver write it again, into a new file (`>`, not `>>`)",
    ),
    ("P8", "damaged", "the result is another word", "the trace is damaged: have the solver write it again"),
    ("C1", None, "the trace names a variable that the formula does not bind", "give the formula that the solver read: this is likely another one"),
    ("C2", None, "a variable has the other quantifier in the formula", "give the formula that the solver read: this is likely another one"),
    ("C3", None, "the variables are in another order in the formula", "give the formula that the solver read: this is likely another one"),
    ("C3", "order", "the same, and steps come after the result", OTHER_ORDER),
    (
        "C4",
        None,
        "no step is empty, so nothing is proved",
        "let the solver finish, and leave out `--no-cdcl` and `--no-sdcl`: it has to learn clauses and cubes. Or the last step was lost",
    ),
    ("C4", "order", "steps come after the result", OTHER_ORDER),
    ("S1", "long", "both signs of a variable, from the antecedents", "leave out the solver's long-distance resolution (`--long-dist-res`)"),
    (
        "S1",
        "damaged",
        "both signs of a variable, not from the antecedents",
        "the step has a literal too many, so the trace is damaged: have the solver write it again",
    ),
    ("S2", None, "a variable that the formula does not bind", "give the formula that the solver read"),
    ("S3", "order", "the antecedent comes later", "put the steps in an order in which each comes after those that it names, as DepQBF does"),
    ("S3", "missing", "no step has this number", "a step is missing, or a number is wrong: have the solver write the trace again, whole"),
    (
        "S4",
        "formula",
        "no clause gives the step",
        "give the formula that the solver read, before any preprocessing. If it is that one, a sign was flipped, or the step lost its antecedents",
    ),
    ("S4", "side", "the step is a cube", "the trace says `unsat` over cubes: its result is wrong, or a clause lost its antecedents"),
    (
        "S5",
        "formula",
        "a clause has no literal in the cube",
        "give the formula that the solver read. If it is that one, a sign was flipped, the step lost its antecedents, or it was written "
        "already reduced: write the full cube, and the reduced one as a step with the full one as antecedent, as DepQBF does",
    ),
    ("S5", "side", "the step is a clause of the formula", "the trace says `sat` over clauses: its result is wrong"),
    ("S6", "more", "a literal too many", "weakening is not a rule here: leave the literal out"),
    (
        "S6",
        "sign",
        "a literal whose negation is in the antecedent",
        "a sign was flipped, here or there, so the trace is damaged: have the solver write it again",
    ),
    ("S7", "scheme", "a reducible quantifier, too far out", "the prefix is another one, or a dependency scheme was used: `--dep-man=simple`"),
    (
        "S7",
        "lost",
        "a literal is gone that is never reduced",
        "an antecedent or a literal was lost, and no prefix explains that, so the trace is damaged: have the solver write it again",
    ),
    ("S8", None, "the antecedents do not clash", "an antecedent or a sign is wrong, so the trace is damaged: have the solver write it again"),
    (
        "S9",
        None,
        "the antecedents clash in several variables",
        "first reduce the antecedents, in separate steps, until one clash is left; or leave out long-distance resolution. Where the solver "
        "did neither, a sign was flipped",
    ),
    (
        "S10",
        None,
        "the pivot has the other quantifier",
        "use `--qu`, which allows a pivot of either quantifier (QU-resolution and its dual)",
    ),
    ("S11", "more", "a literal too many", "weakening is not a rule here: leave the literal out"),
    (
        "S11",
        "sign",
        "a literal whose negation is in the resolvent",
        "a sign was flipped, here or in an antecedent, so the trace is damaged: have the solver write it again",
    ),
    ("S11", "pivot", "a literal of the pivot", "leave the literal out: the resolvent does not hold the pivot"),
    ("S12", "scheme", "a reducible quantifier, too far out", "the prefix is another one, or a dependency scheme was used: `--dep-man=simple`"),
    (
        "S12",
        "lost",
        "a literal is gone that is never reduced",
        "an antecedent or a literal was lost, and no prefix explains that, so the trace is damaged: have the solver write it again",
    ),
    ("DEVICE", None, "a file cannot be opened or read", "give the file's name, and the right to read it"),
    (
        "DEVICE",
        "minus",
        "the name is `-`",
        "`-` is a name like any other here: give `/dev/stdin` for the standard input, or use `tools/check`, where `-` is that",
    ),
    ("NO MEMORY", None, "memory was refused", "raise the limit (`ulimit -v`), or take a machine with more memory"),
    ("USAGE", None, "wrong arguments", "give the arguments as in the usage; names of files have to be valid UTF-8"),
]

NEXT = [
    (
        "VERIFIED true",
        "`qrp_cmd trim` writes the steps that the proof needs, `tools/proof-stats` says how large it is, and `tools/play` the winner's moves",
    ),
    (
        "VERIFIED false",
        "`qrp_cmd trim` writes the steps that the proof needs, `tools/proof-stats` says how large it is, `tools/used-clauses` which clauses it "
        "uses, and `tools/play` the winner's moves",
    ),
]

TRACE_OPTIONS = "DepQBF writes a trace only with `--trace=qrp --dep-man=simple --no-qbce-dynamic` and a learning mode: docs/DEPQBF.md"
SAY_TRACE = "have the solver write a trace in QRP: `--trace=qrp`"
QDIMACS = "turn it into QDIMACS: `qrp_gates clauses FILE > FORMULA` does that for QCIR-14"
TEXT_FORM = "have the solver write the text form: `--trace=qrp`"
KINDS = [
    ("no formula", "The formula is empty", "give the whole file: what wrote this one wrote nothing"),
    ("no trace", "The trace is empty", f"{TRACE_OPTIONS}. If they were given, see what the solver printed on its standard error"),
    ("gzip", "It is compressed by gzip", "unpack it, or give `<(zcat FILE)`; `tools/check FORMULA TRACE` takes it as it is"),
    ("bzip2", "It is compressed by bzip2", "unpack it, or give `<(bzcat FILE)`; `tools/check FORMULA TRACE` takes it as it is"),
    ("xz", "It is compressed by xz", "unpack it, or give `<(xzcat FILE)`; `tools/check FORMULA TRACE` takes it as it is"),
    ("zstd", "It is compressed by zstd", "unpack it, or give `<(zstdcat FILE)`; `tools/check FORMULA TRACE` takes it as it is"),
    ("zip", "It is a zip archive", "unpack it"),
    ("tar", "It is a tar archive", "unpack it: `tar xf FILE`"),
    ("git-lfs", "It is a pointer of git-lfs, which says where the file is", "get the file itself: `git lfs pull`"),
    ("stamps", "Its header is in line N, after something that a log puts before each line", "take that out of each line: `cut` and `sed` do that"),
    ("program", "It is a program", "give the file that the program reads or writes"),
    ("mark", "It begins with a byte order mark, which an editor wrote", "take out the first three bytes: `tail -c +4 FILE > NEW`"),
    ("UTF-16", "It is in UTF-16", "write it as plain ASCII: `iconv -f UTF-16 -t ASCII FILE > NEW`"),
    ("UTF-16LE", "It is in UTF-16, without the mark at its beginning", "write it as plain ASCII: `iconv -f UTF-16LE -t ASCII FILE > NEW`"),
    ("binary QRP", "It is a trace in the binary form of QRP", TEXT_FORM),
    ("QCIR", "It is a formula in QCIR, which has no clauses", QDIMACS),
    ("AIGER", "It is a circuit in AIGER", "turn it into QDIMACS: `tools/from-aiger FILE > FORMULA`"),
    ("page", "It looks like a web page, not the file that was to be downloaded", "download the file itself"),
    ("returns", "It has no byte 10, and N bytes 13 that end no line here", "turn the line ends: `tr '\\r' '\\n' < FILE > NEW`"),
    ("zeros", "It is not a text: it has zero bytes, as a proof in the binary form of DRAT", SAY_TRACE),
    ("no text", "It is not a text: it has zero bytes", "give a formula in QDIMACS, which is plain ASCII"),
    ("formula", "It is a formula, and so is the first file: was the same one given twice?", "give the solver's trace as the second file"),
    (
        "joined",
        "It is a formula with a trace after it, whose header is in line N",
        "take out what comes before line N: the formula is the first file alone",
    ),
    ("trace", "It is a trace, not a formula. Were the two files exchanged?", "give the formula first, and then the trace"),
    (
        "late",
        "Its header is in line N. What comes before it is no part of it: messages, or the formula that --pretty-print writes?",
        "take out what comes before line N, and do not join the standard error to the standard output (`2>&1`)",
    ),
    ("DRAT", "It looks like a proof in DRAT (clauses to add, `d` for those to delete): that is a proof for SAT", SAY_TRACE),
    ("clauses", "It looks like a list of clauses, or a proof in DRAT, which is one for SAT", SAY_TRACE),
    ("QRAT", "It looks like a proof in QRAT, which is another calculus", SAY_TRACE),
    ("answer", "It is the solver's answer, not a trace: was --trace=qrp left out?", TRACE_OPTIONS),
    ("no qrp", "The header `p qrp` is missing; the rest looks like a trace", "put `p qrp 0 0` before it, or give the whole file"),
    (
        "no cnf",
        "The header `p cnf VARIABLES CLAUSES` is missing; the rest looks like a formula",
        "put the header before it, with the greatest variable and the number of clauses, or give the whole file",
    ),
    ("odd", "It is not a plain text", "give the file as plain ASCII"),
]

ADVICE: dict[tuple[str, Optional[str]], str] = {(fault, cause): advice for fault, cause, _, advice in ROWS}
ADVICE |= {("VERIFIED", truth.split()[1]): advice for truth, advice in NEXT}
ADVICE |= {("kind", kind): advice for kind, _, advice in KINDS}
LOOKS = {kind: sentence for kind, sentence, _ in KINDS}


def with_number(text: str, number: Optional[int]) -> str:
    """A sentence or an advice with the number that it has N for."""
    return re.sub(r"\bN\b", str(number), text)


def advice_for(fault: str, cause: Optional[str], number: Optional[int] = None) -> Optional[str]:
    """What to do about a fault, or by a kind of file, as a user of this command types it; None if there is nothing to say."""
    advice = ADVICE.get((fault, cause))
    return as_called(with_number(advice, number)) if advice else None
