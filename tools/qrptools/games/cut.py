"""Takes literals out of lines of text, and lines out of a text. A part of tools/play.

A text is some lines of clauses or of steps, with a line end before the first one too. A line of a step is as 'qrp_cmd trim' writes it, and one
of a clause is the same without a number and antecedents: a blank, and a blank after each literal, and 0.
"""

from collections.abc import Iterable
from itertools import chain, compress, dropwhile, filterfalse, repeat, takewhile

FEW = 12  # literals: they are looked for one after the other in a whole text
GUARD = b"!"


def spelled(literals: Iterable[int]) -> frozenset[bytes]:
    return frozenset(map(b"%d".__mod__, literals))


def literals(line: bytes) -> list[bytes]:
    """The literals of a line."""
    return line.partition(b" 0 ")[0].removesuffix(b" 0").split(b" ")[1:]


def count_lines(some: Iterable[bytes]) -> int:
    """How many lines some texts have."""
    return sum(text.count(b"\n") - 1 for text in some)


class Cut:
    """What values do to lines: some literals are taken out, and a line that has one of some others is gone."""

    def __init__(self, out: frozenset[bytes], gone: frozenset[bytes] = frozenset()) -> None:
        self.out, self.gone = out, gone

    def clauses(self, text: bytes) -> bytes:
        """What is left of a text of clauses."""
        if self.are_few():
            return self.few(text)
        rest, _ = self.many(text.split(b" 0")[:-1])
        return b" 0".join([*rest, b"\n"])

    def steps(self, text: bytes) -> bytes:
        """What is left of a text of steps, whose antecedents stay."""
        if self.are_few():
            return self.few(self.guarded(text)).replace(GUARD, b" ")
        lists = text.split(b" 0")
        rest, stay = self.many(lists[:-1:2])
        return b" 0".join([*chain.from_iterable(zip(rest, compress(lists[1::2], stay))), b"\n"])

    def are_few(self) -> bool:
        return len(self.out) + len(self.gone) <= FEW

    def guarded(self, text: bytes) -> bytes:
        """A text of steps in which no antecedent stands between blanks whose number is also a literal that is looked for."""
        for literal in self.out | self.gone:
            if literal[:1] == b"-":
                continue
            text = text.replace(b" 0 %b " % literal, b" 0%b%b " % (GUARD, literal))
            text = text.replace(b" %b 0\n" % literal, b"%b%b 0\n" % (GUARD, literal))
        return text

    def few(self, text: bytes) -> bytes:
        """The same literal by literal."""
        for some in [self.run(text), *([literal] for literal in self.out)]:
            word = b" %b " % b" ".join(some)
            while word in text:  # of a literal that is repeated not all are found at once
                text = text.replace(word, b" ")
        words = [word for word in map(b" %b ".__mod__, self.gone) if word in text]
        lines = text.split(b"\n") if words else [text]
        for word in words:
            lines = [line for line in lines if word not in line]
        return b"\n".join(lines)

    def run(self, text: bytes) -> list[bytes]:
        """Those of the literals that are next to each other in the line in the middle: often they are so in many lines."""
        start = text.find(b"\n", len(text) // 2) + 1
        goes = self.out.__contains__
        return list(takewhile(goes, dropwhile(lambda word: not goes(word), literals(text[start : text.find(b"\n", start)]))))

    def many(self, lists: list[bytes]) -> tuple[list[bytes], bytes]:
        """What is left of lists of literals, each with its number after a line end, and which of them stay. No word that begins with a line end
        is a literal."""
        rows = list(map(bytes.split, lists, repeat(b" ")))
        stay = bytes(map(self.gone.isdisjoint, rows))
        left = compress(zip(lists, rows), stay)
        return [some if self.out.isdisjoint(row) else b" ".join(filterfalse(self.out.__contains__, row)) for some, row in left], stay
