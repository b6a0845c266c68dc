"""The witness of a mutant: a test in its file that passes with the right body and fails with the mutant.

A body stands as a function of its own if it can, as for the prover, and the witness then calls that one: so that many run in one build, none
of which sees the body of another. Where the witness does not name the changed function, the body stands in its place, in a build of its own.
"""

import re
from typing import Optional

from .bodies import Bodies, Body
from .edits import Mutant


class Run:
    """A run of a witness with a body, or with the crate's own."""

    def __init__(self, file: str, text: str, body: Optional[Body]) -> None:
        self.file, self.text, self.body = file, text, body
        self.passed: Optional[bool] = None
        copy = body.copy if body else None
        self.name, self.new_name = (path.rsplit("::", 1)[1] for path in (copy.of, copy.path)) if copy else ("", "")
        self.is_beside = body is None or copy is not None and re.search(self.call(), text) is not None

    def call(self) -> str:
        return rf"\b{self.name}\b(?=\(|::<)"

    def in_place(self) -> "Run":
        """The same with the body in the place of the crate's own."""
        self.body, self.name = self.body and self.body.in_place(), ""
        return self

    def test(self) -> tuple[str, str]:
        """The file that the test stands in, and its text."""
        return self.file, re.sub(self.call(), self.new_name, self.text) if self.name else self.text


class Witness:
    """The runs of the witness of a mutant: with the right body, and with the wrong one."""

    def __init__(self, mutant: Mutant, bodies: Bodies) -> None:
        right = bodies.right(mutant, True) if mutant.rights else None
        # the first of the files that it changes
        self.runs = [Run(next(iter(mutant.files)), mutant.witness, body) for body in (right, bodies.wrong(mutant, True))]
