"""Makes expressions of the gates of a strategy. A part of tools/explain-strategy.

A gate is written out in the place where it is used, unless it is used more than once, or the expression would have more than LARGEST literals:
then it gets a name. The negation of a conjunction is written as a disjunction. What follows from the other terms of a conjunction is left out.

The gates are looked at once, in their order, and only their sizes are kept. The terms of an expression are made if something may follow in it:
if a literal of a conjunction stands once more in it, or in the gates with names of which it has a literal. That is looked at when a gate gets a
name, and before that if an expression becomes too large. Else an expression is written straight from its gates. In a circuit of more than MOST
gates, which nobody reads as a whole, it is not looked at.
"""

from collections import Counter
from collections.abc import Iterable, Iterator
from typing import Callable, NamedTuple, Optional, Union

from qrptools.strategies.strategy import Strategy

LARGEST = 8  # literals in an expression
MOST = 20_000  # gates of a circuit in which something may be left out
FALSE, TRUE = 0, 1  # as literals


class Node(NamedTuple):
    """A conjunction of terms, or a disjunction; and how many literals it has."""

    is_and: bool
    terms: tuple["Term", ...]
    size: int


Term = Union[int, Node]  # a literal, or an expression


class Style(NamedTuple):
    """How expressions are written: negation, conjunction, disjunction, the two constants, and what a literal without a sign is called."""

    signs: tuple[str, str, str]
    constants: tuple[str, str]
    name: Callable[[int], str]


def size(term: Term) -> int:
    return term.size if isinstance(term, Node) else 1


def literals(term: Term) -> Iterator[int]:
    """The literals of a term, in their order."""
    if isinstance(term, Node):
        for part in term.terms:
            yield from literals(part)
    else:
        yield term


def first_of(term: Term) -> int:
    """The first literal of a term."""
    while isinstance(term, Node):
        term = term.terms[0]
    return term


def negated(term: Term) -> Term:
    return Node(not term.is_and, tuple(map(negated, term.terms)), term.size) if isinstance(term, Node) else term ^ 1


def signed(term: Term, literal: int) -> Term:
    """A term, negated if the literal is."""
    return negated(term) if literal & 1 else term


def parts(term: Term, is_and: bool = True) -> tuple[Term, ...]:
    """The terms that a term is the conjunction of, or the disjunction."""
    return term.terms if isinstance(term, Node) and term.is_and == is_and else (term,)


def joined(terms: Iterable[Term], is_and: bool = True) -> Term:
    """The conjunction of some terms, or the disjunction: literals come first, and then what begins with the least literal."""
    own, nodes = divided(terms)
    if len(own) + len(nodes) < 2:
        return own[0] if own else nodes[0] if nodes else int(is_and)
    return Node(is_and, (*sorted(own), *sorted(nodes, key=first_of)), len(own) + sum(map(size, nodes)))


def divided(terms: Iterable[Term]) -> tuple[list[int], list[Node]]:
    """Those of some terms that are literals, and the others."""
    own: list[int] = []
    nodes: list[Node] = []
    for term in terms:
        if isinstance(term, Node):
            nodes.append(term)
        else:
            own.append(term)
    return own, nodes


def given(term: Term, known: set[int]) -> Term:
    """What is left of a term if these literals are true."""
    if not isinstance(term, Node):
        if term in known:
            return TRUE
        return FALSE if term ^ 1 in known else term
    left = [given(part, known) for part in term.terms]
    if all(new is old for new, old in zip(left, term.terms)):
        return term
    if int(not term.is_and) in left:
        return int(not term.is_and)
    return joined((part for new in left if new != int(term.is_and) for part in parts(new, term.is_and)), term.is_and)


# What an expression has: whether it is a conjunction, which literals are terms of it, and the variables of all its literals, those of the
# terms last. One that is a literal is a conjunction.
Look = tuple[bool, list[int], list[int]]
UNSEEN: Look = True, [], []  # of a gate with a name that nothing looks at


def look_of(term: Term) -> Look:
    if not isinstance(term, Node):
        return True, [term], [term & ~1]
    own = [part for part in term.terms if not isinstance(part, Node)]
    rest = [literal & ~1 for part in term.terms if isinstance(part, Node) for literal in literals(part)]
    return term.is_and, own, rest + [literal & ~1 for literal in own]


class Expressions:
    """The expressions of the outputs of a strategy, and of the gates with names."""

    def __init__(self, strategy: Strategy) -> None:
        self.strategy, self.gates = strategy, strategy.gates
        self.nodes: dict[int, Term] = {}  # the expressions in which something follows
        self.named: dict[int, Look] = {}  # gates with names
        self.looked: dict[int, Look] = {}  # at other gates
        self.sizes: dict[int, int] = {}  # how many literals the expression of each other gate has
        self.uses = Counter([literal & ~1 for both in self.gates.values() for literal in both])
        self.uses.update(literal & ~1 for literal in self.strategy.outputs.values())
        if len(self.gates) > MOST:
            self.make_plainly()
        else:
            self.make()
            self.make_again()

    def often(self) -> set[int]:
        """The gates that are used more than once."""
        return {gate for gate, count in self.uses.items() if count > 1}

    def make_plainly(self) -> None:
        """Finds the gates that have names. Each expression is written straight from its gates."""
        sizes, size_of, named, often = self.sizes, self.sizes.get, self.named, self.often()
        for gate, (one, other) in self.gates.items():
            first, second = size_of(one & ~1, 1), size_of(other & ~1, 1)
            while first + second > LARGEST:
                larger = one & ~1 if first >= second else other & ~1
                named[larger] = UNSEEN
                del sizes[larger]
                first, second = size_of(one & ~1, 1), size_of(other & ~1, 1)
            if gate in often:
                named[gate] = UNSEEN
            else:
                sizes[gate] = first + second
        self.reach()

    def make(self) -> None:
        """Finds the gates that have names, if gates are used as often as in the circuit, and the expressions in which something follows."""
        sizes, size_of, often = self.sizes, self.sizes.get, self.often()
        for gate, (one, other) in self.gates.items():
            whole = size_of(one & ~1, 1) + size_of(other & ~1, 1)
            sizes[gate] = whole if whole <= LARGEST else self.cut(one & ~1, other & ~1)
            if gate in often:
                self.give_name(gate)
        self.look_at_outputs()
        self.reach()

    def make_again(self) -> None:
        """The same once more, if gates are used as often as they are written: only of gates of which this changes something."""
        before, self.uses = self.uses, self.written
        changed: set[int] = {gate for gate in self.named if before[gate] > 1 and self.uses[gate] == 1}
        if not changed:
            return
        for gate, (one, other) in self.gates.items():
            if one & ~1 in changed or other & ~1 in changed or gate in changed:
                found = self.named.get(gate)
                self.forget(gate)
                for below in one & ~1, other & ~1:
                    if below in self.named and self.uses[below] < 2:
                        self.forget(below)
                        self.look(below)
                self.sizes[gate] = self.cut(one & ~1, other & ~1)
                if self.uses[gate] > 1:
                    self.give_name(gate)
                if found is None or self.named.get(gate) != found:
                    changed.add(gate)
        self.look_at_outputs()
        self.reach()

    def look_at_outputs(self) -> None:
        """Finds what follows in the expressions of outputs."""
        for literal in self.strategy.outputs.values():
            if literal & ~1 in self.sizes:
                self.look(literal & ~1)

    def forget(self, gate: int) -> None:
        """Lets a gate be as if nothing were known of it, but for its size."""
        found = self.named.pop(gate, None)
        if found:
            self.sizes[gate] = len(found[2])
        self.looked.pop(gate, None)
        self.nodes.pop(gate, None)

    def cut(self, one: int, other: int) -> int:
        """The size of the conjunction of two gates, after the larger got names if it is too large."""
        sizes, size_of = self.sizes, self.sizes.get
        for gate in one, other:
            if gate in sizes:
                self.look(gate)
        while size_of(one, 1) + size_of(other, 1) > LARGEST:
            self.give_name(one if size_of(one, 1) >= size_of(other, 1) else other)
        return size_of(one, 1) + size_of(other, 1)

    def give_name(self, gate: int) -> None:
        """Gives a gate a name, unless it is a literal."""
        found = self.looked.pop(gate, None) or self.look_anew(gate)
        if len(found[2]) > 1:
            self.named[gate] = found
            del self.sizes[gate]
        else:
            self.looked[gate] = found
            self.sizes[gate] = 1

    def look(self, gate: int) -> Look:
        """What the expression of a gate without a name has, and so its size. Its terms are made if something may follow in it."""
        found = self.looked.get(gate)
        if not found:
            self.looked[gate] = found = self.look_anew(gate)
            self.sizes[gate] = len(found[2])
        return found

    def look_anew(self, gate: int) -> Look:
        terms: list[int] = []
        nested: list[int] = []
        gates, sizes, looked, stack = self.gates, self.sizes, self.looked, [gate]
        while stack:
            for literal in gates[stack.pop()]:
                below = literal & ~1
                if below not in sizes:
                    terms.append(literal)
                elif literal & 1 or below in looked:
                    if sizes[below] == 2 and below not in looked and self.are_apart(*gates[below]):
                        nested += [inner & ~1 for inner in gates[below]]
                        continue
                    is_and, own, variables = looked.get(below) or self.look(below)
                    if is_and == bool(literal & 1) and len(variables) > 1:
                        nested += variables
                        continue
                    terms += [part ^ literal & 1 for part in own]
                    nested += variables[: len(variables) - len(own)]
                else:
                    stack.append(below)
        if terms and self.may_follow(terms, nested):
            return look_of(self.simplify(gate))
        return True, terms, nested + [literal & ~1 for literal in terms]

    def are_apart(self, one: int, other: int) -> bool:
        """Whether two literals are written as such, and none says something of the other."""
        first, second, named = one & ~1, other & ~1, self.named
        if first in self.sizes or second in self.sizes or first == second or not first or not second:
            return False
        if first not in named:
            return second not in named or first not in named[second][2]
        if second in named:
            return not self.may_follow([one, other], [])
        return second not in named[first][2]

    def may_follow(self, terms: list[int], nested: list[int]) -> bool:
        """Whether a conjunction of these literals, and of expressions with these variables, may have something that follows from the rest."""
        known = [literal & ~1 for literal in terms]
        different, named = set(known), self.named
        if len(different) < len(known) or FALSE in different or not different.isdisjoint(nested):
            return True
        if named.keys().isdisjoint(different):
            return False
        implied: set[int] = set()
        touched: list[int] = []
        for literal in terms:
            found = named.get(literal & ~1)
            if found:
                is_and, own, variables = found
                if is_and == bool(literal & 1):
                    touched += variables
                else:
                    implied.update([part ^ 1 for part in own] if literal & 1 else own)
        if implied:
            variables = [literal & ~1 for literal in implied]
            before = len(different)
            different.update(variables)
            if len(different) < before + len(variables) or not different.isdisjoint(nested):
                return True
        return not different.isdisjoint(touched)

    def simplify(self, gate: int) -> Term:
        """Makes the terms of a gate without a name, with those of the gates in it, and leaves out what follows."""
        terms: dict[Term, None] = {}
        gates, sizes, nodes, stack = self.gates, self.sizes, self.nodes, [*reversed(self.gates[gate])]
        while stack:
            literal = stack.pop()
            if literal & ~1 not in sizes:
                terms[literal] = None
            elif literal & 1 or literal in nodes:
                terms.update(dict.fromkeys(parts(self.simple(literal))))
            else:
                stack += reversed(gates[literal])
        self.nodes[gate] = self.simplified(list(terms))
        return self.nodes[gate]

    def simple(self, literal: int) -> Term:
        """A literal as it is written: as such, or as the expression of its gate, without what follows."""
        gate = literal & ~1
        if gate not in self.sizes:
            return literal
        return signed(self.nodes[gate] if gate in self.nodes else self.simplify(gate), literal)

    def simplified(self, terms: list[Term]) -> Term:
        """The conjunction of some terms, without what follows from the others."""
        own, others = divided(terms)
        may_follow = self.may_follow(own, [literal & ~1 for node in others for literal in literals(node)])
        before: Optional[list[Term]] = None if may_follow else terms
        while terms != before:
            before, known = terms, {TRUE, *(term for term in terms if not isinstance(term, Node))}
            implied = {other for literal in known for other in self.implied(literal)} - known
            known = {self.unit(literal, known | implied) for literal in known}
            nodes = [given(term, known | implied) for term in terms if isinstance(term, Node)]
            if FALSE in known or FALSE in nodes or any(literal ^ 1 in known | implied for literal in known | implied):
                return FALSE
            nodes = [part for node in nodes if node != TRUE for part in parts(node)]
            follows = {other for literal in known for other in self.implied(literal)}
            terms = list(dict.fromkeys([*sorted(known - follows - {TRUE}), *nodes]))
        return joined(terms)

    def unit(self, literal: int, known: set[int]) -> int:
        """That of a gate with a name, if it is a disjunction of which one literal is left: this one. Else the literal itself."""
        if literal & ~1 not in self.named or self.is_conjunction(literal):
            return literal
        left = given(signed(self.node(literal & ~1), literal), known - {literal})
        return literal if isinstance(left, Node) else left

    def implied(self, literal: int) -> list[int]:
        """The literals that are true if that of a gate with a name is."""
        if literal & ~1 not in self.named or not self.is_conjunction(literal):
            return []
        return [part ^ literal & 1 for part in self.named[literal & ~1][1]]

    def is_conjunction(self, literal: int) -> bool:
        """Whether the literal of a gate with a name means a conjunction."""
        return self.named[literal & ~1][0] != bool(literal & 1)

    def node(self, gate: int) -> Term:
        """The terms of a gate."""
        if gate not in self.nodes:
            self.nodes[gate] = joined(part for literal in self.gates[gate] for part in parts(self.term(literal)))
        return self.nodes[gate]

    def term(self, literal: int) -> Term:
        """A literal as it is written: as such, or as the expression of its gate."""
        return signed(self.node(literal & ~1), literal) if literal & ~1 in self.sizes else literal

    def reach(self) -> None:
        """Finds the first output that needs each gate, by its place, and how often each variable is written."""
        used = [literal & ~1 for literal in self.strategy.outputs.values()]
        places = {gate: place for place, gate in reversed(list(enumerate(used)))}
        nodes, place_of = self.nodes, places.get
        for gate, both in reversed(self.gates.items()):
            place = place_of(gate)
            if place is None:
                continue
            needed = [literal & ~1 for literal in literals(nodes[gate])] if gate in nodes else (both[0] & ~1, both[1] & ~1)
            used += needed
            for below in needed:
                if place_of(below, place) >= place:
                    places[below] = place
        self.places, self.written = places, Counter(used)

    def definitions(self, style: Style) -> "Iterator[tuple[int, list[tuple[int, str]], str]]":
        """Each output by its variable, with the gates with names that it needs and no output before it, each after those that it needs, and
        their expressions; and its own."""
        new: list[list[int]] = [[] for _ in self.strategy.outputs]
        for gate in self.gates:
            if gate in self.named and gate in self.places:
                new[self.places[gate]].append(gate)
        text = Text(self, style)
        for gates, (variable, literal) in zip(new, self.strategy.outputs.items()):
            yield variable, [(gate, text.of_gate(gate, 0)[1]) for gate in gates], text.of_literal(literal)


class Text:
    """Expressions in a style. One in another one stands between parentheses."""

    def __init__(self, expressions: Expressions, style: Style) -> None:
        self.gates, self.nodes, self.sizes = expressions.gates, expressions.nodes, expressions.sizes
        negation, *signs = style.signs
        self.signs = [f" {sign} " for sign in signs]
        self.words = dict(enumerate(style.constants))  # of the literals that are written as such
        for literal in (*expressions.strategy.inputs, *expressions.named):
            self.words[literal] = name = style.name(literal)
            self.words[literal + 1] = negation + name

    def of_literal(self, literal: int) -> str:
        if literal & ~1 not in self.sizes:
            return self.words[literal]
        return self.of_gate(literal & ~1, literal & 1)[1]

    def of_gate(self, gate: int, sign: int) -> tuple[int, str]:
        """The expression of a gate, negated if the sign is 1, after its first literal."""
        if gate in self.nodes:
            return self.of_term(signed(self.nodes[gate], sign))
        terms: list[int] = []
        nested: list[tuple[int, str]] = []
        gates, sizes, words, stack = self.gates, self.sizes, self.words, [gate]
        while stack:
            for literal in gates[stack.pop()]:
                below = literal & ~1
                if below not in sizes:
                    terms.append(literal ^ sign)
                elif below in self.nodes:
                    self.add(signed(self.nodes[below], literal ^ sign), sign, terms, nested)
                elif not literal & 1:
                    stack.append(below)
                elif sizes[below] == 2:
                    nested.append(self.of_pair(below, sign))
                else:
                    first, text = self.of_gate(below, 1 - sign)
                    nested.append((first ^ sign, text))
        terms.sort()
        nested.sort()
        found = [words[term] for term in terms] + [f"({text})" for _, text in nested]
        return terms[0] if terms else nested[0][0] ^ sign, self.signs[sign].join(found)

    def of_pair(self, gate: int, sign: int) -> tuple[int, str]:
        """The expression of two literals as a part of one of this sign, after its first literal in a conjunction."""
        one, other = self.gates[gate]
        if one & ~1 in self.sizes or other & ~1 in self.sizes:
            first, text = self.of_gate(gate, 1 - sign)
            return first ^ sign, text
        if one > other:
            one, other = other, one
        turned = 1 - sign
        return one ^ 1, self.words[one ^ turned] + self.signs[turned] + self.words[other ^ turned]

    def add(self, term: Term, sign: int, terms: list[int], nested: list[tuple[int, str]]) -> None:
        """Adds a term to those of a conjunction, or with the sign 1 of a disjunction."""
        for part in parts(term, not sign):
            if isinstance(part, Node):
                first, text = self.of_term(part)
                nested.append((first ^ sign, text))
            else:
                terms.append(part)

    def of_term(self, term: Term) -> tuple[int, str]:
        if not isinstance(term, Node):
            return term, self.words[term]
        words = [f"({self.of_term(part)[1]})" if isinstance(part, Node) else self.words[part] for part in term.terms]
        return first_of(term), self.signs[not term.is_and].join(words)
