"""Which bodies go together in one check: those of which none is refused or not for what another one does."""

import re
from pathlib import Path

from .bodies import Body
from .edits import source_of

# The most that go together, of many and of few, and the most of one function: so many that loading the crate hardly counts, and so few that the
# processors are all used, also where a function takes long.
MOST, MOST_OF_FEW, MOST_OF_ONE = 30, 5, 5

# Methods of std that some types of ours have too: a call of one is taken for std's, but on `self`.
OF_STD = {"push", "pop", "len", "get", "insert", "contains", "first", "last", "position", "is_empty", "new", "find", "take", "clone"}

Graph = dict[str, set[str]]


def calls(crate_name: str, crate: Path) -> Graph:
    """For each function of the crate those that it calls, by their names. A call that this misses, or one too many, costs time alone:
    a body that the check does not reach, since a function that it calls is refused, is tried again."""
    texts = {}
    for file in sorted((crate / "src").rglob("*.rt")):
        source = source_of(crate_name, str(file.relative_to(crate)), file.read_text(encoding="utf-8"))
        texts.update({function.path: source.body(function) for function in source.functions})
    by_name: dict[str, list[str]] = {}
    for path in texts:
        by_name.setdefault(path.rsplit("::", 1)[1], []).append(path)
    found = {}
    for path, text in texts.items():
        words = set(re.findall(r"(self\.|\w+::|\.|\b)([a-z_]\w*)\s*(?:::<[^;()]*>)?\s*[(),]", text))
        found[path] = {to for before, name in words for to in by_name.get(name, ()) if to != path and may_be(to, before, path)}
    return found


def may_be(called: str, before: str, caller: str) -> bool:
    """Whether a call after some words can be one of a function that has the called name."""
    owner, name = called.split("::")[-2:]
    is_method = owner[0].isupper()
    if before in ("Self::", "self."):
        return called.rsplit("::", 1)[0] == caller.rsplit("::", 1)[0] or name not in OF_STD and is_method
    if before == ".":
        return is_method and name not in OF_STD
    if before.endswith("::") and before[0].isupper() and len(before) > 3:
        return re.fullmatch(f"{before[:-2]}([A-Z]\\w*)?", owner) is not None and (owner == before[:-2] or name not in OF_STD)
    return not is_method or len(before) == 3


def reached(graph: Graph) -> Graph:
    """For each function all that it calls, directly or through others."""
    found = {path: set(called) for path, called in graph.items()}
    grows = True
    while grows:
        grows = False
        for path, called in found.items():
            more = called.union(*(found[function] for function in called))
            if len(more) > len(called):
                found[path], grows = more, True
    return found


def most_together(mutants: int, jobs: int) -> int:
    """How many go together at most, by how many mutants there are in all: so few that there are two checks for each job."""
    return max(MOST_OF_FEW, min(MOST, mutants // (2 * jobs)))


def rounds(bodies: list[Body], reach: Graph, most: int) -> list[list[Body]]:
    """The bodies in groups: no function that stands changed in its place in a group is called by one that another body of it is of."""
    groups: list[list[Body]] = []
    for body in sorted(bodies, key=lambda body: (len(body.functions) == 1, body.copy is not None, body.name)):
        fitting = (group for group in groups if has_room(group, body, most) and all(are_apart(body, other, reach) for other in group))
        group: list[Body] = next(fitting, [])
        if not group:
            groups.append(group)
        group.append(body)
    return groups


def has_room(group: list[Body], body: Body, most: int) -> bool:
    return len(group) < most and sum(body.functions == other.functions for other in group) < MOST_OF_ONE


def are_apart(one: Body, other: Body, reach: Graph) -> bool:
    """Whether each of two bodies is refused or not whatever the other does."""
    if one.adds_functions or other.adds_functions or one.functions & other.functions and None in (one.copy, other.copy):
        return False
    calls_one = lambda body, by: body.copy is None and any(body.functions & reach.get(path, set()) for path in by.functions)
    return not calls_one(one, other) and not calls_one(other, one)
