"""A toolchain that is made up, and a repository of one crate for it, so that tests of the gate prove nothing and take no time; and repositories
of other files with another toolchain.

What a check says of a function is told by its body: `a - b` does not close `returns`; with `a * b` no stored answer fits, and without one
`returns` is open; `a / b` is false for some values; `most` is proved with its stored answer alone. `b + a` waits for what is not proved, and
`@` is no text of the language.
"""

import os
import shutil
import subprocess
import tempfile
from collections.abc import Callable
from pathlib import Path
from typing import Optional, TypeVar

GATE = Path(__file__).resolve().parents[2] / "gate"

SOURCE = """//! A library.
mod low;
pub struct Pair(u64, u64);
/// A sum, as `sum(1, 2)`; not `fn sum` of anything else.
pub fn sum(a: u64, b: u64) -> u64 {
    low::first(a) + b
}
pub fn most(a: u64) -> u64 {
    a + 0
}
impl<F> From<(Fault, u64)> for Pair<F> where F: Copy {
    fn from(given: (Fault, u64)) -> Pair<F> {
        Pair(given.1, 0)
    }
}
impl Pair {
    pub fn left(&self) -> u64 {
        self.0
    }

    pub fn made(fault: Fault) -> Pair {
        Pair::from((fault, 0))
    }
}
"""
LOW = "pub fn first(a: u64) -> u64\n    ensures { result ≡ a }\n{\n    a\n}\n"

RT = r"""#!/usr/bin/env python3
import re, sys, time, pathlib
verb, here = sys.argv[1], pathlib.Path.cwd()
if verb == "version":
    print("made up"), sys.exit(0)
texts = {p: p.read_text() for p in sorted(here.glob("src/*.rt"))}
log = pathlib.Path(__file__).with_name("log")
log.open("a").write(" ".join(sys.argv[1:]) + "\n")
if any("slow" in text for text in texts.values()):
    time.sleep(60)
if verb == "lib":
    if any("unproved" in text for text in texts.values()):
        print("error: not this"), sys.exit(1)
    (here / "out/rlib").mkdir(parents=True, exist_ok=True)
    sys.exit(0)
if verb == "try":
    text = "\n".join(texts.values())
    for number, witness in re.findall(r"mod witness_(\d+) (.*?)(?=mod witness_|\Z)", text, re.S):
        called = re.search(r"\bmost\w*(?=\()", witness)
        own = re.sub(r"fn \w+_tried_\d+\(.*?\n}", "", text, flags=re.S)
        looked_at = re.search(rf"fn {called[0]}\(.*?\n}}", text, re.S)[0] if called else own
        is_seen = "sees" in witness and ("a * 2" in looked_at or "a * b" in looked_at)
        if "stops" not in witness:
            print(f"test witness_{number}::differs ...", "FAILED" if is_seen or "fails" in witness else "ok")
    sys.exit(0)


def say(path, folder, place, name, body, stored):
    if "@" in body:
        return [f"{place}:1: error: expected an expression"]
    is_most = name.startswith("most")
    fits = "fits" not in stored or not ("a * b" in body or is_most and "a + 0" not in body)
    is_open = any(word in body for word in ("a - b", "a * b", "a / b", "a.0")) or is_most and "fits" not in stored
    goals = ["returns"] if is_open else []
    goals += ["bounds-a-b"] if "a[b]" in body else []
    goals += ["prove-unreachable-requires"] if "prove!" in body else []
    said = [f"./{folder}/Answers.antt:6:13: error: `no_answer`: the two types differ"] if "no_answer" in stored else []
    # Of `sum` itself `a + a` is proved, and of a copy it rests on what is not.
    if "b + a" in body or "a + a" in body and name != "sum":
        return [*said, f"fn {path}: no proof: it calls `one::low::first`, which is not proved"]
    if not fits:
        return [*said, f"./{folder}/Answers.antt:4:3: error: `returns`: the two types differ", f"fn {path}: not proved"]
    at_values = "; the values at which this goal is false" if "a / b" in body else ""
    notes = [f"note: {place}:1: it is not proved that what the function ensures holds when it returns (`{goal}`){at_values}" for goal in goals]
    return [*said, *notes, f"fn {path}: {'not proved' if said or notes else 'proved'}"]


said = []
for file, text in texts.items():
    module = [] if file.stem == "lib" else [file.stem]
    for found in re.finditer(r"\bfn (\w+)(.*?)(?=\bfn \w|\Z)", text, re.S):
        name, body = found.groups()
        folder = "/".join(["proofs", *module, name])
        answers, path = here / folder / "Answers.antt", "::".join(["one", *module, name])
        if path in sys.argv:
            place = f"{file.relative_to(here)}:{text.count(chr(10), 0, found.start()) + 1}"
            said += say(path, folder, place, name, body, answers.read_text() if answers.exists() else "")
print("\n".join(said))
sys.exit(0 if all(line.endswith(": proved") for line in said) else 1)
"""

EDITS = {
    "sum_is_a_difference": "file: src/lib.rt\nold: low::first(a) + b\nnew: a - b\n",
    "sum_is_a_product": "file: src/lib.rt\nold: low::first(a) + b\nnew: a * b\n",
    "first_is_a_field": "file: src/low.rt\nold:     a\nnew:     a.0\n",
}


Entered = TypeVar("Entered", bound="Gate")


class Gate:
    """A repository of some files in a folder of its own, with the commands of the gate and a toolchain."""

    def __init__(self, rt: str, texts: dict[str, str]) -> None:
        self.root = Path(tempfile.mkdtemp(prefix="test-gate-"))
        self.rt, self.temporary = self.root / "rt", self.root / "temporary"
        shutil.copytree(GATE, self.root / "gate")
        for name, text in {"rt": rt, **texts}.items():
            (self.root / name).parent.mkdir(parents=True, exist_ok=True)
            (self.root / name).write_text(text)
        self.rt.chmod(0o755)
        self.temporary.mkdir()

    def environment(self, **more: str) -> dict[str, str]:
        kept = {"XDG_CACHE_HOME": str(self.root / "kept")}
        return {**os.environ, "RT": str(self.rt), "TMPDIR": str(self.temporary), "PYTHONDONTWRITEBYTECODE": "1", **kept, **more}

    def script(self, name: str = "try-wrong-bodies") -> str:
        return str(self.root / "gate" / name)

    def run(
        self, *words: str, script: str = "try-wrong-bodies", before: Optional[Callable[[], object]] = None, **more: str
    ) -> subprocess.CompletedProcess[str]:
        """Runs a command of the gate, with something done before in its process, and more in its environment."""
        called, environment = [self.script(script), *words], self.environment(**more)
        return subprocess.run(called, capture_output=True, text=True, check=False, env=environment, preexec_fn=before)

    def log(self) -> list[str]:
        """The calls of the toolchain."""
        log = self.root / "log"
        return log.read_text().splitlines() if log.exists() else []

    def left(self) -> list[str]:
        """What is left in the folder of temporary files."""
        return [str(path) for path in self.temporary.iterdir()]

    def __enter__(self: Entered) -> Entered:
        return self

    def __exit__(self, *_: object) -> None:
        shutil.rmtree(self.root)


class Repository(Gate):
    """A repository of one crate with mutants."""

    def __init__(self, edits: dict[str, str], source: str = SOURCE) -> None:
        answers = "use Rattle.std.{refl}\n\npub returns : goal.returns\nreturns c = fits\n"
        crate = {"src/lib.rt": source, "src/low.rt": LOW, "proofs/sum/Answers.antt": answers, "proofs/most/Answers.antt": answers}
        crate |= {f"must-fail/{name}.edit": text for name, text in edits.items()}
        texts = {"crates.txt": "# NAME: what it stands on\none: indexmap\n", **{f"crates/one/{name}": text for name, text in crate.items()}}
        super().__init__(RT, {**texts, "gate/wrong-bodies.tsv": "# made up\n" + "".join(f"one/{name}\t-\n" for name in edits)})
        self.crate, self.table = self.root / "crates/one", self.root / "gate/wrong-bodies.tsv"
        self.must_fail = self.crate / "must-fail"
        (self.crate / "out").mkdir()
