"""What a file that is no formula or no trace looks like, by a word of the table KINDS. A part of tools/explain."""

import re
from typing import Optional

from qrptools.compressed import COMPRESSED

MAGIC = [
    *COMPRESSED,
    (b"PK\x03\x04", "zip"),
    (b"\x7fELF", "program"),
    (b"\xef\xbb\xbf", "mark"),
    (b"\xff\xfe", "UTF-16"),
    (b"\xfe\xff", "UTF-16"),
    (b"p bqrp", "binary QRP"),
    (b"#QCIR", "QCIR"),
    (b"aig ", "AIGER"),
    (b"aag ", "AIGER"),
    (b"<", "page"),
    (b"version https://git-lfs.github.com/", "git-lfs"),
]
TAR = slice(257, 262)  # where an archive of tar has the word
STAMPED = re.compile(rb"^(?:[\[(0-9][^\r\n]*?[ \t\])>|:])p[ \t]+(cnf|qrp)[ \t]+[0-9]+[ \t]+[0-9]+[ \t]*\r?$", re.MULTILINE)  # a header after a time
# of these no line is shown, since they are no texts
NO_TEXTS = {"gzip", "bzip2", "xz", "zstd", "zip", "tar", "program", "UTF-16", "UTF-16LE", "binary QRP", "zeros", "no text", "odd"}
HEADER = re.compile(rb"^[ \t]*p[ \t]+(cnf|qrp|bqrp)\b[^\r\n]*", re.MULTILINE)
STEP = re.compile(rb"[ae]( \d+)* 0\s*|\d+( -?[1-9]\d*)* 0( \d+)* 0\s*|r \w+\s*")
PROOF = re.compile(rb"(d )?-?[1-9]\d*( -?[1-9]\d*)* 0\s*|(d )?0\s*")
COMMENT_AFTER_RETURN = re.compile(rb"(?:^|\r)[ \t\r]*[c#]")
CLAUSE = re.compile(rb"([ae] )?(-?\d+ )*0\s*")


Look = tuple[Optional[str], Optional[int]]  # the kind of a file, None if it has the right look; and the number for its sentence


def looks(data: bytes, wanted: str) -> Look:
    """The look of a file from which `wanted` was expected, cnf or qrp."""
    head = data[:65536]
    if not head.strip():
        return "no formula" if wanted == "cnf" else "no trace", None
    for magic, kind in MAGIC:
        if head.startswith(magic):
            return kind, None
    if head[TAR] == b"ustar":
        return "tar", None
    if b"\n" not in data and COMMENT_AFTER_RETURN.search(data):  # a comment goes on to byte 10
        return "returns", data.count(b"\r")
    header = HEADER.search(head)
    if header:
        return looks_with_header(head, header, wanted)
    stamped = STAMPED.search(head)
    if stamped and stamped[1].decode() == wanted:
        return "stamps", head.count(b"\n", 0, stamped.start()) + 1
    if b"\0" in head[:4096]:
        return looks_with_zeros(head[:4096], wanted), None
    return looks_without_header(head, wanted), None


def looks_with_header(head: bytes, header: "re.Match[bytes]", wanted: str) -> Look:
    found, line = header[1].decode(), head.count(b"\n", 0, header.start()) + 1
    other = next((another for another in HEADER.finditer(head) if another[1] != header[1]), None)
    if found == "cnf" != wanted and other and other[1] == b"qrp":
        return "joined", head.count(b"\n", 0, other.start()) + 1
    if found != wanted:
        return {"bqrp": "binary QRP", "cnf": "formula", "qrp": "trace"}[found], line
    comments = b"c#" if wanted == "qrp" else b"c"
    before = [text for text in head[: header.start()].splitlines() if text.strip() and text.lstrip()[0] not in comments]
    return "late" if before else None, line


def looks_with_zeros(head: bytes, wanted: str) -> str:
    """UTF-16 has a zero beside each byte of a plain text."""
    if len(head) > 3 and not head[1::2].strip(b"\0") and b"\0" not in head[::2]:
        return "UTF-16LE"
    return "no text" if wanted == "cnf" else "zeros"


def looks_without_header(head: bytes, wanted: str) -> Optional[str]:
    lines = [text for text in head.splitlines()[:-1] or [head] if text.strip() and text.lstrip()[:1] not in (b"c", b"#")][:200]
    kind = looks_instead_of_trace(lines) if wanted == "qrp" else None
    if wanted == "cnf" and lines and all(CLAUSE.fullmatch(text) for text in lines):
        kind = "no cnf"
    is_odd = any(byte > 126 or byte < 9 for byte in head[:4096])
    return kind or ("odd" if is_odd else None)


def looks_instead_of_trace(lines: list[bytes]) -> Optional[str]:
    """What some lines look like that should be a trace, and have no header."""
    if any(text.startswith(b"d ") for text in lines) and all(PROOF.fullmatch(text) for text in lines):
        return "DRAT"
    if any(re.match(rb"[ud] ", text) for text in lines) and not any(text.startswith(b"p") for text in lines):
        return "QRAT"
    if any(text.startswith((b"s cnf ", b"s SAT")) for text in lines):
        return "answer"
    if lines and all(STEP.fullmatch(text) for text in lines):
        return "no qrp"
    if lines and all(PROOF.fullmatch(text) for text in lines):
        return "clauses"
    return "answer" if lines and lines[0].strip() in (b"SAT", b"UNSAT") else None
