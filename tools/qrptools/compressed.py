"""Compressed files: how they are known, and what unpacks them. A part of tools/check, tools/check-many and tools/from-aiger, for those of their
parts too that begin often: to read this takes little time."""

from __future__ import annotations

import os
import stat

COMPRESSED = [(b"\x1f\x8b", "gzip"), (b"BZh", "bzip2"), (b"\xfd7zXZ", "xz"), (b"\x28\xb5\x2f\xfd", "zstd")]  # the program by the first bytes
PACKAGES = {"xz": "xz-utils"}  # of Debian, if it is not called as the program
WARNED = 2  # the status of gzip if all was unpacked, and bytes come after the end


def unpacker_of(path: str) -> str | None:
    """The program that unpacks a file, None if it is not compressed, is no regular file, or cannot be read."""
    try:
        if not stat.S_ISREG(os.stat(path).st_mode):
            return None
        with open(path, "rb", buffering=0) as file:
            head = file.read(8)
    except (OSError, ValueError):
        return None
    return next((program for magic, program in COMPRESSED if head.startswith(magic)), None)


def is_unpacked(program: str, status: int) -> bool:
    """Whether a file was unpacked to its end, or as far as somebody read it."""
    return status in (0, -13, 141) or program == "gzip" and status == WARNED
