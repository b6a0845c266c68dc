#!/usr/bin/env python3
"""The blocks of code of a page. usage: tests/pages.py PAGE WORDS prints the block of the page that begins with these words.

In a page of Markdown a block is fenced, or stands after an empty line with four blanks before each line. In a manual page it is what stands
below EXAMPLE between .nf and .fi.
"""

import re
import sys
from pathlib import Path
from typing import Union

BLOCK = re.compile(r"^```\w*\n(.*?)^```$|(?<=\n\n)((?: {4}[^\n]*\n)+(?:\n+(?: {4}[^\n]*\n)+)*)", re.MULTILINE | re.DOTALL)
EXAMPLE = re.compile(r"^\.nf\n(.*?)^\.fi$", re.MULTILINE | re.DOTALL)


def blocks(page: Union[str, Path]) -> list[str]:
    """The text of each block, in the order of the page."""
    text = Path(page).read_text(encoding="utf-8")
    if Path(page).suffix != ".md":
        examples = EXAMPLE.findall(text.partition("\n.SH EXAMPLE")[2])
        return [example.replace("\\-", "-").replace("\\e", "\\") for example in examples]
    found = BLOCK.finditer(text)
    return [groups[1] if groups[1] is not None else re.sub("^ {4}", "", groups[2], flags=re.MULTILINE) for groups in found]


def block(page: Union[str, Path], words: str) -> str:
    """The one block that begins with these words."""
    found = [block for block in blocks(page) if block.startswith(words)]
    if len(found) != 1:
        sys.exit(f"{page} has {len(found)} blocks that begin with '{words}'")
    return found[0]


if __name__ == "__main__":
    if len(sys.argv) != 3:
        sys.exit("usage: tests/pages.py PAGE WORDS")
    sys.stdout.write(block(*sys.argv[1:]))
