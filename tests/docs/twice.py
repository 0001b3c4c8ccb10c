#!/usr/bin/env python3
"""Finds what stands on two pages: runs of 12 words outside of fenced code, in any case and without
punctuation. A run ends with its paragraph, its item or its row of a table.

    twice.py EXCEPTIONS PAGE ..    prints a line for each; the status is 1 if there is one

EXCEPTIONS has lines 'words: reason'. A run that is a part of such words may stand anywhere. An
exception that no two pages need is told, too."""
import re
import sys
from collections import defaultdict
from collections.abc import Iterator
from dataclasses import dataclass

LENGTH = 12
# What ends a paragraph, if it begins a line: a row, a heading, an item, a quotation.
APART = re.compile(r" *(\||#|[-*] |\d+\. |>)")
# The sentence that tools/speed writes below what it measures, which ends its paragraph.
MEASURED = ["measured", "on"]


@dataclass
class Block:
    """A paragraph, an item or a row: its words, each with its line."""

    page: str
    words: list[tuple[str, int]]

    def run(self, at: int, end: int) -> str:
        return " ".join(word for word, _ in self.words[at:end])

    def runs(self) -> Iterator[tuple[int, str]]:
        for at in range(len(self.words) - LENGTH + 1):
            yield at, self.run(at, at + LENGTH)

    def without_measured(self) -> "Block":
        for at in range(len(self.words) - 1):
            if [word for word, _ in self.words[at:at + 2]] == MEASURED:
                return Block(self.page, self.words[:at])
        return self


def words_of(text: str) -> list[str]:
    """The words in small letters, without what links lead to, and without apostrophes."""
    text = re.sub(r"\]\([^)]*\)", "]", text)
    return re.findall(r"[^\W_]+", text.lower().replace("'", ""))


def blocks_of(page: str) -> Iterator[Block]:
    fenced, block = False, Block(page, [])
    with open(page, encoding="utf-8") as lines:
        for number, line in enumerate(lines, 1):
            fence = re.match(r" *(```|~~~)", line) is not None
            fenced = fenced != fence
            if fenced or fence or not line.strip() or APART.match(line):
                yield block.without_measured()
                block = Block(page, [])
            if not fenced and not fence:
                block.words += [(word, number) for word in words_of(line)]
    yield block.without_measured()


def exceptions(path: str) -> list[str]:
    found = []
    with open(path, encoding="utf-8") as lines:
        for line in lines:
            if line.strip() and not line.startswith("#"):
                text, colon, _ = line.partition(": ")
                if not colon or len(words_of(text)) < LENGTH:
                    sys.exit(f"{path}: not 'words: reason' of {LENGTH} words: {line.strip()}")
                found.append(" ".join(words_of(text)))
    return found


def told(blocks: list[Block], allowed: list[str]) -> Iterator[str]:
    """A line for each longest piece that stands elsewhere too, and for each idle exception."""
    pages: dict[str, set[str]] = defaultdict(set)
    for block in blocks:
        for _, run in block.runs():
            pages[run].add(block.page)
    by = {run: [text for text in allowed if f" {run} " in f" {text} "]
          for run, found in pages.items() if len(found) > 1}
    seen: set[str] = set()
    for block in blocks:
        end = 0
        for at, run in block.runs():
            if run not in by or by[run] or run in seen or at < end:
                continue
            end = at + LENGTH
            while end < len(block.words) and by.get(block.run(end + 1 - LENGTH, end + 1)) == []:
                end += 1
            seen.update(block.run(it, it + LENGTH) for it in range(at, end + 1 - LENGTH))
            others = ", ".join(sorted(pages[run] - {block.page}))
            yield f"{block.page}:{block.words[at][1]} and {others}: {block.run(at, end)}"
    for text in allowed:
        if not any(text in found for found in by.values()):
            yield f"no two pages need the exception '{text}'"


def main(words: list[str]) -> int:
    if len(words) < 2:
        print(__doc__, file=sys.stderr)
        return 2
    blocks = [block for page in words[1:] for block in blocks_of(page)]
    found = list(told(blocks, exceptions(words[0])))
    print("".join(f"{line}\n" for line in found), end="")
    return 1 if found else 0


if __name__ == "__main__":
    sys.exit(main(sys.argv[1:]))
