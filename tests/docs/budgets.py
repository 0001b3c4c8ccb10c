"""Compares docs/security.md's table of budgets with the units: python3 budgets.py PAGE UNITS
PAGE is the page, UNITS the folder of the units. Prints a line for each memory, number of tasks or
of processes that differs, and for each unit that has one and no row."""
import os
import re
import sys
from collections.abc import Iterator

_WORDS = {"two": 2, "four": 4}
_MEGABYTES = {"MB": 1, "GB": 1024}
_NUMBER = r"([0-9.]+|two|four)"


def _value(text: str) -> float:
    return float(_WORDS.get(text, text))


def _numbers(cell: str, what: str) -> list[tuple[float, str]]:
    """The first that is said: of two units it may be '64 and 96 MB'."""
    found = re.search(rf"(?:\b{_NUMBER} and )?\b{_NUMBER} ({what})\b", cell)
    return [(_value(one), found[3]) for one in found.groups()[:2] if one] if found else []


def _said(cell: str, place: int) -> dict[str, str]:
    """What the unit's file has by a row, of which this is the unit at a place."""
    said = {}
    for what, word in ((r"MB|GB", "MemoryMax"), ("tasks", "TasksMax"),
                       ("processes", "MaxConnections")):
        if numbers := _numbers(cell, what):
            number, unit = numbers[min(place, len(numbers) - 1)]
            said[word] = f"{number * _MEGABYTES[unit]:.0f}M" if unit in _MEGABYTES else \
                f"{number:.0f}"
    if "half of the memory" in cell:
        said["MemoryMax"] = "50%"
    return said


def _has(folder: str, unit: str) -> dict[str, str]:
    """Processes of a socket that starts one for each connection are its connections."""
    has: dict[str, str] = {}
    for name, words in ((f"{unit}.service", "MemoryMax|TasksMax"),
                        (f"{unit.rstrip('@')}.socket", "MaxConnections")):
        path = os.path.join(folder, name)
        if os.path.exists(path):
            with open(path, encoding="utf-8") as source:
                has |= dict(re.findall(rf"^({words})=(\S+)$", source.read(), re.MULTILINE))
    return has


def rows(page: str) -> Iterator[tuple[list[str], str]]:
    with open(page, encoding="utf-8") as source:
        text = source.read().partition("\n## Budgets\n")[2].partition("\n## ")[0]
    for line in text.splitlines():
        cells = line.split("|")
        if len(cells) > 3 and (units := re.findall(r"`(rooms(?:-[a-z-]+)?@?)`", cells[1])):
            yield units, cells[2]


def faults(page: str, folder: str) -> Iterator[str]:
    units = {name.removesuffix(".service") for name in os.listdir(folder)
             if name.endswith(".service")}
    named = set()
    for row, cell in rows(page):
        for place, unit in enumerate(one for one in row if one in units):
            named.add(unit)
            said, has = _said(cell, place), _has(folder, unit)
            for word in sorted(said.keys() | has.keys()):
                if said.get(word) != has.get(word):
                    yield f"{unit}: {word} {said.get(word)} by the page, {has.get(word)}"
    yield from (f"{unit} has no row" for unit in sorted(units - named) if _has(folder, unit))


if __name__ == "__main__":
    print("".join(f"{one}\n" for one in faults(sys.argv[1], sys.argv[2])), end="")
