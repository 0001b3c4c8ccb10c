"""Rows that an office has in a file of a spreadsheet: UTF-8, with commas or semicolons."""
import csv
import io
import re
from collections.abc import Iterator

from ..cli.report import Refused


def rows(path: str, heading: str) -> Iterator[tuple[int, list[str]]]:
    """Each row that has something in it, with the number of its line. The first one may be a
    heading, which begins with that word, and is given too, as line 0."""
    try:
        with open(path, encoding="utf-8-sig", newline="") as source:
            text = source.read()
        reader = csv.reader(io.StringIO(text, newline=""), strict=True,
                            delimiter=_separator(path, text, heading))
        found = [(reader.line_num, [field.strip() for field in row]) for row in reader]
    except (OSError, UnicodeDecodeError, csv.Error) as fault:
        raise Refused(f"no names: {path} can't be read: {fault}") from fault
    for number, fields in found:
        if any(fields):
            yield 0 if number == 1 and fields[0].lower() == heading else number, fields


def _separator(path: str, text: str, heading: str) -> str:
    """The first one of the first line that has any: each line begins with a name of a user or a
    group, which has none in it. Behind that a full name may have the other one."""
    for number, line in enumerate(text.splitlines(), 1):
        # What stands in quotes separates nothing.
        found: list[str] = re.findall("[,;]", re.sub('"[^"]*"', "", line))
        first = re.split("[,;]", line)[0].strip('" ').lower()
        if number == 1 and first == heading and len(set(found)) > 1:
            raise Refused(f"bad names: {path}, line 1 has commas and semicolons, and only one of "
                          "both can stand between columns")
        if found:
            return found[0]
    return ","
