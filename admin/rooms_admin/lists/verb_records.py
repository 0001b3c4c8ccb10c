"""Prints the records of last night, oldest first: when and by whom something was asked, the rights
in letters, whether they were granted, the object whose list was asked, and the entry of its sacl
that wanted the record. With --user it is those of one user, with --path those of an object and of
all below it.

With --json it is a list of objects with the names 'at', in seconds since 1970 in UTC, 'user', which
is empty for a caller without a name, 'path', 'bits', 'granted', 'entry' and 'kind'."""
import argparse
from dataclasses import asdict

from ..cli import report, words
from ..backup import texts
from . import asked, records
from ..cli.report import say


def arguments(parser: words.Parser) -> None:
    words.option(parser, "--user", "NAME", "those of this user")
    words.option(parser, "--path", "PATH", "those of this object, and of all below it")
    asked.arguments(parser)


def run(given: argparse.Namespace) -> int:
    user = asked.name(given.user) if given.user else ""
    path = asked.path(given.path).decode("utf-8", "surrogateescape") if given.path else ""
    room, folder = asked.backup(given)
    with texts.beside(room, folder, texts.RECORDS) as source:
        found = list(records.wanted(records.records(texts.of_csv(source)), user, path))
    if not found:
        say(f"no such record is in the backup {folder}")
    if given.json:
        report.put_rows([asdict(one) for one in found])
        return 0
    for one in found:
        print(one.text())
    return 0
