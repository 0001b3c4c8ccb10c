"""Prints who could do more, or less, by a change that isn't made, by the lists and the groups of
last night: what 'rooms would' says of them. A line has the letters of somebody's rights before and
then, and 'remove' where they could remove the object or move it away.

At the first object each caller has a line for whom something changes. Further down a line stands
where something else is so than above; else the line of the nearest folder above holds, and for
whoever has none nothing changes.

With --json it is a list of objects with the names 'path', 'kind', 'user', 'rights', 'remove',
'then' and 'then_remove', in which all callers stand at the first object. 'user' is '*' for every
other name and 'ANONYMOUS@' for a caller without one."""
import argparse
import os

from ..cli import report, words
from ..cli.report import say
from ..backup import texts
from . import asked, dump, would


def arguments(parser: words.Parser) -> None:
    words.room(parser)
    set_, move = parser.has_parts("change", {
        "set": "the list of an object is set, by standard input",
        "move": "an object is moved, or gets another name"})
    words.word(set_, "path", "PATH", asked.PATH)
    words.word(move, "path", "PATH", asked.PATH)
    words.word(move, "to", "TO", "where it would be then")
    for part in (set_, move):
        asked.arguments(part)


def run(given: argparse.Namespace) -> int:
    path = to = asked.path(given.path)
    if given.change == "set":
        change = would.set_list(path, asked.list_text())
    else:
        to = asked.path(given.to)
        change = would.moved(path, to)
    room, folder = asked.backup(given)
    with texts.beside(room, folder, texts.LISTS) as source:
        question = would.question(dump.whole(source, texts.LISTS), path, to, change)
    if question is None:
        raise asked.none_at(path, folder)
    outcomes = would.answered(room, question)
    if given.json:
        say(f"by the backup {folder}")
        report.put_rows([one._asdict() for one in outcomes])
        return 0
    print("\n".join([f"by the night {os.path.basename(folder)}:", *would.table(outcomes)]))
    return 0
