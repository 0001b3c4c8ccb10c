"""Looks at a room and what is around it, and says why the program prints `fault: database` or
`fault: file` of it, or why nginx can't start again. The room isn't opened or changed; everything is
tried as the room's user, in a process of that user, which also takes the copy that is verified.
Each cause is a line.

With --json they are a list of objects with the names 'cause' and 'text', and the list is empty
where nothing is wrong."""
import argparse
import glob
import os
import pwd

from ..cli import alike, words
from ..room import settings, there
from . import doctor
from ..cli.report import Refused


def _user(given: str, folder: str) -> pwd.struct_passwd:
    try:
        if given:
            return pwd.getpwnam(given)
    except KeyError:
        raise Refused(f"bad arguments: there is no user {given}") from None
    try:
        return pwd.getpwnam("rooms")
    except KeyError:
        return pwd.getpwuid(os.stat(folder).st_uid if os.path.exists(folder) else os.getuid())


def arguments(parser: words.Parser) -> None:
    words.word(parser, "file", "[FILE]", "the room's file, or its name; the file of --room "
               "without it")
    words.room(parser)
    words.option(parser, "--user", "USER", "the room's user, rooms without it")
    words.option(parser, "--program", "FILE", "the program that verifies a copy")
    words.rows(parser)


def _of_room(conf: str) -> str:
    """Settings that are refused may be why: only this line of them counts."""
    settings.lines(conf)
    file = settings.value(conf, "FILE")
    settings.need(file.startswith("/"), conf, "FILE", "an absolute path", file)
    return file


def _named(word: str) -> str:
    """The file of that path; or of that room, where no file here has the name."""
    conf = settings.file_of(word)
    if "/" in word or os.path.lexists(word):
        return os.path.abspath(word)
    if not os.path.lexists(conf):
        there.need_here(conf, word, settings.value(there.place_of(conf), "ON"))
        known = map(settings.name_of, glob.glob(f"{glob.escape(settings.HOME)}/*.conf"))
        raise Refused(f"no room: {word} is neither a file here nor a room, as {conf} isn't there"
                      f"{alike.meant(word, known)}")
    return _of_room(conf)


def run(given: argparse.Namespace) -> int:
    if given.file and given.room:
        raise Refused("bad arguments: FILE and --room both say which room it is")
    file = _named(given.file) if given.file else _of_room(settings.file_of(given.room))
    program = os.path.abspath(given.program or settings.PROGRAM)
    if not (os.path.isfile(program) and os.access(program, os.X_OK)):
        raise Refused(f"no program: {program} isn't there or can't be run")
    if given.user:
        _user(given.user, "/")
    user = _user(given.user, os.path.dirname(file))
    if os.getuid() not in (0, user.pw_uid):
        raise Refused(f"not root: only root and {user.pw_name} can look at it")
    os.chdir("/")
    os.umask(0o077)
    return doctor.Doctor(file, user, program).run(given.json)
