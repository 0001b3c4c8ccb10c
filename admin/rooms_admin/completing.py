"""What a shell completes: verbs, options, and names of rooms, backups, users and groups, as far as
whoever asks may read them. A disk that hangs keeps nobody waiting, and what can't be read has no
names."""
import glob
import os
from collections.abc import Callable

from .cli import manual
from .host import waiting
from .room import names, settings
from .passwords import passwords
from .backup import backups
from .people import known
from .cli.report import Stop
from .cli.table import OLD
from .lists.dump import Pair

_PATIENCE = 2.0
# Which names stand behind an option, of whichever verb.
_OPTIONS = {"--room": "rooms", "-r": "rooms", "--groups": "groups", "--group": "groups",
            "--add": "groups", "--drop": "groups", "--user": "users", "--as": "users",
            "--to": "users", "--backup": "backups"}
# Which stand as a word of a verb, or of a part.
_WORDS = {"restore": "backups", "get": "backups", "user remove": "users", "user change": "users",
          "remove": "rooms"}
# Words of these are no files.
_NO_FILES = {"add", "certificate", "tell", "set", "lists", "list", "who", "would", "records",
             "user"}
# And these names stand beside files.
_BESIDE_FILES = {"rooms", "backups"}


def _rooms(_: str) -> set[str]:
    found = map(settings.name_of, glob.glob(f"{glob.escape(settings.HOME)}/*.conf"))
    return {one for one in found if names.is_room(one)}


def _backups(room: str) -> set[str]:
    kept = settings.kept(settings.file_of(room))

    def found() -> list[str]:
        file = os.path.basename(kept.file)
        return [one.name for one in backups.dated(kept.backups, kept.name, file).backups]
    got = waiting.answer(_PATIENCE, found, kept.backups)
    return {str(one) for one in got} if isinstance(got, list) else set()


def _members(room: str) -> set[Pair]:
    found = known.kept(settings.room(room))
    return found.members if found else set()


def _groups(room: str) -> set[str]:
    return {group for group, _ in _members(room)}


def _users(room: str) -> set[str]:
    name = settings.name_of(settings.file_of(room))
    has = set[str]().union(*map(passwords.users, passwords.password_files(name)))
    return {user for _, user in _members(room)} | {one for one in has if names.is_user(one)}


_KINDS: dict[str, Callable[[str], set[str]]] = {
    "rooms": _rooms, "backups": _backups, "groups": _groups, "users": _users}


def _named(kind: str, room: str) -> list[str]:
    """A shell is told of no fault."""
    more = ["latest"] if kind == "backups" else []
    try:
        return more + sorted(_KINDS[kind](room))
    except (Stop, OSError):
        return more


def _room(words: list[str]) -> str:
    """That was named before."""
    found = [word for option, word in zip(words, words[1:-1]) if option in ("-r", "--room")]
    return found[-1] if found else ""


def _of_verb(verb: str, words: list[str]) -> list[str]:
    """The first line says what the shell adds: files, users of the machine, or nothing."""
    current, before = words[-1], words[-2] if len(words) > 1 else ""
    parts = [one for one in manual.words([verb]) if not one.startswith("-")]
    part = words[0] if words[0] in parts and len(words) > 1 else ""
    if current.startswith("-"):
        return ["", *manual.words([verb, *words[:1]])]
    if verb == "doctor" and before == "--user":
        return ["users"]
    if verb == "setup" and before == "--directory":
        return ["files", "none"]
    if before == "--with":
        return [""]
    kind = _OPTIONS.get(before, "")
    if not kind and not manual.has_value(verb, part, before):
        if parts and not part:
            return ["", *parts]
        kind = _WORDS.get(f"{verb} {part}".rstrip(), "")
    if kind:
        return ["files" if kind in _BESIDE_FILES else "", *_named(kind, _room(words))]
    return ["" if verb in _NO_FILES and before != "--file" else "files"]


def of(command: str, words: list[str]) -> list[str]:
    """What may stand in the place of the last of the words behind a command."""
    verb = OLD.get(command, "")
    if command == "rooms-add" and "--remove" in words:
        verb = "remove"
    if not verb and len(words) < 2:
        return ["", *manual.words([])]
    if not verb:
        verb, words = words[0], words[1:]
    if verb == "help":
        return ["", *(one for one in manual.words(["help", *words[:-1]]) if one[0] != "-")]
    return _of_verb(verb, words)
