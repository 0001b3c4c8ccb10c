"""Somebody joins, changes groups, gets a new password, or leaves. A password is in nginx's file,
and counts from the next request on. Groups are in the room: its server stops for a moment where
they change, once for all of them.

add asks for the password at the terminal, or takes the first line of standard input; who has one
gets the new one in its place. FILE has a line for each user, NAME,GROUP,GROUP .., with commas or
semicolons: whoever has no password gets one, which is printed, and who has one keeps it.

change needs no password: it adds the user to groups and takes them out of others, in one step that
undoes nothing of what somebody else changed meanwhile. It prints each pair that comes (+) or goes
(-). Nobody gets into a group that has no member yet, which is most often a mistyped one, without
--new.

remove takes the password away and the user out of all groups, and prints what else names them: what
belongs to them, which --to gives to HEIR, and entries of lists, which stay. It says before that
where nobody else may set the list of /. Where nobody is called NAME it changes nothing and ends
with 1, and where nobody is called HEIR with 2.

list prints everybody who has a password or is in a group, as far as groups are known while the
server runs: a line with the name, whether there is a password, and the groups. With --json it is a
list of objects with the names 'user', 'password' ('yes', 'first', 'no', or 'elsewhere' where a
directory or sessions have them) and 'groups'."""
import argparse
import os
import shlex

from ..cli import report, words
from ..host import unheld
from ..room import names, published, settings
from ..passwords import passwords
from . import leaving, users
from ..directory import guests
from ..cli.report import Refused, say
from ..room.settings import Room


def arguments(parser: words.Parser) -> None:
    words.room(parser)
    parser.set_defaults(name="", groups=[], file="", first=False, random=False, to="",
                        password=False, json=False, add=[], drop=[], new=False, dry_run=False)
    add, change, remove, listed = parser.has_parts("what", {
        "add": "somebody joins, or gets a new password, which is asked for at the terminal, or by "
               "standard input",
        "change": "somebody comes into groups, or goes out of them",
        "remove": "somebody leaves, without a password and out of all groups; what else names them "
                  "is printed, and stays",
        "list": "who has a password or is in a group"})
    _arguments_of_add(add)
    words.word(change, "name", "NAME", "the user")
    words.several(change, "--add", "GROUPS", "the user comes into these groups, with commas "
                  "between them")
    words.several(change, "--drop", "GROUPS", "the user goes out of these groups")
    _may_be_new(change)
    words.dry_run(change, "who would come and go")
    words.room(change)
    words.word(remove, "name", "NAME", "the user")
    words.room(remove)
    how = remove.add_mutually_exclusive_group()
    words.option(how, "--to", "HEIR", "give all that belongs to the user to HEIR, who needs the "
                 "rights t and o on each object")
    words.flag(how, "--password", "take the password away, and nothing else; the server isn't "
               "stopped")
    words.dry_run(remove, "what would go, and what names the user")
    words.room(listed)
    words.rows(listed)


def _may_be_new(parser: words.Parser) -> None:
    words.flag(parser, "--new", "groups need have no member yet")


def _arguments_of_add(parser: words.Parser) -> None:
    parser.forms = ["[--groups GROUPS] [--new] [--first] [--random] [--dry-run] [--room ROOM] NAME",
                    "[--new] [--first] [--dry-run] [--room ROOM] --file FILE"]
    words.word(parser, "name", "[NAME]", "the user")
    words.room(parser)
    who = parser.add_mutually_exclusive_group()
    words.several(who, "--groups", "GROUPS", "add the user to these groups, with commas between "
                  "them")
    words.option(who, "--file", "FILE", "add all users of this file, and stop the server once")
    _may_be_new(parser)
    words.flag(parser, "--first", "a password that opens nothing until the user has changed it")
    words.flag(parser, "--random", "choose the password, and print it")
    words.dry_run(parser, "who would get a password, and who would come")


def _names(lists: list[str]) -> list[str]:
    return [one for text in lists for one in text.split(",")]


def read_words(given: argparse.Namespace) -> users.Words:
    name = given.name
    if given.what == "add" and bool(name) == bool(given.file):
        raise Refused("bad arguments: NAME and --file FILE don't go together" if name else
                      "bad arguments: NAME is missing, or --file FILE")
    if given.file and given.random:
        raise Refused("bad arguments: --file and --random don't go together")
    joins = _names(given.groups or given.add)
    leaves = _names(given.drop)
    if given.what == "change" and not joins and not leaves:
        raise Refused("bad arguments: --add GROUPS or --drop GROUPS is missing")
    if both := sorted(set(joins) & set(leaves)):
        raise Refused(f"bad arguments: {name} would come into {both[0]} and go out of it")
    for one in [*([name] if name else []), *joins, *leaves, *([given.to] if given.to else [])]:
        if not names.is_user(one):
            raise Refused(f"bad arguments: '{one}' can't be the name of a user or a group")
    return users.Words(given.what, name, given.room or "office", given.file, given.to, joins,
                       leaves, given.first, given.password, given.random, given.json, given.new,
                       given.dry_run)


def _need_file(place: str, room: Room | None, asked: users.Words) -> None:
    """A password that nobody asks for would be no password."""
    at = settings.place(f"{settings.HOME}/{place}.on") if room is None else room
    if room and at.lets_guests:
        if found := guests.spelled(guests.settings_of(room.conf), asked.name):
            raise Refused(f"two passwords: the directory has {found}, whose password is there")
    elif at.behind:
        raise Refused(f"passwords elsewhere: those of {place} are given on the machine of its "
                      "front end; user change has groups alone")
    elif not at.has_passwords:
        raise Refused(f"passwords elsewhere: those of {place} aren't in its file, by PASSWORDS in "
                      "its settings; user change has groups alone, and GUESTS=yes lets in guests "
                      "beside a directory")
    if asked.is_first and not at.has_passwords:
        raise Refused(f"no own passwords: nobody could change a first one of {place}, whose "
                      "passwords a directory has")


def _there(asked: users.Words) -> str:
    """What has its groups changed on its own machine, which has no passwords."""
    if asked.what == "add" and not asked.file:
        return shlex.join(["rooms-admin", "user", "change", asked.name, "--add",
                           ",".join(asked.joins), "--room", asked.conf])
    return report.typed


def _room(asked: users.Words) -> tuple[str, Room | None]:
    """The room's name, and the room. Of one on another machine this one has the passwords alone."""
    on = f"{settings.HOME}/{asked.conf}.on"
    if names.is_room(asked.conf) and os.path.exists(on) and not os.path.exists(
            settings.file_of(asked.conf)):
        if asked.joins or asked.leaves or asked.heir:
            raise Refused(f"elsewhere: the room {asked.conf} is on {settings.place(on).on}, where "
                          f"its groups and owners are changed; there: {_there(asked)}")
        if asked.what in ("list", "remove") and not asked.is_password:
            say(f"passwords alone: the room {asked.conf} is on {settings.place(on).on}, and all "
                f"else of it; there: {_there(asked)}")
        return asked.conf, None
    room = settings.room(asked.conf)
    if asked.heir == asked.name and asked.heir:
        raise Refused(f"bad arguments: {asked.name} would give to {asked.heir}")
    return published.name_of(room), room


def _look_at_add(place: str, room: Room | None, asked: users.Words, wanted: dict[str, set[str]]
                 ) -> None:
    if asked.is_first and not passwords.is_kept(passwords.password_files(place)[0]):
        raise Refused(f"no own passwords: nobody could change a first one of {place}: "
                      "OWN_PASSWORDS=yes in its settings, and then rooms-admin setup")
    if room is None and any(wanted.values()):
        raise Refused(f"elsewhere: the room {place} is on another machine, where its groups are "
                      f"changed; here by a file of names alone; there: {_there(asked)}")
    if not wanted:
        _need_file(place, room, asked)


def run(given: argparse.Namespace) -> int:
    """What is asked on a terminal is asked before anything is locked, and from then on whoever
    sits there holds nobody up."""
    asked = read_words(given)
    if asked.what != "list":
        report.nothing_yet()
    wanted = users.rows(asked.file) if asked.file else {}
    os.umask(0o077)
    os.chdir("/")
    place, room = _room(asked)
    if asked.what == "add":
        _look_at_add(place, room, asked, wanted)
    text = users.password(asked)
    unheld.go_on()
    if asked.what == "list":
        return users.show_all(place, room, asked.is_json)
    if asked.what == "remove":
        return leaving.leave(leaving.Leaving(place, room, asked.name, asked.heir,
                                             asked.is_password, asked.is_dry))
    if asked.what == "change" and room:
        return users.change(place, room, asked)
    if wanted:
        return users.add_all(place, room, asked, wanted)
    return users.add(place, room, asked, text)
