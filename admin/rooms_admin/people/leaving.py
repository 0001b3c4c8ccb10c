"""Somebody leaves: the password goes first, so they are shut out whatever else is at work with the
room; then their groups, for which alone the server stops; then what names them is printed, and
given to somebody else. Whom nothing in the room names is most often somebody else, mistyped."""
from dataclasses import dataclass

from ..cli import alike, report
from ..passwords import passwords, remembered
from ..backup import dates
from ..lists import dump, naming, would
from . import handing_over, joining, known, look, members, offered
from ..cli.report import Interrupted, Refused, Stop, line, say
from ..room.http_client import Caller
from ..room.settings import Room
from ..lists.dump import Object
from .known import Newest


@dataclass(frozen=True)
class Leaving:
    """`place` is the room's name; of one on another machine this one has the passwords alone."""
    place: str
    room: Room | None
    name: str
    heir: str
    is_password: bool
    is_dry: bool

    @property
    def file(self) -> str:
        return passwords.password_files(self.place)[0]

    def with_password(self) -> set[str]:
        return set[str]().union(*map(passwords.users, passwords.password_files(self.place)))


def _shut_out(asked: Leaving) -> None:
    if asked.is_dry:
        print(f"would: no password for {asked.name} any more, in {asked.file}")
        return
    with report.signals_wait():
        passwords.change(asked.place, {asked.name: None})
        report.did(f"{asked.name} has no password any more")
    print(f"no password for {asked.name} any more, in {asked.file}", flush=True)


def _password_alone(asked: Leaving) -> int:
    has = asked.with_password()
    if asked.name not in has:
        say(f"nobody: {asked.name} has no password in {asked.file}"
            f"{alike.meant(asked.name, has)}")
        return 1
    _shut_out(asked)
    if asked.room and not asked.is_dry:
        offered.show_known(asked.room)
    return 0


def _need_heir(asked: Leaving, room: Room) -> None:
    """Before anything has changed. No disk of backups is asked."""
    last = known.kept(room)
    has = asked.with_password()
    if asked.heir in has or last and asked.heir in {user for _, user in last.members}:
        return
    with look.no_lists() as lists:
        with joining.locked(room):
            look.got(look.tried(room, "dump", lists=lists, may_stop=not asked.is_dry)[0])
        if not any(naming.of_user(lists.rows(), asked.heir)):
            raise Refused(f"no heir: nobody is called {asked.heir}"
                          f"{alike.meant(asked.heir, has | dump.users(lists.rows()))}")


def leave(asked: Leaving) -> int:
    room = asked.room
    if room is None or asked.is_password:
        return _password_alone(asked)
    if asked.heir:
        _need_heir(asked, room)
    has = asked.with_password()
    done = ""
    if asked.name in has:
        _shut_out(asked)
        done = f"{asked.name} has no password any more"
    if not asked.is_dry:
        # Also of whom a directory has shut out.
        remembered.forget([asked.name])
        dates.tell(room, "forget", asked.name)
    with look.no_lists() as lists:
        return _leave_room(asked, room, done, has, lists)


def _leave_room(asked: Leaving, room: Room, done: str, has: set[str], lists: look.Lists) -> int:
    with joining.locked(room, "" if asked.is_dry else done, not asked.is_dry) as newest_one:
        groups, dumped = look.tried(room, "groups-out", "dump", lists=lists,
                                    may_stop=not asked.is_dry)
        before = members.of_program(look.got(groups))
        if isinstance(dumped, Stop):
            _leave_groups(asked, room, before, newest_one)
            raise Stop(f"what else names {asked.name} isn't known: {dumped}")
        found = list(naming.of_user(lists.rows(), asked.name))
        if not done and not found:
            there = has | dump.users(lists.rows())
            say(f"nobody: {asked.name} has no password in {asked.file}, is in no group, owns "
                f"nothing and stands in no list{alike.meant(asked.name, there)}")
            return 1
        _tell_last(asked, room, lists)
        _leave_groups(asked, room, before, newest_one)
    # A guest's was in the file.
    if not room.has_passwords and not (done and room.lets_guests):
        say(f"passwords of {asked.place} aren't in its file: {asked.name} has to leave where they "
            "are too")
    for one in naming.without_parts(found):
        if isinstance(one.what, Object):
            print("\n".join(map(line, one.lines())))
    return _hand_over(asked, room, lists) if asked.heir else 0


def _tell_last(asked: Leaving, room: Room, lists: look.Lists) -> None:
    """Before the groups go that may let others manage the room. The program says who may set the
    list of its root; who leaves goes all the same where it can't."""
    root = would.question((one for one in lists.rows() if not isinstance(one, Object)
                           or one.path == b"/"), b"/", b"/", [b"look /"])
    try:
        who = {one.user for one in would.answered(room, root) if "C" in one.rights} if root else ()
    except Interrupted:
        raise
    except Stop as stop:
        say(str(stop))
        return
    if who == {asked.name}:
        say(f"nobody but {asked.name} may set the list of /: without {asked.name} root alone can, "
            "by rooms-admin list set /")


def _leave_groups(asked: Leaving, room: Room, before: set[dump.Pair], newest_one: Newest) -> None:
    change = joining.asked(before, set(), {pair for pair in before if pair[1] == asked.name})
    print("".join(f"{one}\n" for one in change.lines()), end="", flush=True)
    if asked.is_dry:
        return
    after = joining.make(room, change)
    if not change.is_none:
        print(joining.counted(after), flush=True)
    offered.show(room, after, newest_one)


def _hand_over(asked: Leaving, room: Room, lists: look.Lists) -> int:
    """By requests of the heir's, so that what the room denies them is left out and told. The lists
    have no name, so a kill leaves none of them."""
    return handing_over.give(room.conf, Caller(as_user=asked.heir),
                             f"/proc/self/fd/{lists.number}", asked.name, asked.heir, asked.is_dry)
