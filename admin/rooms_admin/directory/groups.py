"""Groups of a room brought into line with those of the directory."""
import argparse
import os
from collections.abc import Iterable, Sized
from contextlib import ExitStack

from ..cli import report
from ..host import locks, waiting
from ..room import names, server, settings
from ..passwords import remembered
from ..backup import backups, texts
from ..lists import dump, entries
from ..people import joining, known, members, offered
from . import guests
from ..cli.report import Refused, Stop, say
from ..room.settings import Room
from ..lists.dump import Pair
from ..people.joining import Change
from ..people.known import Known
from .directory import GROUPS, Directory, NoSuchEntry

# The program takes no more from a file.
LIMIT = 20000
# A directory that always names another one would never end.
GROUPS_IN_ONE = 10000
# So many names that no room takes are told, and so many letters of each.
_TOLD, _LONG = 50, 200


class NoGroup(Refused):
    """The directory hasn't that one, or several."""


def _short(text: str) -> str:
    return report.line(text[:_LONG])


def _tell_rest(found: Sized) -> None:
    if len(found) > _TOLD:
        say(f"left out: {len(found) - _TOLD} more")


class Asked:
    """What the directory has."""

    def __init__(self, directory: Directory) -> None:
        self.directory = directory
        self.users: dict[str, str] = {}
        self._members: dict[str, list[str]] | None = None
        where = directory.where
        out = []
        for entry in directory.search(where.base, True, where.users, [where.name]):
            values = entry.values.get(where.name.lower(), [])
            if len(values) == 1:
                self.users[directory.key(entry.dn)] = values[0]
            else:
                out.append((entry.dn, "several" if values else "no"))
        for dn, which in out[:_TOLD]:
            say(f"left out: {_short(dn)} has {which} {where.name}")
        _tell_rest(out)

    def _find_group(self, what: str) -> str:
        """The DN of a group, by its DN or its cn."""
        try:
            if "=" in what and "," in what:
                found = self.directory.search(what, False, GROUPS, [], what)
            else:
                found = self.directory.search(
                    self.directory.where.base, True,
                    f"(&{GROUPS}(cn={self.directory.quoted(what)}))", [], what)
        except NoSuchEntry:
            raise NoGroup(f"no group: the directory has no '{what}'") from None
        if len(found) != 1:
            raise NoGroup(f"no group: the directory has {len(found)} groups '{what}'")
        return found[0].dn

    def members(self, what: str) -> set[str]:
        """The names of a group's members and of those of the groups in it, who are users. Each
        group is looked at once, so groups that are in one another come to an end."""
        dn = self._find_group(what)
        how = self.directory.where.members
        if how == "memberUid":
            rows = self.directory.search(dn, False, "(objectClass=*)", ["memberUid"])
            known = set(self.users.values())
            return {one for row in rows for one in row.values.get("memberuid", []) if one in known}
        found: set[str] = set()
        seen = {self.directory.key(dn)}
        todo = [dn]
        while todo:
            users, inner = (self._by_member_of if how == "memberOf" else self._by_member)(
                todo.pop())
            found.update(self.users[one] for one in users if one in self.users)
            for one in inner:
                if self.directory.key(one) not in seen:
                    seen.add(self.directory.key(one))
                    todo.append(one)
            if len(seen) > GROUPS_IN_ONE:
                raise Stop(f"the directory failed, at '{what}': more than {GROUPS_IN_ONE} groups "
                           "in one another")
        return found

    def _by_member_of(self, dn: str) -> tuple[list[str], list[str]]:
        """Nothing limits how many members a group has there, where Active Directory gives 1,500 of
        `member`."""
        where = self.directory.where
        of = f"(memberOf={self.directory.quoted(dn)})"
        users = self.directory.search(where.base, True, f"(&{of}{where.users})", [])
        inner = self.directory.search(where.base, True, f"(&{of}{GROUPS})", [])
        return [self.directory.key(one.dn) for one in users], [one.dn for one in inner]

    def _by_member(self, dn: str) -> tuple[list[str], list[str]]:
        """All groups are asked for once, with their members."""
        if self._members is None:
            self._members = {}
            for one in self.directory.search(self.directory.where.base, True, GROUPS,
                                             ["member", "uniqueMember"]):
                self._members[self.directory.key(one.dn)] = [
                    self.directory.key(member) for name in ("member", "uniquemember")
                    for member in one.values.get(name, [])]
        mine = self._members.get(self.directory.key(dn), [])
        return ([one for one in mine if one not in self._members],
                [one for one in mine if one in self._members])


class Run:
    def __init__(self, room: Room, given: argparse.Namespace, owned: ExitStack) -> None:
        self.room = room
        self.dry = given.dry_run
        self.force = given.force
        self.owned = owned
        self.locked = False
        self.newest = known.NOT_ASKED
        self.mark = server.left_at_rest(room)
        self.failures: list[str] = []
        # Who has two passwords: whether the directory means the guest isn't known.
        self.doubled: list[str] = []

    def lock(self) -> None:
        """Only whoever has the lock stops and starts the server."""
        if not self.locked:
            self.newest = known.newest_backup(self.room)
            self.owned.enter_context(locks.lock(self.room.unit, 60))
        self.locked = True

    def ask(self, groups: dict[str, str]) -> set[Pair]:
        """Takes those out of `groups` that the directory hasn't: one may have been renamed there,
        which keeps nobody from leaving another one."""
        asked = Asked(Directory(guests.settings_of(self.room.conf)))
        wanted: set[Pair] = set()
        for name, what in list(groups.items()):
            try:
                theirs = sorted(asked.members(what))
            except NoGroup as stop:
                del groups[name]
                if not groups:
                    raise
                self.failures.append(f"{name} stays as it is: {stop}")
                continue
            pairs = {(name, user) for user in theirs if names.is_user(user)}
            out = [user for user in theirs if not names.is_user(user)]
            for user in out[:_TOLD]:
                say(f"left out of {name}: '{_short(user)}' can't be a user of a room")
            _tell_rest(out)
            if not pairs and not self.force:
                raise Refused(f"empty: {name} would have no member; --force if that is meant")
            wanted |= pairs
        return self.without_guests(asked.directory, wanted)

    def without_guests(self, directory: Directory, wanted: set[Pair]) -> set[Pair]:
        """Whoever has the name of a guest gets no group until one of them has another one, and
        keeps those that they have: most often it is one person."""
        self.doubled = guests.both(directory, self.room)
        if self.doubled:
            self.failures.append(guests.told(self.room, self.doubled))
        return {(group, user) for group, user in wanted if user not in self.doubled}

    def last(self) -> backups.Backup | None:
        found = backups.known(self.room).backups
        return found[-1] if found else None

    def known(self) -> set[Pair] | None:
        """What was read or applied last, or the members in the last backup if that is newer. Both
        count only for the file of which they are known."""
        kept = known.kept(self.room)
        try:
            last = self.last()
        except waiting.Hangs as hangs:
            if self.dry:
                raise
            # Whoever has left goes all the same.
            self.failures.append(str(hangs))
            last = None
        if kept is None or kept.file != known.which_file(self.room) or not kept.file:
            if not (self.dry and last):
                return None
            say(f"compared with the backup {last.name}: this file of the room is new, as after a "
                "restore, and a run without --dry-run looks into it")
        elif not last or known.is_newer(kept, last):
            return kept.members
        return known.in_backup(self.room, last).members

    def guard(self, going: set[Pair], all_of_them: int, most: int) -> None:
        if all_of_them > LIMIT:
            raise Refused(f"too many: {all_of_them} pairs, and a room takes {LIMIT}")
        if len(going) > most and not self.force:
            raise Refused(f"too much: {len(going)} pairs would go, and MOST is {most}; look at "
                          "them by --dry-run, and --force if that is meant")

    def bring(self) -> None:
        groups, most = settings.groups(self.room.beside(".groups"))
        wanted = self.ask(groups)
        now = self.known()
        if now is None and self.dry:
            say(f"no backup yet: this is all that the directory has, and what {self.room.unit} has "
                "isn't known")
            now = set()
        if now is not None:
            coming, going, others = compare(now, wanted, groups, self.doubled)
            if self.dry:
                show(Change(now, coming, going))
            if not coming and not going:
                return
            self.guard(going, len(others | wanted), most)
            if self.dry:
                return
        self.lock()
        self.change(wanted, groups, most)

    def change(self, wanted: set[Pair], groups: dict[str, str], most: int) -> None:
        """While the server rests nothing is printed, and no disk of backups is asked: both may
        take as long as they like."""
        with ExitStack() as after, server.at_rest(self.room):
            now = members.read(self.room)
            # What is refused now is refused without a stop the next time.
            after.callback(known.try_to_keep, self.room, known.here(self.room, now, self.newest))
            coming, going, others = compare(now, wanted, groups, self.doubled)
            self.guard(going, len(others | wanted), most)
            change = Change(now, coming, going)
            if not change.is_none:
                after.pop_all()
                then = known.change(self.room, now, coming, going)
                remembered.forget(user for _, user in going)
                after.callback(self.tell, change, known.here(self.room, then, self.newest))

    def tell(self, change: Change, then: Known) -> None:
        show(change)
        say(joining.counted(then.members))
        for failure in offered.write(self.room, then):
            say(failure)

    def names(self) -> None:
        """Users of the room, as the last backup has them in lists and groups, whom the directory
        writes in other capitals: they would be somebody else."""
        if not self.last():
            raise Refused("no backup yet, where names are looked for: systemctl start "
                          f"{self.room.nightly}")
        asked = Asked(Directory(guests.settings_of(self.room.conf)))
        theirs = {one.lower(): one for one in asked.users.values()}
        same = set(asked.users.values())
        ours = set()
        with texts.of_last(self.room, texts.LISTS) as source:
            for row in dump.rows(source):
                if not isinstance(row, dump.Object):
                    ours.add(row[1])
                    continue
                named = [entries.entry(line.decode("ascii", "replace"))
                         for line in row.dacl[1:] + row.sacl[1:]]
                ours |= {row.owner, *(one.user for one in named if one and one.user)}
        for one in sorted(ours - same):
            if one.lower() in theirs:
                print(f"{one}: the directory has {report.line(theirs[one.lower()])}")


def compare(now: set[Pair], wanted: set[Pair], groups: dict[str, str], stay: Iterable[str] = ()
            ) -> tuple[set[Pair], set[Pair], set[Pair]]:
    """What comes, what goes, and what stays: the members of groups that the directory hasn't, and
    users whose groups nobody knows."""
    ours = {pair for pair in now if pair[0] in groups and pair[1] not in stay}
    return wanted - ours, ours - wanted, now - ours


def show(change: Change) -> None:
    for line in change.lines():
        print(line)


def work(task: Run, given: argparse.Namespace) -> int:
    """Does what is asked, and returns the status."""
    # The mark of a run that is at work, which has the lock, or of one that was cut off.
    cut_off = os.path.exists(task.mark)
    if cut_off and not (given.dry_run or given.names):
        # The directory is asked later, and nobody waits for that.
        with locks.lock(task.room.unit, 60):
            cut_off = os.path.exists(task.mark)
            if cut_off:
                server.start_again(task.room)
    if given.after:
        if cut_off:
            raise Stop(f"interrupted: a run that had stopped {task.room.unit} was cut off; "
                       f"{task.room.unit} is started")
    elif given.names:
        task.names()
    else:
        task.bring()
    return 1 if task.failures else 0


def all_of(stop: BaseException | None) -> list[str]:
    """What failed, and what failed before it, where the server didn't start after that."""
    if not isinstance(stop, Stop):
        return []
    return [*([] if stop.__suppress_context__ else all_of(stop.__context__)), str(stop)]
