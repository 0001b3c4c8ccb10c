"""A night's copy of a room, made, verified, kept, and what is written beside it. What fails is
told at the end."""
import glob
import os
import resource
import time
from collections.abc import Callable
from contextlib import ExitStack
from dataclasses import dataclass
from typing import IO

from ..cli import report
from ..host import locks, mail, safe
from ..room import health, names, needs, private_server, program, server
from . import backups, copying, dates, for_search, texts, tidying
from ..cli.report import Interrupted, Refused, Stop, say
from ..room.held import NotHeld
from ..room.http_client import Caller, Client
from ..room.settings import Room
from ..room.size import NoRoom, Used
from .backups import Found

# How many failures are said again at the end, and letters of each.
_AGAIN, _SHOWN = 20, 300


@dataclass(frozen=True)
class Beside:
    """What follows from a copy, by what knows more than copies: machine.tar, what has to be told of
    the site's certificate, and what users see that is made of a text."""
    save_machine: Callable[[str, str], list[str]]
    see_certificate: Callable[[Room], tuple[str, bool]]
    # Of which text, and what is so without it.
    for_users: list[tuple[str, Callable[[Room, IO[bytes], str], list[str]], str]]


class Night:
    def __init__(self, room: Room, beside: Beside) -> None:
        self.room = room
        self.beside = beside
        self.failures: list[str] = []
        self.above = backups.folder(room)
        self.date = self.part = self.kept = ""
        self.dates = dates.Night(room)
        # The private copy that the program works on, and how much memory it may have for that; and
        # a moment before it was made.
        self.copied = ""
        self.copied_at = 0
        self.memory = 0
        self.unread = False
        self.starts = True

    def failed(self, text: str) -> None:
        if text:
            self.failures.append(text)
            say(text)

    def run(self) -> int:
        copying.find_backups(self.room)
        try:
            try:
                self.make_place()
                with ExitStack() as owned:
                    self.back_up(owned)
            except Interrupted:
                raise
            except (Stop, OSError) as fault:
                self.failed(str(fault))
            # Nothing that is left of before keeps a copy from being made.
            for text in tidying.left(self.room, self.part):
                self.failed(text)
            self.look()
            self.for_users()
            self.for_search()
        except Interrupted:
            self.failed(f"interrupted: there is no backup of {self.date}" if self.part else
                        f"interrupted: the backup of {self.date} may lack a part of what is "
                        "written beside it")
        return self.finish()

    def make_place(self) -> None:
        """The room's own folder, and in it one that only this run has."""
        copying.close_backups(self.room)
        try:
            backups.make_folder(self.room)
        except OSError as fault:
            raise Stop(f"no folder: {self.above} can't be made, so nothing was copied: "
                       f"{fault.strerror}") from fault
        while True:
            # Only one run a second can have this name.
            self.date = time.strftime("%F.%H%M%S")
            if not any(glob.glob(glob.escape(os.path.join(one, self.date)) + "*")
                       for one in (self.above, self.room.backups)):
                break
            time.sleep(1)
        self.part = os.path.join(self.above, self.date + ".part")

    def back_up(self, owned: ExitStack) -> None:
        try:
            backups.make_closed(self.part)
            backups.begin(self.part)
        except (OSError, safe.NoFile) as fault:
            raise Stop(f"no folder: {self.part} can't be made, so nothing was copied: "
                       f"{safe.why(fault)}") from fault
        self.copy_room()
        before = backups.look(self.room)
        self.keep_copy(owned, 1 + max((one.number for one in before.backups), default=0))
        self.tell_before(before)
        for name in (texts.RECORDS, texts.LISTS):
            self.write_text(name, *texts.PRINTED[name])
        self.failed(self.dates.look(self.copied, self.copied_at, self.memory))
        self.failed(dates.keep(self.room, self.kept))
        self.write_machine()
        self.remove_old(before)
        # It has as much to do as users like: all that others rely on is done by then.
        self.write_text(texts.REVIEW, *texts.PRINTED[texts.REVIEW])

    def tell_before(self, before: Found) -> None:
        for one in before.backups[-1:]:
            if one.name > self.date:
                self.failed(f"the clock was set back: the backup {one.name} was made before the "
                            f"one of {self.date}, which is the newest")
        in_backups = [one for one in before.backups if one.above != self.above]
        if in_backups:
            say(f"{len(in_backups)} backups of an earlier version are in {self.room.backups} "
                f"itself: they count, and go by KEEP; new ones are in {self.above}")

    def copy_room(self) -> None:
        """Only for this nobody else may be at work with the room: all that comes later may wait
        for the disk of backups."""
        with locks.lock(self.room.unit, 10):
            copied = self.copy_alone()
        copying.keep(self.room, copied, self.part)
        copying.forget(self.room, self.part)

    def copy_alone(self) -> copying.Copy:
        self.copied_at = dates.now()
        rests = server.state(self.room) == "inactive"
        # A run that was killed may have left it so.
        if not rests or not server.was_left(self.room):
            if rests:
                say(f"{self.room.unit} isn't running, and is not started")
            try:
                return copying.copy(self.room, self.part)
            except NotHeld as why:
                self.tell_stop(why)
        return copying.copy_stopped(self.room, self.part, self.not_started)

    def not_started(self, why: str) -> None:
        self.failed(why)
        self.starts = False

    def tell_stop(self, why: NotHeld) -> None:
        """Before the server is stopped. What goes by itself is only said."""
        if server.state(self.room) == "inactive":
            raise Stop(f"there is no copy: {why}") from why
        text = f"{why}: {self.room.unit} is stopped for the copy, and started again"
        if why.is_fault:
            self.failed(text)
            return
        say(text)
        if isinstance(why, copying.TooLong):
            mail.notify(self.room.mail, f"{self.room.unit} on {os.uname().nodename} is stopped for "
                        "its copies", [text], "warning")

    def on_copy(self, word: str, rest: list[str], into: int | None = None, most: int = 0,
                seconds: float = 0) -> tuple[int, bytes, str]:
        """No run of the program on the copy gets more memory than the settings say."""
        if not self.memory:
            self.memory = program.enough(self.room, self.copied)
        status, out, text = program.on_copy(self.room, self.copied, [word, *rest], self.memory,
                                            into, most=most, seconds=seconds)
        if "fault: memory" in text:
            text += f", with MEMORY={self.memory}"
        return status, out, text

    def keep_copy(self, owned: ExitStack, number: int) -> None:
        """The copy gets its name once verify has found another one of it sound: it is a backup from
        then on. Nobody but root has ever had anything in it."""
        self.copied = owned.enter_context(private_server.private_copy(self.room, self.part))
        status, out, text = self.on_copy("verify", [])
        place = os.path.join(self.above, self.date)
        try:
            with safe.opened(safe.own_folder(self.part)) as within:
                if status == 0:
                    backups.give_number(within, number, self.room.base)
            os.rename(self.part, place if status == 0 else place + ".unsound")
        except (OSError, safe.NoFile) as fault:
            raise Stop(f"the copy can't be named {place}: {safe.why(fault)}") from fault
        self.part = ""
        if status != 0:
            for hindered in tidying.old_unsound(self.room, place + ".unsound"):
                self.failed(hindered)
            raise Stop(f"verify of the copy failed, status {status}: "
                       f"{text or out.decode(errors='replace').strip()}; it stays as "
                       f"{place}.unsound, which is no backup")
        self.kept = place
        with safe.opened(safe.folder(self.above)) as above:
            os.fsync(above)
        self.note_need()

    def note_need(self) -> None:
        """No process that this one has waited for took more than verify, but for a tiny room."""
        memory = resource.getrusage(resource.RUSAGE_CHILDREN).ru_maxrss >> 10
        try:
            used = Used().look(os.path.join(self.kept, self.room.base)) >> 20
            needs.put(self.room.name, needs.Need(self.date, used, memory))
        except NoRoom:
            pass  # A room whose first page says another thing has no number.
        except OSError as fault:
            self.failed(f"{needs.FOLDER} can't be written: {fault.strerror}")

    def remove_old(self, before: Found) -> None:
        """verify doesn't look at records. Where one of tonight's can't be read, an older backup may
        be the last that has it whole."""
        jumps = backups.jump(before)
        # The disk may have gone away since, and other backups may lie below its mount point.
        is_gone = not os.path.exists(os.path.join(self.kept, self.room.base))
        for text in [*before.wrong, *([jumps] if jumps else []),
                     *([f"{self.kept} isn't there any more"] if is_gone else [])]:
            self.failed(f"no older backup is removed: {text}")
        if self.unread and self.room.keep.nights:
            self.failed("a record in the copy cannot be read, so no older backup is removed: one "
                        "may have it whole")
        if not self.room.keep.nights or before.wrong or jumps or is_gone or self.unread:
            return
        gone = tidying.beyond(before.backups, self.room.keep, self.date)
        if gone and (ahead := tidying.ahead(before.backups, self.room.keep, self.date)):
            self.failed(f"no older backup is removed: {ahead}")
            return
        for one in gone:
            self.failed(tidying.remove(self.room, one.place, "has more in it than a backup"))

    def write_text(self, name: str, word: str, *rest: str) -> None:
        """A text that could not be made whole is not there."""
        fresh = f"{self.kept}/unfinished"
        try:
            out = os.open(fresh, os.O_RDWR | os.O_CREAT | os.O_EXCL | os.O_CLOEXEC, 0o600)
        except OSError as fault:
            self.failed(f"{fresh} can't be written: {fault.strerror}; the backup {self.kept} is "
                        f"sound, but it has no {name}")
            return
        try:
            status, _, text = self.on_copy(word, [*rest], out, texts.most_of(name),
                                           program.SECONDS)
            if status == 0:
                os.fsync(out)
                os.rename(fresh, f"{self.kept}/{name}")
                return
            text = text or os.pread(out, 300, 0).decode(errors="replace").strip()
        except OSError as fault:
            status, text = 1, f"{self.kept}/{name} can't be written: {fault.strerror}"
        finally:
            os.close(out)
        self.unread |= word == "audit" and "fault: database" in text
        if word == "audit" and (status < 0 or "fault: memory" in text):
            text += "; each record takes 525 bytes of memory"
        tidying.remove_unfinished(self.kept)
        self.failed(f"{word} of the copy failed, status {status}: {text}; the backup {self.kept} "
                    f"is sound, but it has no {name}")

    def write_machine(self) -> None:
        if os.geteuid() != 0:
            return
        fresh = f"{self.kept}/unfinished"
        try:
            lacks = self.beside.save_machine(fresh, program.version_of(self.room.program))
            os.rename(fresh, f"{self.kept}/machine.tar")
        except OSError as fault:
            tidying.remove_unfinished(self.kept)
            self.failed(f"the backup {self.kept} is sound, but it has no machine.tar: {fault}")
            return
        for one in lacks:
            self.failed(f"the backup {self.kept} is sound, and of its machine.tar: {one}")

    def look(self) -> None:
        self.failed(health.patiently(self.room, health.disk))
        if self.starts:
            self.failed(health.patiently(self.room, health.answer))
        self.failed(health.patiently(self.room, health.size))
        self.failed(health.patiently(self.room, health.units))
        text, over = self.beside.see_certificate(self.room)
        if over:
            self.failed(text)
        elif text:
            say(text)
            mail.notify(self.room.mail, f"the certificate of rooms on {os.uname().nodename}",
                        [text], "warning")
        if self.room.review and self.kept and os.path.exists(f"{self.kept}/{texts.REVIEW}"):
            self.put_review()

    def put_review(self) -> None:
        """As a client on this machine does. A server has to read its file before it listens."""
        room = self.room
        document = f"{room.review.rstrip('/')}/{self.date[:10]}-{texts.REVIEW}"
        if server.state(room) != "active":
            say(f"no server runs: {document} isn't put into the room")
            return
        with safe.own_file(f"{self.kept}/{texts.REVIEW}") as source:
            body = source.read()
        ends = time.monotonic() + 60
        while True:
            try:
                client = Client(room.address, Caller(as_user=room.reviewer), "", False,
                                room.listens)
                got = client.ask("PUT", "doc", os.fsencode(document), body)
                text = f"{got.body.decode(errors='replace')} {got.status}"
                if got.status in (201, 204):
                    dates.tell_changed(room, os.fsencode(document))
                    return
                break
            except Stop as stop:
                text = str(stop)
                if isinstance(stop, Interrupted):
                    raise
                if time.monotonic() > ends:
                    break
                time.sleep(1)
        self.failed(f"{names.shown(os.fsencode(document))} isn't put into the room: {text}; it is "
                    f"{self.kept}/{texts.REVIEW}")

    def for_users(self) -> None:
        """What the web interface shows beside the room, and accesses that have an end. The disk of
        backups has given the text before anybody else has to wait."""
        for name, write, lacks in self.beside.for_users:
            if not self.kept:
                continue
            if not os.path.exists(f"{self.kept}/{name}"):
                self.failed(f"there is no {name}: {lacks}")
                continue
            try:
                with texts.beside(self.room, self.kept, name) as source:
                    for one in write(self.room, source, self.kept):
                        self.failed(one)
            except Interrupted:
                raise
            except (OSError, Stop) as fault:
                self.failed(str(fault))

    def for_search(self) -> None:
        """It may take half an hour. The door is told of the night behind it: what it says of a
        document then is of the copy whose texts are searched."""
        if self.kept:
            self.failed(for_search.build(self.room, self.kept, self.copied_at, self.date))
            self.dates.tell()

    def finish(self) -> int:
        """Somebody is told before the disk of backups is asked for anything, which may hang."""
        report.ignore_signals()
        self.dates.end()
        before = len(self.failures)
        if before:
            tell(self.room, self.failures)
        self.clean()
        if len(self.failures) > before:
            tell(self.room, self.failures[before:])
        self.say_again()
        return 1 if self.failures else 0

    def say_again(self) -> None:
        """Who is told that a unit failed is sent its last lines, and users may cause others: dates
        that are none, and accesses that couldn't be taken back."""
        for text in self.failures[-_AGAIN:] if mail.of_unit() else []:
            say(text[:_SHOWN])

    def clean(self) -> None:
        if self.part and os.path.isdir(self.part):
            self.failed(tidying.remove(self.room, self.part, "has more in it than a copy"))
        elif self.part and os.path.isdir(self.part.removesuffix(".part")):
            # A run that was cut off had named it already.
            self.kept = self.part.removesuffix(".part")
        if self.kept:
            tidying.remove_unfinished(self.kept)


def tell(room: Room | None, failures: list[str]) -> None:
    name = room.unit if room else "rooms"
    mail.notify(room.mail if room else "",
                f"{name} on {os.uname().nodename}: the nightly run failed", failures)


def would(room: Room) -> int:
    """What goes by KEEP once there is tonight's. Nothing is copied, since that holds the room."""
    if why := copying.hindered(room):
        raise Refused(why)
    date = time.strftime("%F.%H%M%S")
    print(f"would: {room.file} is copied to {os.path.join(backups.folder(room), date)}")
    before = backups.known(room)
    wrong = [*before.wrong, *filter(None, (
        backups.jump(before), tidying.ahead(before.backups, room.keep, date)))]
    for text in wrong:
        say(f"no older backup is removed: {text}")
    if room.keep.nights and not wrong:
        for one in tidying.beyond(before.backups, room.keep, date):
            print(f"would: {one.place} is removed")
    return 1 if wrong else 0
