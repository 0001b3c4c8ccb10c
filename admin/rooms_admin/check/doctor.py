"""Looks at a room's file and what is around it, cause by cause, as the room's user."""
import os
import pwd
import shlex

from ..cli import report
from ..host import as_user, commands
from ..room import settings
from . import front, holders


class Doctor:
    def __init__(self, file: str, user: pwd.struct_passwd, program: str) -> None:
        self.file = file
        self.folder, self.base = os.path.split(file)
        self.user = user
        self.program = program
        self.causes: list[dict[str, str]] = []
        self.fixed = False
        self.prints = True

    def cause(self, what: str, text: str) -> None:
        self.causes.append({"cause": what, "text": text})
        if self.prints:
            print(report.line(f"{what}: {text}"), flush=True)

    def as_user(self, work: as_user.Work) -> list[list[str]]:
        return as_user.as_user(self.user, work)

    def may(self, place: str, what: int) -> bool:
        return self.as_user(lambda: [["yes"]] if os.access(place, what) else []) == [["yes"]]

    def look_at_way(self) -> bool:
        """Whether each folder on the way is there and lets the user pass."""
        way = ""
        for name in self.folder.strip("/").split("/"):
            way += f"/{name}"
            if not os.path.exists(way):
                self.cause("no file", f"the folder {way} isn't there: is its disk mounted?")
            elif not os.path.isdir(way):
                self.cause("no file", f"{way} isn't a folder")
            elif not self.may(way, os.X_OK):
                self.cause("permission", f"{self.user.pw_name} can't enter the folder {way}: is "
                           "the name right? chmod, chown where it is the room's own")
            else:
                continue
            return False
        return True

    def look_at_file(self) -> bool:
        there = os.path.exists(self.file)
        if not there and os.path.exists(f"{self.folder}/restoring.{self.base}"):
            self.cause("no file", "a restore was cut off, and no room is in place: rooms-admin "
                       "restore --undo")
        elif not there and os.path.islink(self.file):
            self.cause("no file", f"{self.file} is a link that leads nowhere")
        elif not there:
            self.cause("no file", f"{self.file} isn't there: is the name right (FILE in "
                       f"{settings.HOME}/*.conf)?")
            if os.path.exists(self.file + "-wal"):
                self.cause("no file", f"its log {self.file}-wal is alone there: keep it until the "
                           "file is back")
        elif os.path.islink(self.file):
            self.cause("not a room", f"{self.file} is a link, which no backup follows: FILE in "
                       f"{settings.HOME}/*.conf has to name the file itself")
        elif not os.path.isfile(self.file):
            self.cause("not a room", f"{self.file} is no file")
        else:
            return True
        return False

    def look_at_mount(self) -> None:
        """What nobody can write isn't taken for a matter of permissions."""
        target, options = holders.mount_of(self.file)
        if "ro" in options.split(","):
            self.fixed = True
            self.cause("read-only", f"{target} is mounted read-only, perhaps since its disk failed "
                       "(dmesg): mount -o remount,rw")
        for each in (self.folder, self.file, self.file + "-wal"):
            if holders.is_immutable(each):
                self.fixed = True
                self.cause("read-only", f"{each} has the attribute i, so that nobody can change "
                           f"it: chattr -i {shlex.quote(each)}")

    def look_at_unit(self) -> None:
        """The unit lets the server write below /var/lib/rooms alone."""
        for name in holders.rooms_of(self.file):
            unit = f"rooms@{name}"
            if self.file.startswith("/var/lib/rooms/"):
                continue
            if self.file.startswith(("/home/", "/root/", "/run/user/")):
                self.cause("read-only", f"the unit {unit} can't see {self.folder} (ProtectHome): "
                           "put the room elsewhere")
            elif self.folder not in holders.shown(unit, "ReadWritePaths").split():
                self.cause("read-only", f"the unit {unit} may not write there: systemctl edit "
                           f"{unit}, with [Service] and ReadWritePaths={self.folder}")

    def look_at_rights(self) -> None:
        who = self.user.pw_name
        for each in (self.folder, self.file, self.file + "-wal"):
            if not os.path.lexists(each):
                continue
            quoted = shlex.quote(each)
            # The room's user may put a link in the place of each but the folder, and what it leads
            # to is given to nobody.
            is_theirs = each != self.folder
            if is_theirs and os.path.islink(each):
                self.cause("not a room", f"{each} is a link, and no log: rm {quoted}")
            elif os.stat(each).st_uid != self.user.pw_uid:
                self.cause("owner", f"{each} belongs to {holders.owner_of(each)}, and not to "
                           f"{who}: chown {'-h ' * is_theirs}{who}: {quoted}")
            elif not self.may(each, os.R_OK):
                self.cause("permission", f"{who} can't read {each}: chmod u+rw {quoted}")
            elif not self.fixed and not self.may(each, os.W_OK):
                self.cause("permission", f"{who} can't write {each}: chmod u+rw {quoted}")
        links = os.stat(self.file).st_nlink
        if links != 1:
            self.cause("two names", f"{self.file} has {links} names, by ln or cp -l, and is opened "
                       "under none: copy it, and take the copy in its place")

    def look_at_processes(self) -> str:
        """Whether it is open, as 'open'; or served by its own unit, which then is what is said."""
        found = ""
        named = holders.rooms_of(self.file)
        for holder in holders.of_file(self.file):
            found = found or "open"
            unit = next((f"rooms@{name}" for name in named
                         if holders.shown(f"rooms@{name}", "MainPID") == str(holder.process)), "")
            if unit and holders.answers(unit.partition("@")[2]):
                found = unit
            elif unit:
                self.cause("busy", f"{unit} has it open, and doesn't answer: systemctl status "
                           f"{unit}")
            else:
                stop = f": systemctl stop {holder.unit}" if holder.unit else ""
                self.cause("busy", f"process {holder.process} ({holder.said}) has it open, so that "
                           f"no other can{stop}")
        if len(named) > 1:
            self.cause("busy", "two rooms name this file, so that only one of them runs: grep -H "
                       f"^FILE= {settings.HOME}/*.conf")
        return found

    def look_at_space(self) -> None:
        for what, said in self.as_user(lambda: as_user.try_writing(self.folder)):
            who = self.user.pw_name
            if what == "no space":
                self.cause(what, f"{who} can't write {as_user.TRIAL} bytes into {self.folder} (df, "
                           f"df -i, quota): {said}")
            elif what == "read-only" and not self.fixed:
                self.cause(what, f"{self.folder}: {said}")
            elif what == "permission" and not self.causes:
                self.cause(what, f"{who} can't make a file in {self.folder}: {said}")
            elif what == "disk":
                self.cause(what, f"writing into {self.folder} fails: {said}; dmesg says more")

    def look_at_kind(self) -> bool:
        """By its beginning, which the room's user reads; or this one, what that user can't: nobody
        is told to give away another file."""
        found = self.as_user(lambda: as_user.kind(self.file))
        if not found and not self.may(self.file, os.R_OK):
            found = as_user.kind(self.file)
        for what, text in found[:1]:
            self.cause(what, text)
        return not found

    def look_inside(self) -> None:
        with as_user.own_folder(self.user) as place:
            for what, text in self.as_user(
                    lambda: as_user.verify(self.program, self.file, place)):
                self.cause(what, text)

    def look_at_front(self) -> None:
        """Of a room that settings name: nginx shows no other."""
        if not holders.rooms_of(self.file):
            return
        try:
            said = front.refusal()
        except commands.Slow as slow:
            said = str(slow)
        if said:
            self.cause("front end", said)

    def look(self) -> str:
        """All of it; by whom it is served."""
        served = ""
        if self.look_at_way() and self.look_at_file():
            # First, so that no other file, such as one of the system, is given to the room's user.
            is_room = self.look_at_kind()
            self.look_at_mount()
            self.look_at_unit()
            if is_room:
                self.look_at_rights()
            served = self.look_at_processes()
            self.look_at_space()
            if is_room and not served:
                self.look_inside()
        self.look_at_front()
        return served

    def run(self, as_rows: bool) -> int:
        self.prints = not as_rows
        served = self.look()
        if as_rows:
            report.put_rows(self.causes)
        elif not self.causes:
            print(f"nothing is wrong: {served} serves {self.file}, and answers" if served else
                  f"nothing is wrong: {self.user.pw_name} can open {self.file}, and it is sound")
        return 1 if self.causes else 0
