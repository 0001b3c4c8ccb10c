"""What a deputy's process hands on by sudo, and what root's hands on to those of other users:
python3 -m unittest test_deputy."""
import ctypes
import errno
import fcntl
import os
import pty
import pwd
import resource
import socket
import subprocess
import sys
import tempfile
import time
import types
import typing
import unittest
from unittest import mock

ADMIN = os.path.join(os.path.dirname(os.path.abspath(__file__)), "..", "..", "admin")
sys.path.insert(0, ADMIN)

from rooms_admin.host import (  # noqa: E402
    as_user, commands, handed_on, locks, processes, waiting)
from rooms_admin.cli.report import Stop  # noqa: E402
from rooms_admin.passwords import passwords  # noqa: E402
from rooms_admin.room import program  # noqa: E402

OOM = "/proc/self/oom_score_adj"
SMALL = {resource.RLIMIT_NOFILE: 60, resource.RLIMIT_FSIZE: 1 << 20, resource.RLIMIT_CPU: 9,
         resource.RLIMIT_STACK: 1 << 20}
# The numbers of the system's own headers.
SET_LATE, LATE, PRCTL = 29, 30, 157


def made_theirs() -> None:
    ctypes.CDLL(None).prctl(SET_LATE, ctypes.c_ulong(10 ** 18))
    for which, most in SMALL.items():
        # (A container's root may raise no second one.)
        resource.setrlimit(which, (most, resource.getrlimit(which)[1]))
    with open(OOM, "w", encoding="ascii") as score:
        score.write("900")
    os.setpriority(os.PRIO_PROCESS, 0, 19)
    os.sched_setaffinity(0, [min(os.sched_getaffinity(0))])


class HandedOn(unittest.TestCase):
    @unittest.skipUnless(os.geteuid() == 0, "what root alone puts off")
    def test_nothing_is_left(self) -> None:
        def looked() -> list[object]:
            made_theirs()
            handed_on.put_off()
            with open(OOM, encoding="ascii") as score:
                said = score.read().strip()
            return [ctypes.CDLL(None).prctl(LATE, 0, 0, 0, 0), said,
                    os.getpriority(os.PRIO_PROCESS, 0),
                    os.sched_getaffinity(0) == os.sched_getaffinity(1),
                    *(resource.getrlimit(which)[0] for which in SMALL)]
        self.assertEqual(waiting.answer(20, looked, "x"),
                         [50_000, "0", 0, True, 1024, -1, -1, 8 << 20])

    def test_how_a_child_ends_is_known(self) -> None:
        """Of one that nobody hears of it would be said that it ended well."""
        text = ("from rooms_admin import __main__; __main__.main(['--words']); "
                "from rooms_admin.host import commands; print(commands.run(['false']).status)")
        done = subprocess.run(["env", "--ignore-signal=CHLD", sys.executable, "-c", text],
                              check=False, stdout=subprocess.PIPE, cwd=ADMIN)
        self.assertEqual(done.stdout.split()[-1:], [b"1"])

    @unittest.skipUnless(os.geteuid() == 0, "what root alone hands on")
    def test_another_users_process_has_no_terminal(self) -> None:
        """Whoever else is that user could type there by it."""
        child, at = pty.fork()
        if child == 0:
            said = []
            for who in (None, commands.Who(65534, 65534)):
                with commands.started(["sh", "-c", "exec </dev/tty && echo typed"], lambda: None,
                                      who, cwd="/") as one:
                    said.append(one.communicate()[0].decode().strip() or "none")
            os.write(1, " ".join(said).encode())
            os._exit(0)
        self.assertEqual(os.read(at, 100), b"typed none")
        os.waitpid(child, 0)
        os.close(at)


@unittest.skipUnless(os.geteuid() == 0, "what root alone hands on")
class Sockets(unittest.TestCase):
    """Whoever took a program over by the file that it reads would send that elsewhere, or leave
    folders in one another without end."""

    def test_the_program_makes_none(self) -> None:
        with tempfile.TemporaryDirectory() as folder:
            os.chmod(folder, 0o755)
            with open(f"{folder}/program", "w", encoding="ascii") as made:
                made.write("#!/usr/bin/python3 -I\nimport os, socket, sys\n"
                           "for act in (socket.socket, lambda: os.mkdir('/var/tmp/made')):\n"
                           "    try:\n        act()\n        print('done', file=sys.stderr)\n"
                           "    except PermissionError:\n        print('none', file=sys.stderr)\n")
            os.chmod(f"{folder}/program", 0o755)
            room = typing.cast(typing.Any, types.SimpleNamespace(
                program=f"{folder}/program", owner=65534, group=65534, memory=0))
            for _, _, said in (program.on_copy(room, f"{folder}/program", ["verify"]),
                               program.run(room, ["groups"]), program.on_text(room, "would", b"")):
                self.assertEqual(said, "none\nnone")

    def test_nor_does_another_make_folders(self) -> None:
        with commands.started(["mkdir", "x"], processes.make_no_folders,
                              commands.Who(65534, 65534), cwd="/tmp") as one:
            self.assertIn("Operation not permitted", one.communicate()[1].decode())

    def test_nor_does_a_look_as_its_user(self) -> None:
        def look() -> list[list[str]]:
            said = []
            acts: list[typing.Callable[[], object]] = [
                socket.socket, lambda: os.mkdir("/var/tmp/made")]
            for act in acts:
                try:
                    act()
                    said.append(["made"])
                except PermissionError:
                    said.append(["none"])
            return said
        self.assertEqual(as_user.as_user(pwd.getpwnam("nobody"), look), [["none"], ["none"]])

    def test_without_a_filter_nothing_begins(self) -> None:
        """Where the kernel takes none, here by a filter before; or on another processor."""
        room = typing.cast(typing.Any, types.SimpleNamespace(
            program="/bin/echo", owner=65534, group=65534, memory=0))

        def began() -> list[object]:
            said: list[object] = []
            for before in (processes.reach_nobody, processes.make_no_folders,
                           processes.hand_on_no_right):
                with commands.started(["echo", "began"], before) as one:
                    out, told = one.communicate()
                    said += [one.returncode, out.decode(), told.decode().partition(":")[0]]
            for status, printed, why in (program.run(room, ["groups"]),
                                         program.on_text(room, "would", b"")):
                said += [status, printed.decode(), why.partition(":")[0]]
            try:
                said += as_user.as_user(pwd.getpwnam("nobody"), lambda: [["began"]])
            except Stop as fault:
                said.append(str(fault).partition(":")[0])
            return said

        def refused() -> list[object]:
            processes._refuse(processes._refusing(PRCTL))
            return began()
        no_filter = [3, "", "no filter of calls"]
        fewer = [3, "", "no fewer rights"]
        rest = [*no_filter * 2, "no filter of calls"]
        self.assertEqual(waiting.answer(20, refused, "x"), [*no_filter * 2, *fewer, *rest])
        with mock.patch.object(processes, "_IS_THAT_ONE", False):
            self.assertEqual(began(), [*no_filter * 2, 0, "began\n", "", *rest])


def asks(folder: str, says: int, user: str, until: int = -1) -> None:
    """A process that wants the room, says when it has it, and keeps it until it hears something."""
    if os.fork():
        return
    try:
        if user:
            os.environ["SUDO_USER"] = user
        with locks.lock("rooms@office", 30, folder):
            os.write(says, f"{user or 'night'} ".encode())
            if until != -1:
                os.read(until, 1)
    finally:
        os._exit(0)


class Full(unittest.TestCase):
    """A service that was taken over has filled /run."""

    def setUp(self) -> None:
        made = tempfile.TemporaryDirectory()
        self.addCleanup(made.cleanup)
        self.folder = f"{made.name}/run"
        with locks.lock("rooms@office", 0, self.folder):
            pass
        opens = os.open

        def opened(path: str, flags: int, mode: int = 0o777, *, dir_fd: int | None = None) -> int:
            if flags & os.O_CREAT and path not in os.listdir(self.folder):
                raise OSError(errno.ENOSPC, "No space left on device", path)
            return opens(path, flags, mode, dir_fd=dir_fd)
        full = mock.patch.object(os, "open", opened)
        full.start()
        self.addCleanup(full.stop)

    def test_a_lock_that_cannot_be_made(self) -> None:
        with locks.lock("rooms@office", 0, self.folder):
            with self.assertRaises(locks.Busy), locks.lock("rooms@office", 0, self.folder):
                pass
        with self.assertRaisesRegex(locks.NoPlace, f"^no lock: no name is left .*{self.folder}$"):
            with locks.lock("rooms@other", 0, self.folder):
                pass

    def test_somebody_is_shut_out(self) -> None:
        lock, change = locks.lock, mock.Mock(return_value={"dana"})
        with mock.patch.object(passwords, "password_files", lambda _: ["F"]), \
                mock.patch.object(passwords, "_other_of", lambda _: ""), \
                mock.patch.object(passwords, "_change_one", change), \
                mock.patch.object(locks, "lock", lambda name, seconds, **more: lock(
                    name, seconds, self.folder, **more)):
            self.assertEqual(passwords.change("office", {"dana": None}), {"dana"})
        change.assert_called_once_with("F", {"dana": None}, False, False)


class Turns(unittest.TestCase):
    def test_a_night_comes_before_all_deputies(self) -> None:
        (said, says), (until, ends) = os.pipe(), os.pipe()
        with tempfile.TemporaryDirectory() as folder:
            asks(folder, says, "carol", until)
            self.assertEqual(os.read(said, 100), b"carol ")
            for _ in range(9):
                asks(folder, says, "carol")
            asks(folder, says, "")
            with open(f"{folder}/rooms@office.first", "rb") as first:
                # It waits there, and not for a moment.
                waits = 0
                while waits < 5:
                    time.sleep(0.03)
                    waits = 0 if locks.taken(first.fileno(), 0) else waits + 1
                    fcntl.flock(first, fcntl.LOCK_UN)
            os.write(ends, b"x")
            for _ in range(11):
                os.wait()
        self.assertEqual(os.read(said, 1000).split(), [b"night", *[b"carol"] * 9])


if __name__ == "__main__":
    unittest.main()
