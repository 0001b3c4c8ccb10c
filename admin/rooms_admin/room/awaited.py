"""A room's server comes, and goes: others wait meanwhile, and who asked before is answered."""
import http.client
import os
import time
from contextlib import suppress

from ..host import locks, mail, safe
from . import server, waits, way
from ..cli.report import Stop, say
from ..host.at_socket import AtServer


# For so many seconds one may end again and again before it answers.
_FAILS = 30.0


def _down(room: str) -> str:
    """A file that is there while no server answers: since when, by the machine's own count, or that
    it was told."""
    return os.path.join(locks.RUN, f"rooms-down.{room}")


def _tell_down(room: str, seconds: float) -> None:
    """Once, if it has been so for as long. To systemd it is no failure: it starts the server anew,
    or waits for it."""
    now = time.monotonic()
    with suppress(OSError, ValueError), open(_down(room), "a+", encoding="ascii") as file:
        file.seek(0)
        said = file.read()
        if not said:
            file.write(f"{now}\n")
        elif said != "told\n" and now - float(said) >= seconds:
            file.truncate(0)
            file.write("told\n")
            say(f"rooms@{room} doesn't answer within {now - float(said):.0f} s")
            mail.warn(f"rooms@{room}.service")


def _is_up(room: str) -> None:
    with suppress(FileNotFoundError):
        os.unlink(_down(room))


def _asked(connection: http.client.HTTPConnection) -> tuple[int, bytes] | None:
    """An empty question, which changes nothing and needs no right."""
    try:
        connection.request("GET", "/can/?", headers={"Connection": "close"})
        got = connection.getresponse()
        return got.status, got.read(1 << 16)
    except (OSError, http.client.HTTPException):
        return None
    finally:
        connection.close()


def _answer(port: str, path: str) -> tuple[int, bytes] | None:
    if os.path.exists(path):
        return _asked(AtServer(path, waits.ANSWER))
    return _asked(http.client.HTTPConnection("127.0.0.1", int(port), timeout=waits.ANSWER)
                  ) if port else None


def is_well(port: str, path: str) -> bool:
    return _answer(port, path) == (200, b"{}")


def arrive(room: str) -> None:
    """A start that nobody was told of, such as that of the machine, has others wait as well: not
    for a server that has ended by now, where what they wait at may not start either."""
    _refuse_ended(room)
    way.to_waiting(room)
    while _answer("", way.socket_of(room)) is None:
        _refuse_ended(room)
        # Those who wait for it wait no longer than that.
        _tell_down(room, waits.START)
        time.sleep(0.05)
    way.to_server(room)
    _is_up(room)


def _refuse_ended(room: str) -> None:
    """systemd waits for this process where the server has ended, and only then starts it again."""
    process = os.environ.get("MAINPID", "")
    if process.isdigit() and not os.path.exists(f"/proc/{process}"):
        raise Stop(f"the server of {room} has ended")


def _comes_back(room: str) -> bool:
    """Not where systemd was asked to stop the room, by somebody else than a verb that starts it
    again: it has no other work to do with its unit then."""
    unit = f"rooms@{room}"
    if os.path.exists(server.mark_of(unit)):
        return True
    jobs = server.systemctl("list-jobs", "--plain", "--no-legend", f"{unit}.service")[1]
    return not any(line.split()[1:3] == [f"{unit}.service", "stop"] for line in jobs.splitlines())


def _answered(handle: int) -> None:
    """Who came before this question is answered before it. It is asked twice, since somebody may
    have seen the socket a moment before it went."""
    ends = time.monotonic() + waits.LAST
    asked = 0
    while asked < 2 and time.monotonic() < ends:
        connection = AtServer(f"/proc/self/fd/{handle}", max(0.05, ends - time.monotonic()))
        try:
            connection.connect()
        except BlockingIOError:
            # As many wait as may: one more gets no place yet.
            time.sleep(0.01)
            continue
        except OSError:
            return
        _asked(connection)
        asked += 1


def leave(room: str) -> None:
    """One that has failed before it ever answered may do so again: nobody waits for that."""
    before = way.server_there(room)
    if _comes_back(room):
        if before == -1:
            _tell_down(room, _FAILS)
        if before == -1 or not way.to_waiting(room):
            way.close(room)
    else:
        way.close(room)
        _is_up(room)
        server.stop_beside(room)
    if before != -1:
        with safe.opened(before):
            _answered(before)
