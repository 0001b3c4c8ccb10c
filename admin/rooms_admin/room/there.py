"""What a room's settings name has to be there: otherwise each verb refuses them, and no server
starts. So has the room itself, which may be on another machine."""
import os

from ..cli import report
from ..cli.report import Refused


def place_of(path: str) -> str:
    """What this machine has in the place of these settings, where it shows a room of another."""
    return os.path.splitext(path)[0] + ".on"


def need_here(path: str, name: str, machine: str) -> None:
    """`machine` has the room, whose settings aren't here, if any has."""
    if machine and not os.path.lexists(path):
        raise Refused(f"elsewhere: the room {name} is on {machine}; there: {report.typed}")


def need_program(path: str, program: str) -> None:
    if not (os.path.isfile(program) and os.access(program, os.X_OK)):
        raise Refused(f"no program: {program}, of {path}, isn't there or can't be run")


def folder(path: str, file: str) -> os.stat_result:
    """That of the room's file."""
    place = os.path.dirname(file)
    try:
        return os.stat(place)
    except OSError:
        raise Refused(f"no folder: {place}, of FILE in {path}, isn't there") from None


def need_file(path: str, file: str) -> None:
    """What can be a room's file; it may come later."""
    folder(path, file)
    if file.endswith("/") or os.path.isdir(file):
        raise Refused(f"no file: {file}, of FILE in {path}, is a folder")
