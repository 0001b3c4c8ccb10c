"""rooms-admin VERB: one command for all that an administrator does beside the program."""
import argparse
import os
import shlex
import signal
import sys

from .cli import alike, manual, output, report, words as reading
from .cli.table import CHANGE, OF_UNITS, OLD, PARTS_THAT_CHANGE, VERBS
from .host import journal


def _run(verb: str, words: list[str]) -> int:
    if verb not in VERBS and verb not in OF_UNITS:
        meant = alike.meant(verb, [*VERBS, "help"])
        raise report.Refused(f"bad arguments: there is no verb '{verb}'{meant}; "
                             "rooms-admin --help")
    report.prog = f"rooms-admin {verb}"
    report.typed = shlex.join(["rooms-admin", verb, *words])
    module = manual.module_of(verb)
    try:
        given = reading.read(verb, module, words)
    except reading.Asked as asked:
        print(manual.explain(verb, asked.parser), end="")
        return 0
    if not _changes(verb, given):
        return int(module.run(given))
    journal.begins(verb, words)
    status = 1
    try:
        status = int(module.run(given))
    except report.Stop as stop:
        status = stop.status
        raise
    finally:
        journal.ends(verb, status)
    return status


def _changes(verb: str, given: argparse.Namespace) -> bool:
    """Whether a person has asked for a change. A unit's run is in the journal by its own name."""
    if getattr(given, "dry_run", False) or getattr(given, "names", False) or (
            "ROOMS_UNIT" in os.environ):
        return False
    if verb == "members":
        return bool(given.file)
    if verb in PARTS_THAT_CHANGE:
        return given.what in PARTS_THAT_CHANGE[verb]
    return verb in CHANGE


def _version() -> int:
    """That of the program which was installed with it."""
    from .room import program, settings
    print(f"rooms-admin of rooms {program.version_of(settings.PROGRAM)}")
    return 0


def _complete(command: str, words: list[str]) -> int:
    from . import completing
    print("".join(f"{one}\n" for one in completing.of(command, words)), end="")
    return 0


def _options_first(words: list[str]) -> list[str]:
    """The same words with the verb before its options: --room has a value, and other options that
    stand there have none."""
    at = 0
    while at < len(words) and words[at].startswith("-"):
        at += 2 if words[at] in ("-r", "--room") else 1
    before, rest = words[:at], words[at:]
    end = rest.index("--") if "--" in rest else len(rest)
    return [*rest[:end], *before, *rest[end:]]


def _asked(words: list[str], verb: str) -> int:
    if not verb:
        if words[:1] == ["help"]:
            words = [*words[1:], "--help"]
        if words == ["--version"]:
            return _version()
        if words[:1] == ["--manual"]:
            print(manual.page(), end="")
            return 0
        if words[:1] in ([], ["--help"], ["-h"]):
            print(manual.overview(), end="")
            return 0 if words else 2
        if words[:1] == ["--words"]:
            print("\n".join(manual.words(words[1:])))
            return 0
        if words[:1] == ["--complete"] and len(words) > 2:
            return _complete(words[1], words[2:])
        words = _options_first(words)
        verb = words.pop(0)
    return _run(verb, words)


def _let_go_of_output() -> None:
    """What can't be written isn't tried once more at the very end, where Python would tell of it
    with a status of its own."""
    try:
        sys.stdout.flush()
    except OSError:
        os.dup2(os.open(os.devnull, os.O_WRONLY | os.O_CLOEXEC), sys.stdout.fileno())


def main(words: list[str] | None = None, name: str = "") -> int:
    output.open_all()
    report.catch_signals()
    # Where whoever began this hears of no child that ends, each would seem to have ended well.
    signal.signal(signal.SIGCHLD, signal.SIG_DFL)
    words = list(sys.argv[1:] if words is None else words)
    name = name or os.path.basename(sys.argv[0])
    try:
        verb = OLD.get(name, "")
        if name == "rooms-add" and "--remove" in words:
            words.remove("--remove")
            verb = "remove"
        if verb:
            print(f"{name}: its name is now rooms-admin {verb}", file=sys.stderr)
        status = _asked(words, verb)
        sys.stdout.flush()
        return output.ended(status)
    except report.Stop as stop:
        # What failed first, where bringing things back has failed too.
        if isinstance(stop.__context__, report.Stop) and not stop.__suppress_context__:
            report.say(str(stop.__context__))
        report.say(str(stop))
        return stop.status
    except OSError as fault:
        _let_go_of_output()
        report.say(f"failed: {fault}")
        return 1


if __name__ == "__main__":
    sys.exit(main())
