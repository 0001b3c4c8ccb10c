"""What --help, the page for man and a shell that completes show, made of the verbs' own words."""
import argparse
import re
import textwrap
from importlib import import_module
from types import ModuleType

from . import table, words as reading
from .table import KINDS, OLD, VERBS

_ABOUT = "rooms-admin: what an administrator does with rooms beside the program"
_STATUS = "0 done, 1 something failed or was left out, 2 refused, and nothing was begun"


def module_of(verb: str) -> ModuleType:
    return import_module(table.module_of(verb))


def _about(one: argparse.Action) -> str:
    return (one.help or "").replace("%%", "%")


def explain(verb: str, parser: reading.Parser) -> str:
    """All of a verb, or of a part of one."""
    module = module_of(verb)
    text = "".join(_filled(usage) for usage in parser.usages()) + "\n"
    about = f"{parser.about[:1].upper()}{parser.about[1:]}."
    told = [about] if parser.is_part else _paragraphs(module)
    text += "\n".join(textwrap.fill(part, 99) + "\n" for part in told) + "\n" + _shown(parser)
    for name, part in parser.parts.items():
        text += textwrap.fill(f"{name}: {part.about}", 99) + "\n" + _shown(part)
    return text + f"\nStatus: {getattr(module, 'STATUS', _STATUS)}.\n"


def _shown(parser: reading.Parser) -> str:
    """Its words and options, a paragraph each."""
    text = ""
    for one in [] if parser.parts else parser.shown():
        shown = f"  {reading.name_of(one)} {reading.value_of(one)}".rstrip().replace("   ", "  ")
        text += textwrap.fill(_about(one), 99, initial_indent=shown.ljust(19) + " ",
                              subsequent_indent=" " * 20) + "\n"
    return text


def _filled(usage: str) -> str:
    """An option and its value stay on one line."""
    held = re.sub(r"\[[^\]]*\]", lambda found: found[0].replace(" ", "\0"), usage)
    return textwrap.fill(held, 99, initial_indent="Usage: ", subsequent_indent=" " * 9,
                         break_on_hyphens=False).replace("\0", " ") + "\n"


def _paragraphs(module: ModuleType) -> list[str]:
    return [" ".join(part.split()) for part in (module.__doc__ or "").split("\n\n")]


def overview() -> str:
    text = f"{_ABOUT}.\n\nUsage: rooms-admin VERB [OPTIONS] [WORDS]\n\n"
    for kind, verbs in KINDS.items():
        text += f"{kind.capitalize()}:\n"
        text += "".join(f"  {verb:12} {about}\n" for verb, about in verbs.items()) + "\n"
    return (text + "rooms-admin help VERB says all of a verb, --version the program's version. A "
            "room is named by\n--room, as office, or by its settings, as ./FILE; without it, it is "
            f"office.\nStatus: {_STATUS}.\n")


def words(given: list[str]) -> list[str]:
    """For a shell that completes: the verbs, or the parts and the options of one."""
    if not given:
        return [*VERBS, "help", "--help", "--version"]
    if given[0] == "help":
        return words(given[1:]) if given[1:] else [*VERBS]
    if given[0] not in VERBS:
        return ["--help"]
    parser = reading.of(given[0], module_of(given[0]))
    parser = parser.parts.get("".join(given[1:2]), parser)
    return [*parser.parts, *(reading.name_of(one) for one in parser.shown() if one.option_strings),
            "--help"]


def has_value(verb: str, part: str, option: str) -> bool:
    """Whether a word behind it is its value."""
    if verb not in VERBS or not option.startswith("-"):
        return False
    parser = reading.of(verb, module_of(verb))
    return any(option in one.option_strings and one.nargs != 0
               for one in parser.parts.get(part, parser).shown())


def _roff(text: str) -> str:
    text = text.replace("\\", "\\\\").replace("-", "\\-")
    return "\n".join("\\&" + line if line[:1] in (".", "'") else line for line in text.split("\n"))


def _usage_roff(usage: str) -> str:
    """The command, the verb and options in bold, names of values in italics."""
    def part(found: re.Match[str]) -> str:
        one = found[0]
        font = "I" if one.isupper() else "B"
        return f"\\f{font}{_roff(one)}\\fR"
    return re.sub(r"rooms-admin [a-z]+|--[a-z-]+|[A-Z]{2,}", part, usage)


def _verb_roff(verb: str) -> list[str]:
    module = module_of(verb)
    parser = reading.of(verb, module)
    out = [f".SS {_roff(verb)}: {_roff(VERBS[verb])}"]
    for usage in parser.usages():
        out += [".br", _usage_roff(usage)]
    for text in _paragraphs(module):
        out += [".PP", *_roff(text.replace(". ", ".\n")).split("\n")]
    out += _shown_roff(parser)
    for name, part in parser.parts.items():
        out += [".PP", f"\\fB{name}\\fR: {_roff(part.about)}", *_shown_roff(part)]
    return out


def _shown_roff(parser: reading.Parser) -> list[str]:
    out = []
    for one in [] if parser.parts else parser.shown():
        name, value = _roff(reading.name_of(one)), reading.value_of(one)
        shown = (f"\\fB{name}\\fR " if name else "") + (f"\\fI{value}\\fR" if value else "")
        out += [".TP", shown.rstrip(), _roff(_about(one))]
    return out


def page() -> str:
    """rooms-admin(8), by troff."""
    out = ['.TH ROOMS\\-ADMIN 8 "" "rooms" "System Administration"', ".SH NAME",
           "rooms\\-admin \\- what an administrator does with rooms beside the program",
           ".SH SYNOPSIS", ".B rooms\\-admin", "\\fIVERB\\fR [\\fIOPTIONS\\fR] [\\fIWORDS\\fR]",
           ".SH DESCRIPTION",
           "Options may stand anywhere, but those of a part, such as user add, behind its word;",
           "behind \\fB\\-\\-\\fR there are none. \\fIROOM\\fR is the name of a room, or its file",
           "of settings, and office if it isn't given. \\fB\\-r\\fR is short for "
           "\\fB\\-\\-room\\fR."]
    for verb in VERBS:
        out += _verb_roff(verb)
    names = ", ".join(_roff(f"{one} is {verb}") for one, verb in OLD.items())
    out += [".SH OLD NAMES", f"Links keep the names that scripts had before: {names}.",
            ".SH \"EXIT STATUS\"", _roff(_STATUS) + ".", ".SH FILES", ".TP",
            ".I /etc/rooms/NAME.conf", "The settings of a room, each with its comment.",
            ".SH \"SEE ALSO\"", ".BR rooms (1),", "/usr/share/doc/rooms"]
    return "\n".join(out) + "\n"
