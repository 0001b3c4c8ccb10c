"""How the words of a verb are read, by argparse: its options first, wherever they stand, and then
the words that are left. So a name may begin with a dash, once a word has come before."""
import argparse
import os
from collections.abc import Sequence
from types import ModuleType
from typing import Any, NoReturn

from . import alike
from .report import Refused


class Asked(Exception):
    """--help: nothing is done, and the parser explains itself."""

    def __init__(self, parser: "Parser") -> None:
        super().__init__(parser.prog)
        self.parser = parser


class _Help(argparse.Action):
    def __call__(self, parser: argparse.ArgumentParser, *_given: object) -> None:
        assert isinstance(parser, Parser)
        raise Asked(parser)


class _Once(argparse.Action):
    """Of two values the second would count alone, without a word. A part's options are read apart
    from its verb's."""

    def __call__(self, parser: argparse.ArgumentParser, namespace: argparse.Namespace,
                 values: Any, _name: str | None = None) -> None:
        assert isinstance(parser, Parser)
        seen = vars(namespace).setdefault(_SEEN[parser.is_part], set())
        if self.dest in seen:
            parser.error(f"{name_of(self)} stands twice")
        seen.add(self.dest)
        setattr(namespace, self.dest, values)


# Which options with a value were given: to a verb, and to a part of it.
_SEEN = ("_to_verb", "_to_part")


class _Words(argparse.ArgumentParser):
    """Which word is which. What is wrong with them is told as of their verb."""

    def __init__(self, verb: "Parser") -> None:
        super().__init__(prog=verb.prog, add_help=False)
        self.verb = verb

    def error(self, message: str) -> NoReturn:
        self.verb.error(message)


class Parser(argparse.ArgumentParser):
    """Of one verb; or of a part of one, such as user add. `forms` are its usages, where one can't
    say all."""

    def __init__(self, prog: str, about: str = "", is_part: bool = False) -> None:
        super().__init__(prog=prog, allow_abbrev=False, add_help=False)
        self.about = about
        self.is_part = is_part
        self.forms: list[str] = []
        self.parts: dict[str, Parser] = {}
        self.words = _Words(self)
        if not is_part:
            self.set_defaults(room="", rooms=[])
        self.add_argument("--help", "-h", action=_Help, nargs=0, help=argparse.SUPPRESS)

    def has_parts(self, dest: str, parts: dict[str, str]) -> list["Parser"]:
        """What is done is a word of its own, here with what each is for."""
        made: Any = self.add_subparsers(dest=dest, metavar=dest.upper(), prog=self.prog,
                                        required=True, parser_class=Parser)
        self.parts = {name: made.add_parser(name, about=about, is_part=True)
                      for name, about in parts.items()}
        return list(self.parts.values())

    def error(self, message: str) -> NoReturn:
        raise Refused(f"bad arguments: {message}; {', or '.join(self.usages())}")

    def parse_known_args(self, args: Any = None, namespace: Any = None) -> Any:
        """Nothing is left over. Options of a part stand behind its word."""
        if self.parts:
            namespace, more = super().parse_known_args(args, namespace)
            if more:
                self.no_option(more[0])
            return namespace, more
        at = args.index("--") if "--" in args else len(args)
        namespace, words = super().parse_known_args(args[:at], namespace)
        for one in words:
            if one.startswith("--"):
                self.no_option(one)
        if words and words[0][0] == "-" and len(words[0]) > 1 and not self.is_part:
            self.no_option(words[0])
        words += args[at + 1:]
        namespace, more = self.words.parse_known_args(["--", *words] if words else [], namespace)
        if left := [one for one in more if one != "--"]:
            self.error(f"a word too many: '{left[0]}'")
        return namespace, left

    def no_option(self, word: str) -> NoReturn:
        name = word.partition("=")[0]
        there = [one for action in self._actions for one in action.option_strings]
        self.error(f"no such option: {name}{alike.meant(name, there)}")

    def shown(self) -> list[argparse.Action]:
        """What help names: words first, then options."""
        return [one for one in self.words._actions + self._actions
                if one.help != argparse.SUPPRESS and not isinstance(one.choices, dict)]

    def usages(self) -> list[str]:
        if self.parts:
            return [usage for part in self.parts.values() for usage in part.usages()]
        if self.forms:
            return [f"{self.prog} {one}" for one in self.forms]
        words = [named(one) for one in self.shown() if not one.option_strings]
        return [" ".join([self.prog, *self._options(), *words])]

    def _options(self) -> list[str]:
        """Those of which only one may be given stand together."""
        alone = {id(one): group._group_actions for group in self._mutually_exclusive_groups
                 for one in group._group_actions}
        found = [" | ".join(named(it) for it in alone.get(id(one), [one])) for one in self.shown()
                 if one.option_strings]
        return [f"[{one}]" for one in dict.fromkeys(found)]


def name_of(one: argparse.Action) -> str:
    """An option, by its long name; nothing for a word."""
    return max(one.option_strings, key=len, default="")


def value_of(one: argparse.Action) -> str:
    """What a word is called, or what stands behind an option."""
    value = one.dest.upper() if one.metavar is None else one.metavar
    return "" if one.nargs == 0 else value if isinstance(value, str) else " ".join(value)


def named(one: argparse.Action) -> str:
    """As usage has it."""
    text = value_of(one)
    if one.option_strings:
        several = " .." if isinstance(one, argparse._AppendAction) else ""
        return f"{name_of(one)} {text}".rstrip() + several
    return {"?": f"[{text}]", "*": f"[{text} ..]", "+": f"{text} [{text} ..]"}.get(
        str(one.nargs), text)


_ROOM = "the room, by its name, or by its settings, as ./FILE"


def _from_here(word: str) -> str:
    """A file of settings is named from where the caller stands, which a verb may leave."""
    if "/" not in word or "://" in word:
        return word
    return os.path.join(os.getcwd(), word.removeprefix("./"))


def room(parser: argparse._ActionsContainer, about: str = f"{_ROOM}; office without it") -> None:
    """The room of a verb: there is one way to name it. Before a part's word it counts too."""
    is_part = isinstance(parser, Parser) and parser.is_part
    parser.add_argument("-r", "--room", metavar="ROOM", help=about, type=_from_here, action=_Once,
                        default=argparse.SUPPRESS if is_part else "")


def rooms(parser: Parser, without: str) -> None:
    """Several of them."""
    parser.add_argument("-r", "--room", dest="rooms", metavar="ROOM", action="append", default=[],
                        help=f"{_ROOM}; may stand several times; {without} without it",
                        type=_from_here)


def word(parser: Parser, name: str, shown: str, about: str) -> None:
    """One that is no option: NAME, [NAME] if it may lack, or NAME .. for one or several."""
    value = shown.strip("[]. ")
    if shown.startswith("["):
        parser.words.add_argument(name, metavar=value, nargs="?", default="", help=about)
    elif shown.endswith(" .."):
        parser.words.add_argument(name, metavar=value, nargs="+", help=about)
    else:
        parser.words.add_argument(name, metavar=value, help=about)


def flag(parser: argparse._ActionsContainer, name: str, about: str) -> None:
    parser.add_argument(name, action="store_true", help=about)


def option(parser: argparse._ActionsContainer, name: str, value: str, about: str,
           default: str = "", dest: str | None = None) -> None:
    """With one value, or with as many as its names are."""
    values = value.split()
    if len(values) > 1:
        parser.add_argument(name, metavar=tuple(values), nargs=len(values), default=[], help=about,
                            action=_Once)
    else:
        parser.add_argument(name, metavar=value, default=default, help=about, dest=dest,
                            action=_Once)


def several(parser: argparse._ActionsContainer, name: str, value: str, about: str) -> None:
    """An option that may stand several times."""
    is_part = isinstance(parser, Parser) and parser.is_part
    parser.add_argument(name, metavar=value, action="append", help=about,
                        default=argparse.SUPPRESS if is_part else [])


def dry_run(parser: argparse._ActionsContainer, what: str) -> None:
    """Of a verb that changes something."""
    flag(parser, "--dry-run", f"print {what}, and change nothing")


def image(parser: Parser) -> None:
    """Of a verb that changes a machine."""
    dry_run(parser, "what would be done")
    option(parser, "--destdir", "DIR", "change an image of a machine in this folder, and start "
           "nothing")


def rows(parser: Parser) -> None:
    """Of a verb whose findings a program may want."""
    flag(parser, "--json", "print a list of objects, for a program")


def of(verb: str, module: ModuleType) -> Parser:
    parser = Parser(f"rooms-admin {verb}")
    module.arguments(parser)
    return parser


def read(verb: str, module: ModuleType, words: Sequence[str]) -> argparse.Namespace:
    """What a verb is given."""
    parser = of(verb, module)
    for one in words:
        if not one:
            # As of a variable that isn't set: what it was to name would be something else.
            parser.error("a word is empty")
        if one.startswith("--") and one.endswith("="):
            parser.error(f"the value of {one[:-1]} is empty")
    if words.count("--") > 1:
        parser.error("'--' stands twice")
    given = parser.parse_args(words)
    both = set.intersection(*(vars(given).pop(name, set()) for name in _SEEN))
    if both:
        parser.error(f"--{both.pop()} stands twice")
    return given
