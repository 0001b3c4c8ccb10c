"""Signs that can't be seen, or that turn the text around them: by the table that the web interface
has too."""
import re
import unicodedata

from . import shared

_TABLE = shared.table("invisible_signs")
_UNSEEN = re.compile(f"[{_TABLE['unseen']}{_TABLE['unassigned']}]")
_SELECTORS = re.compile(f"[{_TABLE['selectors']}]")
_BLANKS = re.compile(f"[{_TABLE['blanks']}]")
_TURNING = re.compile(f"[{_TABLE['turning']}]")
_JOINERS = "\u200c\u200d"


def is_seen(text: str) -> bool:
    """Whether each sign of it is one that a terminal shows, and doesn't obey."""
    return text.isprintable() and not (_UNSEEN.search(text) or _SELECTORS.search(text))


def turns(text: str) -> bool:
    """Whether it would turn the rest of a sentence round."""
    return _TURNING.search(text) is not None


def _joins(before: str) -> bool:
    """Whether a joiner belongs behind this sign: an emoji, a mark, a letter of a script that is
    joined. (An accent is a mark of any letter.)"""
    return (unicodedata.category(before) in ("So", "Sk", "Mn", "Mc", "Me")
            and not "\u0300" <= before <= "\u036f"
            or unicodedata.bidirectional(before) == "AL")


def _has_forms(before: str, behind: str) -> bool:
    """Whether a selector chooses one: of an emoji, of a Chinese sign, of a key."""
    return (unicodedata.category(before) in ("So", "Sk")
            or unicodedata.name(before, "").startswith("CJK ") or behind == "\u20e3")


def laid_open(text: str) -> str:
    """The text with _ for each sign that the web interface marks, and a space for each blank, so
    that nothing of it is hidden wherever it is shown."""
    written = ""
    for place, sign in enumerate(text):
        if sign in _JOINERS:
            hidden = place == 0 or not _joins(text[place - 1])
        elif _SELECTORS.match(sign):
            hidden = place == 0 or not _has_forms(text[place - 1], text[place + 1:place + 2])
        else:
            hidden = (unicodedata.category(sign) in ("Cc", "Cf", "Zl", "Zp")
                      or _UNSEEN.match(sign) is not None)
        written += "_" if hidden else " " if _BLANKS.match(sign) else sign
    return written
