"""The name that somebody may have meant who typed another one."""
import difflib
from collections.abc import Iterable


def meant(word: str, known: Iterable[str]) -> str:
    """What is said behind a name that isn't there; nothing where none is like it."""
    names = sorted(set(known))
    lower = {one.lower(): one for one in reversed(names)}
    found = difflib.get_close_matches(word.lower(), lower, 1, 0.7)
    return f"; did you mean {lower[found[0]]}?" if found else ""
