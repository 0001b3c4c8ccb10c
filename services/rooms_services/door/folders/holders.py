"""Who could do something by a list alone, since who is in which group isn't known here. The list is
asked about as that of a folder with nothing in it, and each group as somebody in it alone."""
from typing import NamedTuple

from ...room import lists
from ...room.answers import Stop
from .would import Would, rows_of

# These two are everybody who could be meant.
_EVERYBODY = ("EVERYONE@", "AUTHENTICATED@")
# In an answer, whoever has another name than those of the list.
_OTHERS = "*"


class Listed(NamedTuple):
    """The text of a list, and whose the object is, as far as that is known."""
    text: str
    owner: object
    group: object


def holders(would: Would, listed: Listed, bits: str) -> list[str] | None:
    """In the order of the list: users by their names, groups as g:NAME, and the special names that
    mean more than one. None where it can't be said now."""
    found = lists.read(listed.text)
    taken = {one.who for one in found.entries}
    owner, group = (told if isinstance(told, str) else _free(word, taken)
                    for told, word in ((listed.owner, "owner"), (listed.group, "group")))
    groups = list(dict.fromkeys([one.who for one in found.entries if _is_group(one)] + [group]))
    label = _free("in", taken)
    question = [*(f"as {label}{number} * {name}" for number, name in enumerate(groups)),
                f"folder {owner} {group} /", f"list:{found.flags}",
                # To this folder nothing is passed down.
                *(":".join([one.type, one.flags.replace("I", ""), one.who, one.mask])
                  for one in found.entries), "look /", ""]
    try:
        rows = list(rows_of(would.ask("\n".join(question).encode())))
    except Stop:
        return None
    rights = {user: held for _, _, user, held, *_ in rows[:-len(groups)]}
    of_groups = dict(zip(groups, (row[3] for row in rows[-len(groups):])))

    def holds(one: lists.Entry) -> bool:
        if one.who == "GROUP@" or _is_group(one):
            held = of_groups.get(group if one.who == "GROUP@" else one.who, "")
        else:
            user = owner if one.who == "OWNER@" else one.who
            held = rights.get(_OTHERS if user in _EVERYBODY else user, "")
        return not set(bits).isdisjoint(held)
    return list(dict.fromkeys(_shown(one, listed) for one in found.entries
                              if one.type == "A" and holds(one)))


def _free(word: str, taken: set[str]) -> str:
    while any(one.startswith(word) for one in taken):
        word += "."
    return word


def _is_group(one: lists.Entry) -> bool:
    return "g" in one.flags and not one.who.endswith("@")


def _shown(one: lists.Entry, listed: Listed) -> str:
    if one.who == "OWNER@" and isinstance(listed.owner, str):
        return listed.owner
    if one.who == "GROUP@" and isinstance(listed.group, str):
        return f"g:{listed.group}"
    return f"g:{one.who}" if _is_group(one) else one.who
