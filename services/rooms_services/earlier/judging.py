"""Who sees what of an earlier night. Two answers have to be yes, and both are the proved program's:
that of today's room, for what is there now, and that of a copy of that night, for what was there
then. What is passed on is the copy's answer. Nothing but reading is asked of either.

Another object may be at the path by now. It is the same one if it has the same kind and the same
owner; otherwise, and where nothing is there any more, the caller's rights to what is there now say
nothing about what was. Then whoever owned it that night sees it, and whoever has the right C on the
nearest folder that is left; or, where the room's settings say so, whoever may list that folder and
add to it. A folder is left if it is the same one, by the same rule: else whoever puts one of their
own there would be asked for."""
from collections.abc import Callable, Iterator
from dataclasses import dataclass

from ..room import large
from ..room.answers import JSON, TEXT, Answer, Stop, written
from ..room.parts import Parts
from ..room.paths import Names, is_below
from ..room.room import Reply, Room, about, listed
from .gate import Opened

# Bytes of a listing, which is of 100,000 names and more: this process serves all rooms.
LISTED = 8 << 20
KINDS = {"doc": "application/octet-stream", "folder": JSON, "dacl": TEXT}
# What it takes to read each.
READING = {"doc": "r", "folder": "r", "dacl": "c"}


def denied() -> Stop:
    """By today's room; or nobody says whether it was there."""
    return Stop(403, "now")


@dataclass(frozen=True)
class Seen:
    """What today's room says of a path at one moment. `attributes` are kind and owner, if the
    caller may know them; two that are empty of what isn't there."""
    names: Names
    reply: Reply
    may: dict[str, bool]
    attributes: tuple[str, str] | None

    def has(self, letters: str) -> bool:
        return all(self.may.get(letter) for letter in letters)


@dataclass
class Look:
    """By one user, at one path, as it was on one night. `word` is how it is read."""
    today: Room
    user: str
    word: str
    names: Names
    then: Room | None = None
    shown_to: str = ""

    def answer(self, opened: Callable[[], Opened], patience: float) -> Answer:
        # Nobody has a night opened who may not read what is there.
        if not self._may_read() and (stopped := self._stopped(
                self._ask(self.today, self.word, self.names))):
            return stopped
        night = opened()
        self.then, self.shown_to = Room(night.place, patience, LISTED), night.shown_to
        self.then.lists = self.today.lists
        # (that took a while, in which another object may have come to the path)
        seen = self._at(self.names, self.word)
        if stopped := self._stopped(seen.reply):
            return stopped
        is_here = seen.reply.status == 200 and self._is_same(seen) is True
        left = seen if is_here else self._left(seen.reply)
        if not is_here and not self._may_see_gone(left):
            raise denied()
        reply = self._ask(self.then, self.word, self.names)
        if reply.status != 200:
            return reply.answer()
        if self.word == "doc":
            return self._document(reply)
        if self.word == "dacl":
            return Answer(200, reply.body, KINDS[self.word])
        return self._listing(reply, seen.reply if is_here else None, left)

    def _may_read(self) -> bool:
        """It leaves no record: what is read, or denied, is asked for as such."""
        can = self._ask(self.today, "can", self.names, READING[self.word])
        return can.status in (404, 409) or can.rulings().get(READING[self.word], False)

    def _stopped(self, now: Reply) -> Answer | None:
        if now.status == 403:
            raise denied()
        if now.status not in (200, 404, 409) or (now.status == 409 and not self.names):
            return now.answer()
        return None

    def _at(self, names: Names, word: str = "") -> Seen:
        """Over one connection, in which nobody moves anything. To ask for rights leaves no record
        of something that the caller didn't ask for."""
        with self.today.talk(self.user) as talk:
            reply = talk.ask(about("GET", word, names)) if word else Reply(200, b"")
            may = talk.ask(about("GET", "can", names, "tCwa")).rulings()
            told = _attributes(talk.ask(about("GET", "attr", names))) if may.get("t") else None
        return Seen(names, reply, may, told)

    def _document(self, reply: Reply) -> Answer:
        """Of one in parts, which have its list, that night's copy says whether they may be read."""
        assert self.then
        then = self.then
        found = large.of(lambda ask: then.ask(self.user, ask), self.names, reply.body)
        if not found:
            return Answer(200, reply.body, KINDS["doc"])
        return Answer(200, kind=KINDS["doc"], length=found.size,
                      parts=Parts(then, self.user, self.names, found))

    def _ask(self, room: Room, word: str, names: Names, query: str = "") -> Reply:
        return room.ask(self.user, about("GET", word, names, query))

    def _is_same(self, now: Seen) -> bool | None:
        """Whether today's object is that night's; None if the caller may not know it."""
        assert self.then
        if not now.names:
            return True
        if now.attributes is None:
            return None
        then = _attributes(self._ask(self.then, "attr", now.names))
        return None if then is None else now.attributes == then

    def _left(self, now: Reply) -> Seen | None:
        """The nearest folder that is left: above what today's room says isn't there, or isn't what
        it was, and the same one as that night. None if the caller may not know which it is."""
        if now.status == 200:
            left = self._at(self.names[:-1])
        else:
            at = tuple(now.at.split("/")[1:])
            if at in ((), ("",)) or not (at == self.names or is_below(self.names, at)):
                raise Stop(502, "away")
            left = self._at(at[:-1])
        while (same := self._is_same(left)) is False:
            left = self._at(left.names[:-1])
        return left if same else None

    def _may_see_gone(self, left: Seen | None) -> bool:
        """What is at the path of the look and isn't there any more."""
        assert self.then
        if self.shown_to == "members":
            if left is None:
                return False
            # Asked for as such, so that today's lists have it recorded.
            listed = self._at(left.names, "folder")
            return (listed.reply.status == 200 and listed.has("wa")
                    and self._is_same(listed) is True)
        if left is not None and left.has("C"):
            return True
        found = _attributes(self._ask(self.then, "attr", self.names))
        return found is not None and found[1] == self.user

    def _listing(self, then: Reply, now: Reply | None, left: Seen | None) -> Answer:
        """Names of what isn't there any more are shown to whoever sees that itself. There may be
        100,000: so a name is bytes here, and no listing is read as a whole."""
        hidden = set(large.hidden_in(then.body, LISTED))
        here = set(_children(now)) if now else set()
        gone = [one for one in _children(then) if one not in here and one not in hidden]
        if gone and not self._sees_all_gone(left, now is not None):
            hidden |= set(gone) - self._owned(gone)
        elif not hidden:
            return Answer(200, then.body, JSON)
        del here, gone
        rows = bytearray(b"[")
        for one in _children(then):
            if one not in hidden:
                rows += b"," if len(rows) > 1 else b""
                rows += written({"kind": "folder" if one.endswith(b"/") else "document",
                                 "name": _name(one)})
        return Answer(200, bytes(rows + b"]"), JSON)

    def _sees_all_gone(self, left: Seen | None, is_here: bool) -> bool:
        if left is None:
            return False
        if self.shown_to == "members":
            # Otherwise that was asked already, of the same folder.
            return not is_here or left.has("wa")
        return left.has("C")

    def _owned(self, children: list[bytes]) -> set[bytes]:
        """Those that the caller owned that night."""
        assert self.then
        if self.shown_to == "members":
            return set()
        asks = (about("GET", "attr", (*self.names, _name(one))) for one in children)
        replies = self.then.ask_each(self.user, asks)
        return {one for one, reply in zip(children, replies)
                if reply.status == 200 and reply.told.get("owner") == self.user}


def _attributes(reply: Reply) -> tuple[str, str] | None:
    if reply.status in (404, 409):
        return "", ""
    told = reply.told if reply.status == 200 else {}
    return (str(told["kind"]), str(told["owner"])) if told else None


def _children(reply: Reply) -> Iterator[bytes]:
    """The name of each, with a slash behind that of a folder."""
    return (name + b"/" if is_folder else name for name, is_folder in listed(reply.body, LISTED))


def _name(child: bytes) -> str:
    return child.rstrip(b"/").decode()
