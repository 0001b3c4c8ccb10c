"""LOCK and UNLOCK."""
from . import bodies, objects, properties, trees
from ...room.answers import Answer, Stop
from ...room.paths import Names
from .bodies import Node
from .calls import Call, Drive
from .locks import Lock, seconds_of
from .looking import active
from .objects import Folder, Document


def lock(drive: Drive, call: Call) -> Answer:
    seconds = seconds_of(call.field("Timeout"))
    root = bodies.read(call.body, "lockinfo") if call.body else None
    depth = call.field("Depth") or "infinity"
    if depth not in ("0", "infinity"):
        raise Stop(400, "bad-depth", "a lock has the depth 0 or infinity")
    with call.alone():
        drive.heed(call)
        if root is None:
            return _refresh(drive, call, seconds)
        return _new(drive, call, root, depth == "infinity", seconds)


def _new(drive: Drive, call: Call, root: Node, deep: bool, seconds: int) -> Answer:
    scope = root.first("lockscope")
    if scope is None or not (scope.first("exclusive") or scope.first("shared")):
        raise Stop(422, "bad-lock", "such a lock isn't known")
    found = _lockable(drive, call)
    # (nothing else has something below it, and what isn't there yet may become a folder)
    deep = deep and isinstance(found, Folder)
    if deep:
        _may_hold(call, call.names)
    for lock in drive.locks.covering(call.names) + (drive.locks.below(call.names) if deep else []):
        drive.is_over(call, lock)
    held = drive.locks.add(call.user, call.names, deep, scope.first("shared") is not None,
                           _owner(call, root), seconds)
    if held is None:
        raise Stop(423, "locked", "it is locked already", xml=properties.HEAD
                   + '<D:error xmlns:D="DAV:"><D:no-conflicting-lock/></D:error>\n')
    if found is None:
        held.pending = True
        drive.locks.keep(held)
    return _locked(drive, call, held, 201 if found is None else 200)


def _lockable(drive: Drive, call: Call) -> Folder | Document | None:
    """Whoever may not change something may not keep others from it, nor learn that it is locked."""
    found = drive.look(call, call.names)
    if found is None:
        if call.slash:
            raise Stop(409, "no-such", "there is no such folder")
        drive.guard(call, call.names, member=True)
        parent = drive.look(call, call.names[:-1])
        if not isinstance(parent, Folder):
            raise Stop(409, "no-such", "there is no folder for it")
        objects.may(call, call.names[:-1], "w")
    elif drive.pending(call.user, call.names) is None:
        objects.may(call, call.names, "wa")
    return found


def _may_hold(call: Call, names: Names) -> None:
    """A folder with all below it, also what is closed to this user. Who may change its list could
    keep others out anyway, and who may remove it is told that something in it is locked."""
    objects.may(call, names, "C")
    if not names or trees.kept(call, [(names, True)]):
        raise Stop(403, "denied", "it may not be removed, so it can't be locked with all below it")


def _owner(call: Call, root: Node) -> str:
    owner = root.first("owner")
    text = bodies.legal(owner.text) + "".join(map(bodies.copied, owner.children)) if owner else ""
    return text if 0 < len(text) <= 2000 else bodies.legal(call.user)


def _refresh(drive: Drive, call: Call, seconds: int) -> Answer:
    for token in call.tokens:
        held = drive.locks.of(call.user, token)
        if held and held.covers(call.names):
            _may_keep(drive, call, held)
            drive.locks.refresh(held, seconds)
            return _locked(drive, call, held, 200)
    raise Stop(412, "changed", "no lock of yours that could be kept")


def _may_keep(drive: Drive, call: Call, held: Lock) -> None:
    """As for a new one: whoever lost the right keeps it for the rest of its time."""
    found = objects.look(call, held.names, False)
    if found is None:
        objects.may(call, held.names[:-1], "w")
        return
    if held.deep and isinstance(found, Folder):
        _may_hold(call, held.names)
    else:
        objects.may(call, held.names, "wa")
    held.pending = False


def _locked(drive: Drive, call: Call, held: Lock, status: int) -> Answer:
    text = (f'{properties.HEAD}<D:prop xmlns:D="DAV:"><D:lockdiscovery>'
            f"{active(drive, call, held)}</D:lockdiscovery></D:prop>\n")
    return Answer(status, text.encode(), "application/xml; charset=utf-8",
                  {"Lock-Token": f"<{held.token}>"})


def unlock(drive: Drive, call: Call) -> Answer:
    token = call.field("Lock-Token")
    if not (token.startswith("<") and token.endswith(">")):
        raise Stop(400, "bad-lock", "no Lock-Token")
    with call.alone():
        drive.heed(call)
        held = drive.locks.of(call.user, token[1:-1])
        if held is None or not held.covers(call.names):
            raise Stop(409, "no-lock", "no lock of yours with this token is here")
        drive.settle(call, held.names)
        drive.locks.end(held)
    return Answer(204)
