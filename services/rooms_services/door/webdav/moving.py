"""DELETE, MOVE and COPY. What is one object is done over one connection; a folder with things in it
takes many requests, between which the room answers others, and is reserved meanwhile."""
from collections.abc import Callable

from rooms_admin.room import in_parts
from rooms_admin.room.in_parts import Manifest

from . import objects, properties, tasks, trees
from ...room import large
from ...room.answers import Answer, Stop
from ...room.parts import Parts
from ...room.paths import Names, is_below, shown
from ...room.room import Reply, about
from ..large import replacing, together
from ..large.held import alone
from .calls import Call, Drive
from .objects import Document, Folder, stop_of
from .tasks import moving
from .trees import Failure, Found

# What is at a place.
There = Folder | Document | None


def delete(drive: Drive, call: Call) -> Answer:
    with alone(call.room, call.user, call.names), call.alone():
        drive.heed(call)
        drive.guard(call, call.names, member=True, tree=True)
        reply = together.remove(call.ask, call.names, call.rest)
        if reply.status == 404 and (pending := drive.pending(call.user, call.names)):
            drive.locks.end(pending)
            return Answer(204)
    return _answer(call, _removed(drive, call, call.names, reply), Answer(204))


def _removed(drive: Drive, call: Call, names: Names, reply: Reply) -> list[Failure]:
    """After the room was asked to remove it: all of a folder with something in it, or nothing."""
    failures: list[Failure] = []
    if reply.why == "not-empty":
        with drive.reserved(call, names):
            failures = tasks.remove(drive.tasks, call, call.user, names,
                                    trees.removable(call, names, True))
    elif reply.status != 204:
        raise stop_of(reply, {409: 403 if reply.why == "root" else 404})
    if not failures:
        drive.locks.gone(names)
    return failures


def _answer(call: Call, failures: list[Failure], well: Answer) -> Answer:
    return properties.failed(call.prefix, failures) if failures else well


def _other_place(drive: Drive, call: Call) -> Names:
    to = drive.destination(call)
    if to == call.names or not to or not call.names:
        raise Stop(403, "root", "the root can't be moved or replaced, and nothing by itself")
    return to


def _refuse_replacing(call: Call) -> None:
    if call.field("Overwrite").upper() == "F":
        raise Stop(412, "exists", "something is there already")


def move(drive: Drive, call: Call) -> Answer:
    to = _other_place(drive, call)
    # (whoever writes one of them part by part has all of its parts, by their names)
    with alone(call.room, call.user, call.names, to), call.alone():
        drive.heed(call)
        drive.guard(call, call.names, member=True, tree=True)
        drive.guard(call, to, member=True, tree=True)
        drive.settle(call, call.names)
        _keep_own_list(drive, call, to)
        reply = together.move(call.ask, call.names, to, call.rest)
        if reply.why != "exists":
            return _moved(drive, call, to, reply, Answer(201))
        _refuse_replacing(call)
        source, target = drive.look(call, call.names, True), drive.look(call, to)
        manifest = manifest_in(source) if isinstance(target, Document) else None
        if isinstance(source, Document) and isinstance(target, Document) and not manifest:
            return _move_over(drive, call, to, source)
        if not manifest:
            _refuse_parts(call, call.names, to)
            _may_move(call, to, source)
    if manifest:
        return _move_parts_over(drive, call, to, manifest)
    return _move_in_place_of(drive, call, to, isinstance(target, Folder))


def _move_in_place_of(drive: Drive, call: Call, to: Names, is_folder: bool) -> Answer:
    """What is there goes: a folder, or what a folder takes the place of."""
    # (whoever may not remove it keeps nobody from it while they look through it)
    if failures := trees.kept(call, [(to, is_folder)]):
        return properties.failed(call.prefix, failures)
    with drive.reserved(call, to, call.names):
        found = trees.removable(call, to, is_folder)
        if found.failures:
            return properties.failed(call.prefix, found.failures)
        reply, failures = tasks.replace(drive.tasks, call, call.user, to, call.names, found)
        if reply.status == 204:
            drive.locks.gone(to)
        return _answer(call, failures, _moved(drive, call, to, reply, Answer(204)))


def _keep_own_list(drive: Drive, call: Call, to: Names) -> None:
    """A program that saves by renaming would put another document, with the folder's list, at the
    name of this one."""
    if to[:-1] == call.names[:-1] and isinstance(drive.look(call, call.names), Document) \
            and objects.has_own_list(call, call.names):
        raise Stop(403, "own-list",
                   "a document with a list of its own is renamed in the web interface")


def _moved(drive: Drive, call: Call, to: Names, reply: Reply, well: Answer) -> Answer:
    if reply.status != 204:
        raise stop_of(reply, _moved_status(reply, call.names))
    drive.locks.gone(call.names)
    drive.dates.moved(call.names, to)
    return well


def _moved_status(reply: Reply, names: Names) -> dict[int, int]:
    """Nothing at the source is 404; no folder for the destination is 409."""
    source = any(objects.is_about(reply, names[:depth]) for depth in range(len(names) + 1))
    if reply.status == 404 or reply.why == "not-folder":
        return {reply.status: 404 if source else 409}
    return {409: 403 if reply.why in ("root", "loop") else 409}


def _move_over(drive: Drive, call: Call, to: Names, source: Document) -> Answer:
    """A document over another one, as programs do that save under a name of their own first. The
    bytes move, and not the document: so what is there keeps its list and its owner, and nobody sees
    more than before because somebody saved."""
    if source.body is None:
        raise Stop(403, "denied", "it may not be read, so it can't replace anything")
    _may_leave(call)
    reply = replacing.put_small(call.ask, to, source.body, call.rest)
    if reply.status not in (201, 204):
        raise stop_of(reply)
    reply = together.remove(call.ask, call.names, call.rest)
    return _answer(call, _removed(drive, call, call.names, reply), Answer(204))


def _may_leave(call: Call) -> None:
    if trees.kept(call, [(call.names, False)]):
        raise Stop(403, "denied", "it may not be removed from where it is")


def manifest_in(there: There) -> Manifest | None:
    return in_parts.read(there.body or b"") if isinstance(there, Document) else None


def _move_parts_over(drive: Drive, call: Call, to: Names, manifest: Manifest) -> Answer:
    """The same of one of more than 1 MiB."""
    with drive.reserved(call, *drive.to_write(call, to), call.names):
        _may_leave(call)
        _copy_parts(drive, call, to, manifest)
        with alone(call.room, call.user, call.names), call.alone():
            # (others came between, who may have saved it by another way)
            if manifest_in(drive.look(call, call.names, True)) != manifest:
                raise Stop(412, "changed", "it was replaced meanwhile, and stays where it is")
            reply = together.remove(call.ask, call.names, call.rest)
        return _answer(call, _removed(drive, call, call.names, reply), Answer(204))


def _copy_parts(drive: Drive, call: Call, to: Names, manifest: Manifest) -> Answer:
    drive.spending()(manifest.size)
    return replacing.write(call.room, call.user, to, replacing.Copied(
        Parts(call.room, call.user, call.names, manifest), drive.space))


def _refuse_parts(call: Call, *places: Names) -> None:
    """A document of parts takes no folder's place, nor a folder its."""
    for names in places:
        if large.is_there(call.ask, large.part(names, 1)):
            raise Stop(409, "wrong-kind", f"remove it first: {shown(names)}")


def _may_move(call: Call, to: Names, source: There) -> None:
    """Before what is at the new place is removed."""
    if source is None or is_below(to, call.names) or is_below(call.names, to):
        raise Stop(403, "loop", "it can't be moved there")
    if trees.kept(call, [(call.names, isinstance(source, Folder))]):
        raise Stop(403, "denied", "it may not be removed from where it is")
    objects.may(call, to[:-1], "a" if isinstance(source, Folder) else "w")


def copy(drive: Drive, call: Call) -> Answer:
    to = _other_place(drive, call)
    depth = call.field("Depth") or "infinity"
    if depth not in ("0", "infinity"):
        raise Stop(400, "bad-depth", "a copy has the depth 0 or infinity")
    with call.alone():
        drive.heed(call)
        drive.guard(call, to, member=True, tree=True)
        drive.settle(call, call.names)
        source, target = drive.look(call, call.names, True), drive.look(call, to)
        if source is None:
            raise Stop(404, "no-such", "nothing is here")
        if target is not None:
            _refuse_replacing(call)
        _may_copy(call, to, source, target)
        well = Answer(201 if target is None else 204)
        manifest = manifest_in(source) if not isinstance(target, Folder) else None
        if isinstance(source, Document) and not isinstance(target, Folder) and not manifest:
            _copied(replacing.put_small(call.ask, to, source.body or b"", call.rest))
            return well
        if not manifest:
            _refuse_parts(call, *[call.names] if isinstance(source, Document) else [], to)
    if manifest:
        with drive.reserved(call, *drive.to_write(call, to)):
            _copy_parts(drive, call, to, manifest)
            return well
    if target is not None and (failures := trees.kept(call, [(to, isinstance(target, Folder))])):
        return properties.failed(call.prefix, failures)
    with drive.reserved(call, to):
        return _answer(call, _copy_folder(drive, call, to, source, target, depth), well)


def _may_copy(call: Call, to: Names, source: There, target: There) -> None:
    if is_below(call.names, to) or is_below(to, call.names) and isinstance(source, Folder):
        raise Stop(403, "loop", "one of both places is in the other")
    if isinstance(source, Document) and source.body is None:
        raise Stop(403, "denied", "it may not be read")
    if target is not None and not (isinstance(source, Document) and isinstance(target, Document)):
        objects.may(call, to[:-1], "a" if isinstance(source, Folder) else "w")


def _copied(reply: Reply) -> None:
    if reply.status not in (201, 204):
        raise stop_of(reply, {404: 409})


def _copy_folder(drive: Drive, call: Call, to: Names, source: There, target: There,
                 depth: str) -> list[Failure]:
    """Under a name of its own first, which then takes its place: what is there stays until all of
    the copy is. (Who may only add couldn't take that name away, and replaces nothing.)"""
    found = goes = None
    if isinstance(source, Folder) and depth != "0":
        found = trees.readable(call, call.names)
        if found.failures:
            return found.failures
    if target is not None:
        goes = trees.removable(call, to, isinstance(target, Folder))
        if goes.failures:
            return goes.failures
    elif not trees.lets_go(call, to[:-1]):
        return _filled(drive, call, to, source, found, lambda: None)
    made = tasks.beside(to, "copy")

    def fill() -> list[Failure]:
        failures = _filled(drive, call, made, source, found, lambda: _refuse_stuck(call, made))
        if failures:
            return Found([], failures).at(to).failures
        if goes is None:
            reply = call.ask(moving(made, to))
        else:
            reply, failures = tasks.replace(drive.tasks, call, call.user, to, made, goes)
        if reply.status != 204:
            raise stop_of(reply)
        if goes is not None:
            drive.locks.gone(to)
        return failures
    return tasks.away(drive.tasks, call, call.user, made, fill)


def _filled(drive: Drive, call: Call, to: Names, source: There, found: Found | None,
            begun: Callable[[], None]) -> list[Failure]:
    spend = drive.spending()
    if found:
        return trees.copy(call, found, to, begun, spend)
    if isinstance(source, Document):
        _copied(call.ask(about("PUT", "doc", to, body=source.body or b"")))
    else:
        _copied(call.ask(about("POST", "folder", to)))
    begun()
    return []


def _refuse_stuck(call: Call, made: Names) -> None:
    if trees.kept(call, [(made, True)]):
        raise Stop(403, "denied", f"what is made there may not be moved: {shown(made)}")
