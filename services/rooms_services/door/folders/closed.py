"""What is in a folder and can't be opened: documents that the caller may not read, and folders into
which they see and come no further."""
from ...room.answers import Answer, told_as_it_comes
from ...room.paths import Names
from ...room.room import Reply, Room
from .walk import Node, Step, Walk, top_of


class Closed:
    def __init__(self, room: Room, user: str) -> None:
        self.walk = Walk(room, user)
        self.closed: list[bytes] = []
        # By /can/, which leaves no record of somebody who tried to open it.
        self.folder = Step("can", "rx", self._may)
        self.document = Step("can", "r", self._may)

    def look(self, names: Names) -> Answer:
        top, listing, _ = top_of(self.walk, names, "x")
        if listing.status != 200:
            return listing.answer()
        for child in self.walk.every_child(top, listing):
            if top.is_open:
                self.walk.ask(self.folder if child.is_folder else self.document, child)
            else:
                self.closed.append(child.name)
        self.walk.all()
        return told_as_it_comes({
            "at": top.path, "closed": (name.decode() for name in self.closed)})

    def _may(self, child: Node, reply: Reply) -> None:
        # (nothing is said of what is gone by now)
        if reply.status == 200 and not any(reply.rulings().values()):
            self.closed.append(child.name)


def closed(room: Room, user: str, names: Names) -> Answer:
    return Closed(room, user).look(names)
