"""The door beside a room: python3 -IB rooms_services/door/__main__.py --room SOCKET ..

It takes requests of users from nginx, which says who they are, and sends the room's own requests in
their names. It has no right, no password and no copy of a document. It goes on until it is ended.

Status: 2 refused, 3 the socket can't be made."""
import argparse
import os
import sys
from typing import NoReturn

sys.dont_write_bytecode = True
if not __package__:
    # Installed, both packages are in one folder; in the repository they are in two.
    above = os.path.dirname(os.path.dirname(os.path.dirname(os.path.realpath(__file__))))
    sys.path[:0] = [above] if os.path.isdir(f"{above}/rooms_admin") else [
        above, os.path.join(os.path.dirname(above), "admin")]

from rooms_admin.cli import output  # noqa: E402
from rooms_services.door.changes.keeper import begun  # noqa: E402
from rooms_services.door.search.reading import Reading  # noqa: E402
from rooms_services.door.search.search import Texts  # noqa: E402
from rooms_services.door.serve import serve  # noqa: E402
from rooms_services.document_texts import feed  # noqa: E402


# Of the processor each thread that works has so many seconds, before another one that waits for it:
# who has the room for themselves waits so long for each of its answers.
SWITCH = 0.0005


class _Words(argparse.ArgumentParser):
    def error(self, message: str) -> NoReturn:
        self.exit(2, f"rooms-door: bad arguments: {message}\n")


def _given() -> argparse.Namespace:
    words = _Words(prog="rooms-door", description=__doc__, allow_abbrev=False,
                   formatter_class=argparse.RawDescriptionHelpFormatter)
    words.add_argument("--room", required=True, help="the socket of the room")
    words.add_argument("--listen", default="",
                       help="the socket at which nginx asks; whoever reaches it can be any user. "
                       "Without it systemd hands one over")
    words.add_argument("--kept", default="", help="a folder for what outlasts it, such as locks; "
                       "that of its socket without it")
    words.add_argument("--would", default="", help="the socket at which rooms would is asked")
    words.add_argument("--drive", choices=("yes", "no", ""), default="",
                       help="yes: documents are edited in place, by WebDAV below /drive/")
    words.add_argument("--full", default="",
                       help="a file that is there while the room takes nothing more")
    words.add_argument("--changes", default="", help="a folder with the journal of changes, to "
                       "which nginx writes, and what is known by it")
    words.add_argument("--dates", choices=("when", "who", ""), default="",
                       help="what users are shown of changes: when they were, or also by whom")
    words.add_argument("--told", default="", help="the beginning of the names of the files in "
                       "which root tells what nginx doesn't")
    words.add_argument("--days", type=int, default=0, help="how long names are kept; 0 keeps them")
    words.add_argument("--search", choices=("yes", "no", ""), default="",
                       help="yes: texts are searched, those of the room --called")
    words.add_argument("--called", default="", help="the room's name")
    words.add_argument("--texts", default="/run/rooms-texts/socket",
                       help="the socket of who keeps texts")
    words.add_argument("--extract", default=feed.PLACE,
                       help="the socket of who reads the text of one document")
    words.add_argument("--pictures", default="",
                       help="the socket of who makes pictures of the pages of documents")
    words.add_argument("--port", default="", help="that at which the room is asked too, if any")
    words.add_argument("--largest", type=int, default=1, help="how many MB a document may have")
    words.add_argument("--arriving", default="/var/tmp",
                       help="the folder of what has come so far of large documents")
    return words.parse_args()


def main() -> int:
    output.open_all()
    sys.setswitchinterval(SWITCH)
    given = _given()
    try:
        kept = given.kept or os.path.dirname(given.listen)
        texts = Texts(given.called, given.texts, Reading(given.extract)) \
            if given.search == "yes" else None
        keeper = begun(given.changes, given.dates, given.told, given.days,
                       os.path.join(kept, "dates"), bool(texts))
        locks = os.path.join(kept, "locks") if given.drive == "yes" else ""
        serve(given.room, given.listen, given.would, locks, given.full, keeper, texts,
              given.pictures, given.largest << 20, bool(given.port), given.arriving)
    except KeyboardInterrupt:
        pass
    except OSError as fault:
        print(f"rooms-door: {given.listen or 'its socket'}: {fault.strerror}", file=sys.stderr)
        return 3
    return 0


if __name__ == "__main__":
    sys.exit(main())
