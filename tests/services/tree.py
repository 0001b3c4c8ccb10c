#!/usr/bin/env python3
"""Trees of folders and documents in a room, and what a door has to say of them by its page.

  tree.py make SOCKET SEED COUNT   objects below /t, with lists and owners of many kinds
  tree.py flat SOCKET COUNT        documents in /flat/0 .. /flat/9, some with a list of their own
  tree.py sort ANSWER              an answer, its rows in order
  tree.py judge DUMP PATH          what has to be answered of /door/below/PATH to somebody who may
                                   see all, by what 'rooms dump' has printed"""
import json
import random
import socket
import sys
from collections import Counter
from typing import NamedTuple
from urllib.parse import quote

ALL = "rwanNxDtThHdcCoy"
LISTS = (f"list:a\nA:fd:root:{ALL}\nA::bob:r\n", f"list:ap\nA:fd:root:{ALL}\n",
         f"list:\nA:fd:root:{ALL}\n", f"list:p\nA:fd:root:{ALL}\nA:fdI:carol:rx\n",
         f"list:ap\nA:fd:root:{ALL}\nD:fn:eve:r\n",
         f"list:a\nA:fd:root:{ALL}\nA:fi:OWNER@:d\nA:d:GROUP@:r\n")


class Talk:
    def __init__(self, place: str) -> None:
        self.place = place
        self.count = 0
        self._open()

    def _open(self) -> None:
        self.at = socket.socket(socket.AF_UNIX)
        self.at.connect(self.place)
        self.lines = self.at.makefile("rb")

    def ask(self, method: str, target: str, body: str = "") -> int:
        if self.count == 9000:
            self.at.close()
            self.count = 0
            self._open()
        self.count += 1
        data = body.encode()
        self.at.sendall(f"{method} {target} HTTP/1.1\r\nRoom-User: root\r\n"
                        f"Content-Length: {len(data)}\r\n\r\n".encode() + data)
        status = int(self.lines.readline().split()[1])
        length = 0
        while (field := self.lines.readline().strip()):
            if field.lower().startswith(b"content-length:"):
                length = int(field.split(b":")[1])
        self.lines.read(length)
        return status


def _new(talk: Talk, path: str, is_folder: bool) -> None:
    method, route = ("POST", "folder") if is_folder else ("PUT", "doc")
    status = talk.ask(method, f"/{route}{quote(path)}", "" if is_folder else path)
    assert status == 201, (path, status)


def make(place: str, seed: int, count: int) -> None:
    chance = random.Random(seed)
    talk = Talk(place)
    _new(talk, "/t", True)
    folders = ["/t"]
    for number in range(count):
        path = f"{chance.choice(folders[-20:])}/{chance.choice(('n', 'ä ?', '%41'))}{number}"
        is_folder = chance.random() < 0.3
        _new(talk, path, is_folder)
        if is_folder:
            folders.append(path)
        if chance.random() < 0.15:
            # (a document takes no flags of passing down)
            text = chance.choice(LISTS) if is_folder else f"list:a\nA::root:{ALL}\nA::bob:r\n"
            assert talk.ask("PUT", f"/dacl{quote(path)}", text) == 204
        if chance.random() < 0.2:
            owner = json.dumps({"group": "staff", "owner": chance.choice(("bob", "carol"))})
            assert talk.ask("PUT", f"/attr{quote(path)}", owner) == 204


def flat(place: str, count: int) -> None:
    talk = Talk(place)
    _new(talk, "/flat", True)
    for number in range(10):
        _new(talk, f"/flat/{number}", True)
    for number in range(count - 10):
        path = f"/flat/{number % 10}/document number {number}.odt"
        _new(talk, path, False)
        if number % 100 == 0:
            assert talk.ask("PUT", f"/dacl{quote(path)}", f"list:ap\nA::root:{ALL}\n") == 204


class Object(NamedTuple):
    kind: str
    owner: str
    group: str
    list: list[str]


def _objects(dump: str) -> dict[str, Object]:
    found: dict[str, Object] = {}
    rows: list[str] = []
    for line in dump.splitlines():
        words = line.split(" ")
        if words[0] in ("folder", "document"):
            rows = []
            path = " ".join(words[3 if words[0] == "folder" else 4:])
            found[path] = Object(words[0], words[1], words[2], rows)
        elif line == "sacl":
            rows = []
        elif line.startswith("member "):
            break
        elif line != "dacl":
            rows.append(line)
    return found


def _follows(one: Object, above: Object) -> bool:
    flags = one.list[0].removeprefix("list:")
    entries = [entry.split(":") for entry in one.list[1:]]
    is_own = any("I" not in entry[1] for entry in entries)
    says_owner = any("i" not in entry[1] and entry[2] in ("OWNER@", "GROUP@") for entry in entries)
    is_apart = one.kind == "folder" and ("a" not in flags or says_owner)
    return not (is_own or "p" in flags or is_apart) \
        and "a" in above.list[0].removeprefix("list:")


def judge(dump: str, top: str) -> dict[str, object]:
    objects = _objects(dump)
    near = {top: (top, 0)}
    rest: Counter[tuple[object, ...]] = Counter()
    told = []
    for path, one in objects.items():
        above = path.rpartition("/")[0] or "/"
        if not path.startswith(top + "/"):
            continue
        if _follows(one, objects[above]):
            near[path] = near[above][0], min(near[above][1] + 1, 2)
            rest[near[path][0], one.kind, near[path][1], one.owner, one.group] += 1
        else:
            near[path] = path, 0
            told.append({"path": path, "list": "\n".join([*one.list, ""]), "kind": one.kind,
                         "owner": one.owner, "group": one.group})
    return {"at": top, "list": "\n".join([*objects[top].list, ""]), "objects": told,
            "unlisted": [], "unread": [], "rest": [
        dict(zip(("below", "kind", "depth", "owner", "group"), key), count=count)
        for key, count in rest.items()]}


def _sorted(answer: dict[str, object]) -> str:
    """The order of rows isn't promised."""
    return json.dumps({name: sorted(json.dumps(row, sort_keys=True) for row in value)
                       if isinstance(value, list) else value
                       for name, value in answer.items()}, sort_keys=True, indent=1)


def main() -> None:
    word, first, *more = sys.argv[1:]
    if word == "make":
        make(first, int(more[0]), int(more[1]))
    elif word == "flat":
        flat(first, int(more[0]))
    else:
        with open(first, encoding="utf-8") as source:
            text = source.read()
        print(_sorted(json.loads(text) if word == "sort" else judge(text, more[0])))


main()
