"""For tests: what lists, who and records say of a night, against the program's own texts and the
answers of a server. CONF NIGHT ALL PORT: a room's settings, the folder of its last backup, `rooms
review FILE / --all`, where every object has a row of every caller, and the server's port."""
import contextlib
import csv
import http.client
import io
import json
import os
import sys
import urllib.parse

from rooms_admin import __main__ as command

conf, night, every, port = sys.argv[1:]
OTHER = "zz-somebody-else"


def said(*words):
    out = io.StringIO()
    with contextlib.redirect_stdout(out):
        status = command.main([*words, "--room", conf], "rooms-admin")
    if status != 0:
        sys.exit(f"{words}: status {status}")
    return out.getvalue()


def rows(*words):
    return json.loads(said(*words, "--json"))


def wrong(what, got, wanted):
    if got != wanted:
        sys.exit(f"{what}: {got} instead of {wanted}")


def above(path):
    return os.path.dirname(path)


# The dump, read by its lines alone.
lists, headings = {}, {}
with open(f"{night}/lists.txt", encoding="utf-8") as source:
    for line in source.read().split("\n"):
        words = line.split(" ")
        if words[0] in ("folder", "document"):
            path = " ".join(words[3 if words[0] == "folder" else 4:])
            headings[path] = line
            lists[path] = {}
        elif line in ("dacl", "sacl"):
            lines = lists[path][line] = []
        elif words[0] != "member" and line:
            lines.append(line)
with open(every, encoding="utf-8", newline="") as source:
    whole = list(csv.DictReader(source))


def can(user, path):
    """By letter the place of the entry that allows it."""
    link = http.client.HTTPConnection("127.0.0.1", int(port))
    link.request("GET", f"/can{urllib.parse.quote(path)}?rwanNxDtThHdcCoy",
                 headers={} if user == "ANONYMOUS@" else {
                     "Room-User": OTHER if user == "*" else user})
    got = link.getresponse()
    answer = json.loads(got.read())
    link.close()
    return {one: int(text.split()[1]) for one, text in answer.items()
            if text.startswith("allowed")} if got.status == 200 else {}


def entry(path, place):
    return {"path": path, "entry": lists[path]["dacl"][place]}


def reasons(row):
    """As a set: what allows each letter, and what allows the removal."""
    path, own = row["path"], can(row["user"], row["path"])
    found = [entry(path, own[one]) for one in row["rights"]]
    if row["remove"] == "yes":
        there = can(row["user"], above(path))
        found.append(entry(path, own["d"]) if "d" in own else entry(
            above(path), there["D"] if "D" in there else there["w"]))
    return {(one["path"], one["entry"]) for one in found}


def look_at_who(path):
    wanted = {row["user"]: row for row in whole if row["path"] == path}
    got = rows("who", path)
    wrong(f"who {path}", {row["user"]: (row["rights"], row["remove"], row["kind"]) for row in got},
          {user: (row["rights"], row["remove"] == "yes", row["kind"])
           for user, row in wanted.items()})
    for row in got:
        wrong(f"why {path}, {row['user']}", {(one["path"], one["entry"]) for one in row["by"]},
              reasons(wanted[row["user"]]))
    # What isn't told apart from every other name is the same as that.
    shown = [line.split("  ")[0] for line in said("who", path).split("\n")]
    for row in got:
        same = (row["rights"], row["remove"]) == next(
            (one["rights"], one["remove"]) for one in got if one["user"] == "*")
        if row["user"] not in ("*", "ANONYMOUS@"):
            wrong(f"whose line {path}, {row['user']}", row["user"] in shown, not same)
    return len(got)


def look_at_change(path):
    way = [path]
    while way[-1] != "/":
        way.append(above(way[-1]))
    wanted = [(row["path"], row["user"], "".join(it for it in row["rights"] if it in "Co"),
               row["remove"] == "yes") for one in reversed(way) for row in whole
              if row["path"] == one and (set(row["rights"]) & set("Co") or row["remove"] == "yes")]
    wrong(f"who --change {path}", [(row["path"], row["user"], row["rights"], row["remove"])
                                   for row in rows("who", "--change", path)], wanted)


def is_own(path, which):
    flags, *entries = lists[path][which]
    linked = path != "/" and "a" in lists[above(path)][which][0][5:] and "p" not in flags[5:]
    return not linked or any("I" not in one.split(":")[1] for one in entries)


def look_at_lists(path):
    for which, option in (("dacl", []), ("sacl", ["--sacl"])):
        wrong(f"the {which} of {path}", said("lists", path, *option),
              "".join(f"{line}\n" for line in lists[path][which]))
        below = [one for one in lists if one == path or (
            one.startswith(path.rstrip("/") + "/") and is_own(one, which))]
        wrong(f"the {which}s below {path}", [(row["path"], row[which]) for row in rows(
            "lists", "--below", path, *option)], [(one, lists[one][which]) for one in below])


def look_at_user(user, rest):
    """By entries that are an object's own: others may be kept ones."""
    wanted = {}
    for path, heading in headings.items():
        own = [line for which in ("dacl", "sacl") for line in lists[path][which][1:]
               if (line.split(":")[2] == user and "g" not in line.split(":")[1]
                   or line in rest) and "I" not in line.split(":")[1]]
        if own or heading.split(" ")[1] == user or path.endswith(f"/{user}"):
            wanted[path] = own
    got = {row["path"]: [line for line in row["dacl"] + row["sacl"]
                         if "I" not in line.split(":")[1]]
           for row in rows("lists", "--user", user) if row["kind"] != "member"}
    for path in set(wanted) | {one for one, lines in got.items() if lines}:
        wrong(f"lists --user {user} at {path}", got.get(path), wanted.get(path))


def look_at_records():
    with open(f"{night}/records.csv", encoding="utf-8", newline="") as source:
        wanted = [{**row, "at": int(row["at"]), "entry": int(row["entry"]),
                   "granted": row["granted"] == "yes"} for row in csv.DictReader(source)]
    wrong("records", rows("records"), wanted)
    for user in {row["user"] for row in wanted} - {""}:
        wrong(f"records of {user}", rows("records", "--user", user),
              [row for row in wanted if row["user"] == user])
    for path in {row["path"] for row in wanted}:
        wrong(f"records at {path}", rows("records", "--path", path),
              [row for row in wanted if (row["path"] + "/").startswith(path.rstrip("/") + "/")])


shown = 0
for path in headings:
    shown += look_at_who(path)
    look_at_change(path)
    look_at_lists(path)
dates = ["A:g:until.2999-05-31.read.u.eve@alice:"]
for user in ("bob", "carol", "alice", "eve", "dan", "OFFICE\\nbob", "a.bob"):
    look_at_user(user, dates if user in ("alice", "eve") else [])
look_at_records()
everything = [said("who", "--below", "/"), said("lists", "--below", "/"), said("records"),
              *(said("lists", "--user", user) for user in ("alice", "bob", "carol"))]
if not all(one.isprintable() for text in everything for one in text.split("\n")):
    sys.exit("a terminal would obey it")
print(f"objects {len(headings)}, rows {shown}")
