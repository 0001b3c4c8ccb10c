"""For tests: what /mine has to say, by its definition over `rooms review FILE / --all`, where every
object has a row of every user. REVIEW ALL FOLDER: the two reviews and the folder of the files."""
import csv
import json
import os
import sys


def rows(place):
    with open(place, encoding="utf-8", newline="") as source:
        return list(csv.DictReader(source))


shown = {(row["user"], row["path"]) for row in rows(sys.argv[1])}
at = {(row["user"], row["path"]): row for row in rows(sys.argv[2])}
users = sorted({user for user, _ in at} - {"ANONYMOUS@"})
places = 0
for user in users:
    wanted = []
    for (other, path), row in at.items():
        if other != user or path == "/" or (user, path) not in shown:
            continue
        folder = at[user, os.path.dirname(path)]
        if set(row["rights"]) & set("rwa") and "r" not in folder["rights"]:
            wanted.append({"path": path, "kind": row["kind"], "rights": row["rights"]})
    managers = sorted({other for other, path in at if path == "/"
                       and "C" in at[other, "/"]["rights"]
                       and other not in ("*", "ANONYMOUS@")})
    with open(f"{sys.argv[3]}/{user}.json", encoding="utf-8") as source:
        got = json.load(source)
    if (got["places"], got["managers"]) != (wanted, managers):
        sys.exit(f"{user}: {got} instead of {wanted}, {managers}")
    places += len(wanted)
if sorted(os.listdir(sys.argv[3])) != sorted(f"{user}.json" for user in users):
    sys.exit(f"other files: {os.listdir(sys.argv[3])}")
print(f"users {len(users)}, places {places}")
