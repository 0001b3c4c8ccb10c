"""For tests: by which entry somebody has a right, as rooms-admin finds it, against `rooms check`:
reasons.py PROGRAM SEED LISTS. The entry by which a list first grants it is the one."""
import random
import subprocess
import sys

from rooms_admin.lists.dump import Object
from rooms_admin.lists.reasons import Reasons

program, seed, number = sys.argv[1], sys.argv[2], int(sys.argv[3])
LETTERS = "rwdDCx"
CALLERS = {"alice": ["staff"], "bob": ["staff", "sales"], "carol": [], "ANONYMOUS@": []}
GROUPS = {one: {user for user in CALLERS if one in CALLERS[user]} for one in ("staff", "sales")}


def some_entry(chance):
    who = chance.choice(["g:staff", "g:sales", ":alice", ":bob", ":carol", ":OWNER@", ":GROUP@",
                         ":EVERYONE@", ":AUTHENTICATED@", ":ANONYMOUS@"])
    flags, name = who.split(":")
    mask = "".join(one for one in "rwanNxDtThHdcCoy" if chance.random() < 0.4)
    return f"{chance.choice('AAAD')}:{chance.choice(['', 'fd', 'fdi'])}{flags}:{name}:{mask}"


def grants(user, letter, lines):
    name = "" if user == "ANONYMOUS@" else user
    text = "\n".join([f"caller: {name}", f"groups: {','.join(CALLERS[user])}",
                      "owners: alice:sales", f"ask: {letter}", "list:a", *lines, ""])
    ran = subprocess.run([program, "check"], input=text.encode(), capture_output=True)
    if ran.returncode > 1:
        sys.exit(f"{ran.stdout!r} of {text}")
    return ran.stdout == b"granted\n"


chance, granted = random.Random(seed), 0
for _ in range(number):
    lines = [some_entry(chance) for _ in range(chance.randrange(1, 6))]
    found = Reasons({b"/x": Object("folder", "alice", "sales", b"/x", "", [
        line.encode() for line in ["list:a", *lines]])}, GROUPS)
    user = chance.choice(list(CALLERS))
    for letter in LETTERS:
        got = [one.entry for one in found.of(b"/x", user, [letter], False)]
        wanted = [lines[count - 1] for count in range(1, len(lines) + 1)
                  if grants(user, letter, lines[:count])][:1] if grants(user, letter, lines) else []
        granted += bool(wanted)
        if got != wanted:
            sys.exit(f"{user} has {letter} by {got} and not by {wanted} in {lines}")
print(f"{number} lists, {granted} rights")
