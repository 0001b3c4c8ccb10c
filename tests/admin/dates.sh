# What root tells the door beside a room of dates: what a night's copy has, whose name is forgotten,
# what is imported or restored.

. "$here/lib/nights.sh"
if [ "$loopback" = no ] || ! has curl || ! has flock || ! has setpriv || ! has setsid; then
  skip 'what root tells of dates' 'no loopback, or no curl, flock, setpriv, setsid'
  return
fi
make_stand
list=$PWD/root/var/lib/rooms-told/conf.night
words=$PWD/root/var/lib/rooms-told/conf.told
in_room() { # METHOD TARGET [BODY]
  curl -s -o /dev/null -m "$patience" --unix-socket "$sock" -H 'Room-User: root' -X "$1" \
    --data-binary "${3-}" "http://localhost$2"
}
new_office
in_room POST /folder/f
in_room PUT /doc/f/plan hello
in_room PUT '/doc/%C3%BC%22'
in_room POST /folder/g
in_room POST /folder/h
in_room PUT /doc/g/moved moved
in_room POST /move/g '{"to":"/h/later"}'

# Where no door has kept dates, or the room keeps none, nothing is told.
night
holds 'a night' [ "$status" = 0 ]
mkdir -p root/var/lib/rooms-changes root/var/lib/rooms-told
setting DATES who
night
holds 'nobody is there' is_missing "$list"
mkdir -m 710 root/var/lib/rooms-changes/conf
[ "$(id -u)" != 0 ] || chown 65531:65531 root/var/lib/rooms-changes/conf
setting DATES ''
night
holds 'who is told nothing' is_missing "$list"

# A night's list: all of it, folders first, and a moment before the copy.
setting DATES when
before=$(date +%s%3N)
night
holds "with dates: $(cat "$work/err")" [ "$status" = 0 ]
holds 'it has a moment of tonight' \
  eval 'read -r at made <"$list"; [ "$before" -le "$at" -a "$at" -le "$made" ]'
python3 - "$list" >got <<'END'
import hashlib, json, sys
_, *rows, count = open(sys.argv[1]).read().splitlines()
names, wanted = {0: ""}, dict(plan=b"hello", moved=b"moved")
for row in rows:
    number, up, name, size, total = json.loads(row)
    body = wanted.get(name, b"")
    is_right = total is None or total == hashlib.sha256(body).hexdigest()[:16]
    names[number] = f"{names[up]}/{name}"
    print(names[number], size, is_right)
print(count)
END
printf '%s\n' '/f None True' '/f/plan 5 True' '/h None True' '/h/later None True' \
  '/h/later/moved 5 True' '/ü" 0 True' 6 >wanted
LC_ALL=C sort got >got.sorted
LC_ALL=C sort wanted >wanted.sorted
same 'each object, by its folder, with length and sum' got.sorted wanted.sorted
if [ "$(id -u)" = 0 ]; then
  holds 'the door alone reads it' [ "$(stat -c '%u %a' "$list")" = '65531 400' ]
fi
holds 'nothing else is there' [ "$(ls root/var/lib/rooms-told)" = conf.night ]
# What is no room any more keeps nothing from being backed up.
holds 'a list that cannot be' eval 'rm -r root/var/lib/rooms-told && : >root/var/lib/rooms-told'
night
says 'is told' 1 'the dates of conf lack this night'
holds 'and the backup is there' [ -e "backups/conf/$(newest)/lists.txt" ]
mkdir tree
echo none >tree/plan
verb import --room "$PWD/conf" --as root --replace tree /f
says 'nor does it keep anything from being imported' 0 "the door of conf isn't told"
rm root/var/lib/rooms-told tree/plan
mkdir root/var/lib/rooms-told

# The words of root.
told_last() { # NAME TEXT
  tail -n 1 "$words" >got
  holds "$1: $(cat got)" grep -qF "$2" got
}
echo one >tree/a
verb import --room "$PWD/conf" --as root tree /f
holds "an import: $(cat "$work/err")" [ "$status" = 0 ]
holds 'of what is new is no word' is_missing "$words"
echo two >tree/a
verb import --room "$PWD/conf" --as root --replace tree /f
holds 'one that replaces' [ "$status" = 0 ]
told_last 'says what changed' '"changed": "f"}'
mkdir -p root/var/lib/rooms-passwords
verb user remove eve --password --room "$PWD/conf"
told_last 'only a password goes' '"changed": "f"}'
verb user remove eve --room "$PWD/conf"
holds "whom nothing names any more: $(cat "$work/err")" [ "$status" = 1 ]
told_last 'whose name is forgotten' '"forget": "eve"}'
# What the door knows is in each backup, without the names of those who did it.
python3 -B - "$repo/services" root/var/lib/rooms-changes/conf/dates.db <<'END'
import os, sys
sys.path[:0] = [sys.argv[1], os.path.join(sys.argv[1], "..", "admin")]
from rooms_services.door.changes.store import By, Store
known = Store(sys.argv[2], True)
folder = known.folder(("h", "later"))
known.put(folder, "moved", False, 5, By(1700000000123, "bob"))
known.put(folder, "of another length", False, 7, By(1700000000124, "bob"))
known.put(known.folder(("f",)), "plan", False, 4, By(4100000000000, "bob"))
known.close()
END
# (no other user than this one gets to it here)
chown -R "$(id -u):$(id -g)" root/var/lib/rooms-changes/conf
setting DATES who
night
holds "with what the door knows: $(cat "$work/err")" [ "$status" = 0 ]
printf '%s\n' 3 '["f/plan", 4100000000000, 4]' '["h/later/moved", 1700000000123, 5]' \
  '["h/later/of another length", 1700000000124, 7]' >wanted
LC_ALL=C sort "backups/conf/$(newest)/dates" >got
same 'a backup has it' got wanted
setting KEEP 1
night
holds "a night with one beyond KEEP: $(cat "$work/err")" [ "$status" = 0 ]
holds 'of which nothing is left' [ "$(ls backups/conf)" = "$(newest)" ]
unit stop
verb restore --room "$PWD/conf" latest
holds "a restore: $(cat "$work/err")" [ "$status" = 0 ]
grep 1700000000 "$list" | sed 's/.*\("moved", 5, \).*", /\1/' >got
echo '"moved", 5, 1700000000123]' >wanted
same 'a restore tells the door what is so still' got wanted
holds 'and nothing that came later' eval '! grep -q 4100000000000 "$list"'
told_last 'is told with the moment of the backup' \
  "\"restored\": $(date -d "$(newest | sed 's/\(.*\)[.]\(..\)\(..\)\(..\)/\1 \2:\3:\4/')" +%s)000}"
holds 'and what it has' [ "$(sed -n '$p' "$list")" = 7 ]
read -r at made <"$list"
holds 'of that moment' grep -qF "\"restored\": $at}" "$words"
cp -R "backups/conf/$(newest)" other
rm other/run
verb restore --room "$PWD/conf" "$PWD/other"
holds "another backup: $(cat "$work/err")" [ "$status" = 0 ]
told_last 'has no moment' '"restored": 0}'
holds 'nothing else is left' \
  [ "$(cd root/var/lib/rooms-told && echo *)" = 'conf.night conf.told conf.words' ]
same 'root has the words too' root/var/lib/rooms-told/conf.words "$words"
# A restore that was killed once the files were exchanged.
at=$(sed -n 's/^FILE=//p' conf)
mkdir -p "${at%/*}/restoring.${at##*/}"/{old,new}
: >"${at%/*}/restoring.${at##*/}/aside"
[ "$(id -u)" != 0 ] || chown -R "$(stat -c %u:%g "${at%/*}")" "${at%/*}/restoring.${at##*/}"
cp "$words" told_before
verb restore --room "$PWD/conf" --undo
holds "one that was cut off: $(cat "$work/err")" [ "$status" = 0 ]
told_last 'is told, with no moment' '"restored": 0}'
holds 'once more' [ "$(wc -l <"$words")" = $(($(wc -l <told_before) + 1)) ]
python3 - "$words" >got <<'END'
import json, sys
rows = [json.loads(row) for row in open(sys.argv[1])]
numbers, moments = [row["number"] for row in rows], [row["at"] for row in rows]
print(len(set(numbers)), numbers == sorted(numbers), moments == sorted(moments))
END
echo '5 True True' >wanted
same 'each word has a number' got wanted
# A month later the door needs none of them.
sed -i 's/"at": [0-9]*/"at": 1700000000000/' root/var/lib/rooms-told/conf.words
unit start
holds 'a room that is restored again' eval 'unit stop; verb restore --room "$PWD/conf" latest
  [ "$status" = 0 ]'
holds 'old words go' [ "$(wc -l <"$words")" = 1 ]
