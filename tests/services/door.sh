# The door beside a room: its types and style, its parts over a room in memory, and the program
# behind nginx with it: what it answers of whole folders, that it grants nothing, how long it takes,
# and what stays when it is killed.

. "$here/lib/front.sh"
if ! has python3; then
  skip 'the door' 'python3 is missing'
  return
fi
services=$repo/services
printf '%s\n' '[mypy]' 'strict = True' "cache_dir = $PWD/mypy" >mypy.ini
if has mypy; then
  MYPYPATH=$services:$repo/admin:$here/services:$here/model mypy --config-file mypy.ini \
    "$services"/rooms_services/{room,door} \
    "$here"/services/{fake_room,judged_room,large_over,over,tree,test_door*}.py \
    "$here"/services/{lab,evaluated,at_once,cut_off,hostile,harm,locked}.py >"$work/out" 2>&1
  status=$?
  holds "mypy --strict: $(tail -n 5 "$work/out")" [ "$status" = 0 ]
else
  skip 'types of the door' 'mypy is missing'
fi
if has flake8; then
  flake8 --isolated --max-line-length 100 "$services"/rooms_services/{room,door} "$here/services" \
    >"$work/out" 2>&1
  status=$?
  holds "flake8: $(head -n 5 "$work/out")" [ "$status" = 0 ]
else
  skip 'style of the door' 'flake8 is missing'
fi
# Who may remove what, in every case, as the program has it.
python3 -B "$here/model/removing.py" "$rooms" >cases 2>"$work/err"
PYTHONPATH=$services:$repo/admin python3 -B "$here/services/removals.py" <cases >"$work/out" \
  2>>"$work/err"
holds "who may remove what: $(tail -n 3 "$work/out" "$work/err")" \
  grep -qx '864 cases, 512 may, 0 differ' "$work/out"
for suite in "$here"/services/test_door*.py; do
  (cd "$here/services" &&
    PYTHONPATH=$services:$repo/admin python3 -B -m unittest "$(basename "$suite" .py)") \
    >"$work/out" 2>&1
  status=$?
  holds "$(basename "$suite" .py): $(tail -n 20 "$work/out")" [ "$status" = 0 ]
done

if [ -z "$nginx" ] || ! has curl || [ "$loopback" = no ]; then
  skip 'the door behind nginx' 'no loopback, or nginx or curl is missing'
  return
fi
open_room F
set_list F / dacl list:a "A:fd:root:$ALL" A:fd:alice:rwxact A::bob:x A::carol:rx
start_room F 1000000 || return
printf 'root:{PLAIN}r\nalice:{PLAIN}a\nbob:{PLAIN}b\ncarol:{PLAIN}c\n' >rooms.htpasswd
start_front 'the door' || return
. "$here/lib/door.sh"
start_would
start_door() {
  local began=$SECONDS
  mkdir -p run/door/office
  : >door.err
  python3 -IB "$services/rooms_services/door/__main__.py" --room "$PWD/run/rooms/office/socket" \
    --listen "$PWD/run/door/office/socket" --would "$PWD/run/would" "$@" >door.out 2>door.err &
  door=$!
  others+=("$door")
  until [ -s door.err ] || [ $((SECONDS - began)) -ge "$patience" ]; do sleep 0.02; done
}
start_door
told_by_door() { # NAME USER:PASSWORD PATH: the answer is what the dump says
  curl -s -u "$2" "$base/door/below$3" >answer
  python3 "$here/services/tree.py" sort answer >got
  "$rooms" dump F.copy >dump
  python3 "$here/services/tree.py" judge dump "$3" >wanted
  same "$1" got wanted
}
# (the program lets nobody else read a file that it serves)
copies() { cp F F.copy && cp F-wal F.copy-wal; }

# All that differs below, of random trees.
for seed in 1 2 3; do
  ask "no tree of seed $seed" 404 '{"at":"/t","why":"no-such"}' root:r /door/below/t
  python3 "$here/services/tree.py" make run/rooms/office/socket "$seed" 400
  copies
  told_by_door "all that differs, seed $seed" root:r /t
  holds 'something does' [ "$(grep -c path wanted)" -ge 20 ]
  ask 'the tree moves away' 204 '' root:r /move/t -X POST -d "{\"to\":\"/t$seed\"}"
done

# It grants nothing: the room answers each question of it, in the caller's name.
ask 'no password' 401 - '' /door/below/t1
ask 'who may not list' 403 '{"at":"/","bits":"r","entry":null,"text":null}' bob:b /door/below/
ask 'nor by saying so' 403 - bob:b /door/below/ -H 'Room-User: root' -H 'room-user: root'
ask 'a folder' 201 '' root:r /folder/f -X POST
ask 'a document' 201 '' root:r /doc/f/plan -X PUT --data-binary hello
ask 'closed to carol' 204 '' root:r /dacl/f -X PUT --data-binary "list:ap
A:fd:root:$ALL
A::alice:rx
A:f:alice:rwct
A::carol:r
"
ask 'what carol finds in it' 200 \
  '{"all":true,"at":"/f","found":[{"kind":"document","path":"/f/plan"}],"unlisted":[]}' \
  carol:c '/door/find/f?PLAN'
unread='[{"count":1,"in":"/f","kind":"document"}]'
ask 'what she sees of it' 200 \
  "{\"at\":\"/f\",\"list\":null,\"objects\":[],\"rest\":[],\"unlisted\":[],\"unread\":$unread}" \
  carol:c /door/below/f
ask 'what she can not open' 200 '{"at":"/f","closed":["plan"]}' carol:c /door/closed/f
ask 'what alice can' 200 '{"at":"/f","closed":[]}' alice:a /door/closed/f
curl -s -u carol:c "$base/door/zip/f" >f.zip
python3 -c 'import sys, zipfile
whole = zipfile.ZipFile("f.zip")
sys.exit(whole.testzip() or [one for one in whole.namelist()] != ["f/", "f/not in this ZIP.txt"])'
holds 'and what she gets: only its name' [ "$?" = 0 ]
ask 'whom she may not ask for' 403 '{"at":"/f","bits":"x","entry":null,"text":null}' \
  carol:c /door/doc/f/plan
curl -s -u alice:a "$base/door/zip/f" >f.zip
python3 -c 'import sys, zipfile
sys.exit(zipfile.ZipFile("f.zip").read("f/plan") != b"hello")'
holds 'alice gets it' [ "$?" = 0 ]
answer alice:a /door/zip/f
holds 'as a file' grep -qi '^content-disposition: attachment; filename="f.zip"' "$work/head"
holds 'the fields of the site are there too' \
  grep -qi '^x-content-type-options: nosniff' "$work/head"

# No record says of somebody who looked, searched or took a folder that they tried what is closed.
ask 'records of what is denied' 204 '' root:r /sacl/f -X PUT --data-binary "list:a
U:fdF:EVERYONE@:rwct
"
ask 'a folder that is closed to her' 201 '' root:r /folder/f/board -X POST
for way in below/f closed/f 'find/?x' zip/f 'zip/f?plan' 'goes/f?board'; do
  ask "carol: $way" 200 - carol:c "/door/$way"
done
copies
"$rooms" audit F.copy >records
holds 'nothing is recorded of carol' [ "$(grep -c ,carol, records)" = 0 ]
ask 'what she tries' 403 - carol:c /dacl/f
copies
"$rooms" audit F.copy >records
holds 'is recorded' [ "$(grep -c ',carol,/f,c,no,' records)" = 1 ]

# What goes, and what bars it.
goes() { # NAME ANSWER USER:PASSWORD TARGET
  answer "$3" "$4"
  sed -E 's/"tag":"\\"[0-9a-f]{32}\\""/"tag":".."/' "$work/body" >got
  printf %s "$2" >wanted
  same "$1" got wanted
}
goes 'what goes' '{"at":"/","barred":null,"objects":['\
'{"kind":"folder","path":"/f"},{"kind":"folder","path":"/f/board"},'\
'{"kind":"document","path":"/f/plan"}],"tag":"..","unlisted":[]}' root:r '/door/goes/?f'
goes 'what bars it' '{"at":"/f","barred":{"at":"/f","path":"/f/board"},"objects":['\
'{"kind":"folder","path":"/f/board"}],"tag":"..","unlisted":[]}' carol:c '/door/goes/f?board'

# Only what was seen is replaced.
answer alice:a /door/doc/f/plan -I
tag=$(sed -n 's/^ETag: \(.*\)\r$/\1/p' "$work/head")
holds 'the tag alone' [ "$tag" = "\"$(printf hello | sha256sum | cut -c 1-32)\"" ]
answer alice:a /door/doc/f/plan
tag=$(sed -n 's/^ETag: \(.*\)\r$/\1/p' "$work/head")
holds 'one disposition' [ "$(grep -ci '^content-disposition' "$work/head")" = 1 ]
ask 'a change' 204 '' root:r /doc/f/plan -X PUT --data-binary other
curl -s -o "$work/body" -w '%{http_code}' -u alice:a -X PUT -H "If-Match: $tag" \
  --data-binary mine "$base/door/doc/f/plan" >code
holds 'another one of before it' [ "$(cat code)" = 412 ]
holds 'says who could have changed it' grep -qF '"who":["root","alice"]' "$work/body"
ask 'it is as it was' 200 other alice:a /doc/f/plan
tag=\"$(printf other | sha256sum | cut -c 1-32)\"
ask 'what was seen' 204 '' alice:a /door/doc/f/plan -X PUT --data-binary mine -H "If-Match: $tag"
ask 'only a new one' 412 - alice:a /door/doc/f/plan -X PUT --data-binary x -H 'If-None-Match: *'
ask 'without a condition' 428 '{"why":"no-condition"}' alice:a /door/doc/f/plan -X PUT -d x
answer root:r /door/dacl/f
tag=$(sed -n 's/^ETag: \(.*\)\r$/\1/p' "$work/head")
cp "$work/body" list
ask 'a list' 204 '' root:r /door/dacl/f -X PUT --data-binary @list -H "If-Match: $tag"
echo 'A::dave:r' >>list
ask 'another list' 204 '' root:r /door/dacl/f -X PUT --data-binary @list -H "If-Match: $tag"
ask 'the first again' 412 - root:r /door/dacl/f -X PUT --data-binary @list -H "If-Match: $tag"
ask 'who may not set it' 403 - alice:a /door/dacl/f -X PUT --data-binary @list -H 'If-Match: *'

# What would come of a change follows from the question alone, whatever is in it of members, and of
# a room that bob may not list. It is the same once the room has other lists, and none at all.
board=$(printf '["/f","folder","%s","%s","no","","no"],' alice '' bob '' eve r olaf r '*' '')
printf '{"lists":[["/f","list:ap\\nA::bob:r\\n"]],"rows":[%s["/f","folder","%s"]]} 200' "$board" \
  'ANONYMOUS@","","no","","no' >follows
printf '%s\n' 'member board olaf' 'member board eve' 'folder alice staff /' list:a A:g:board:rx \
  'folder alice staff /f' list:ap A:g:board:r 'set /f' list:ap A::bob:r lists >question
would() { # FILE: what bob is told
  curl -s -w ' %{http_code}' -u bob:b "$base/door/would" -H Expect: --data-binary "@$1"
}
no_answer='{"why":"no-answer"} 503'
would question >got
same 'what would come of a change' got follows
sed 's/^A::bob:r/A:bob:r/' question >wrong
holds 'a question with a fault' \
  [ "$(would wrong)" = '{"line":"refused: line 11: A5 not four parts","why":"refused"} 400' ]
head -c 1048577 /dev/zero >large
holds 'one that is too large' eval '[[ $(would large) == *" 413" ]]'
truncate -s 1048576 large
holds 'one that is as large as can be' \
  [ "$(would large)" = '{"line":"refused: line 1: W1 no such line","why":"refused"} 400' ]
ask 'another method' 405 '{"why":"no-method"}' bob:b /door/would
ask 'a page of another site' 403 - bob:b /door/would -X POST -d x -H 'Sec-Fetch-Site: cross-site'
ask 'nobody' 401 - '' /door/would -X POST --data-binary @question
# A part of an answer, from a program that is killed then, or ended after ten seconds.
cat >slow <<END
#!/bin/bash
"$rooms" would | head -n 2
echo "\$\$" >slow.pid
exec sleep 60
END
chmod 755 slow
stop_would
start_would "$PWD/slow"
would question >got &
asking=$!
until [ -s slow.pid ]; do sleep 0.02; done
kill -9 "$(cat slow.pid)"
wait "$asking"
holds "one whose program is killed: $(head -c 200 got)" [ "$(cat got)" = "$no_answer" ]
began=$SECONDS
would question >got
holds "one that takes too long: $(head -c 200 got)" [ "$(cat got)" = "$no_answer" ]
holds 'ends after ten seconds' [ $((SECONDS - began)) -ge 9 -a $((SECONDS - began)) -le 20 ]
stop_would
holds 'nobody there' [ "$(would question)" = "$no_answer" ]
holds 'who could have changed it is not known' grep -qF '"who":null' \
  <<<"$(curl -s -u alice:a "$base/door/doc/f/plan" -H 'If-Match: ""')"
start_would
would question >got
same 'and there again' got follows

# Targets, other sites, a full room, and names of routes.
for target in /door/below/f%2Fplan /door/below/f%00 /door/below/%ff /door/below/a%0d%0ax; do
  ask "the target $target" 400 - root:r "$target"
done
ask 'no such address' 404 '{"why":"no-route"}' root:r /door/nothing/f
ask 'another method' 405 '{"why":"no-method"}' root:r /door/below/f -X POST
ask 'a document that is called door' 201 '' root:r /doc/door -X PUT --data-binary x
ask 'is one of the room' 200 x root:r /doc/door
ask 'and of the door' 200 x root:r /door/doc/door
for field in 'Sec-Fetch-Site: cross-site' 'Sec-Fetch-Site: same-site' \
  'Origin: https://x.example'; do
  ask "a page of another site ($field)" 403 - root:r /door/below/f -H "$field"
  holds 'is refused before it comes to the door' grep -q '<title>403' "$work/body"
done
ask 'its own' 200 - root:r /door/below/f -H 'Sec-Fetch-Site: same-origin'
mkdir -p run/rooms-full
: >run/rooms-full/office.full
ask 'a full room' 507 - alice:a /door/doc/f/plan -X PUT -d x -H 'If-Match: *'
ask 'a list in it' 204 '' root:r /door/dacl/f -X PUT --data-binary @list -H 'If-Match: *'
rm run/rooms-full/office.full

# The budget: 10,000 objects, while somebody else is answered.
python3 "$here/services/tree.py" flat run/rooms/office/socket 10000
cat >beside.py <<'END'
"""Times of a request to the room, while others walk through it; in milliseconds."""
import http.client
import socket
import sys
import time


class Local(http.client.HTTPConnection):
    def connect(self) -> None:
        self.sock = socket.socket(socket.AF_UNIX)
        self.sock.connect("run/rooms/office/socket")


times = []
until = time.monotonic() + float(sys.argv[1])
while time.monotonic() < until:
    began = time.monotonic()
    asked = Local("localhost")
    asked.request("GET", "/doc/f/plan", headers={"Room-User": "root", "Connection": "close"})
    assert asked.getresponse().read() == b"mine"
    asked.close()
    times.append((time.monotonic() - began) * 1000)
    time.sleep(0.005)
times.sort()
print(f"{len(times)} requests, half below {times[len(times) // 2]:.1f}, all below {times[-1]:.1f}")
END
takes=$(curl -s -o answer -w '%{time_total}' -u root:r "$base/door/below/flat")
echo "10,000 objects below: $takes s"
holds "10,000 objects below in $takes s" awk -v took="$takes" 'BEGIN { exit !(took < 5) }'
holds 'all of them' python3 -c 'import json
told = json.load(open("answer"))
assert len(told["objects"]) == 100, len(told["objects"])
assert sum(row["count"] for row in told["rest"]) == 9900'
python3 beside.py 3 >times &
timing=("$!")
for n in 1 2 3; do
  curl -s -o /dev/null -u root:r "$base/door/below/flat" &
  timing+=("$!")
done
wait "${timing[@]}"
echo "beside three of them: $(cat times) ms"
holds "nobody waits for long: $(cat times)" \
  awk '{ exit !($1 > 50 && $NF + 0 < 500) }' times
takes=$(curl -s -o answer -w '%{time_total}' -u root:r "$base/door/find/?number%209989")
echo "a name among 10,000: $takes s"
holds 'is found' grep -qF '"path":"/flat/9/document number 9989.odt"' answer

# A user who asks a hundred times at once is refused beyond some, and another one is answered.
for n in {1..100}; do
  printf '%s\n' "url = \"$base/door/below/flat\"" 'user = "root:r"' 'output = "/dev/null"' \
    'write-out = "%{http_code}\n"'
done >hundred
curl -s -Z --parallel-max 100 --parallel-immediate -K hundred >codes &
asking=$!
sleep 0.2
takes=$(curl -s -o /dev/null -w '%{time_total}' -u alice:a "$base/door/below/f")
holds "alice waits for $takes s" awk -v took="$takes" 'BEGIN { exit !(took < 3) }'
wait "$asking"
sort codes | uniq -c | tr -s ' \n' ' ' >counts
echo "a hundred at once: $(cat counts)"
holds "some are refused, and none is lost: $(cat counts)" awk '{
  for (i = 1; i < NF; i += 2) n[$(i + 1)] = $i
} END { exit !(n[200] >= 16 && n[200] + n[429] == 100) }' counts

# The door is killed again and again among changes: each was done as a whole or not at all, and the
# room goes on.
ask 'a counter' 201 '' root:r /doc/f/counter -X PUT --data-binary 0
number=0
for turn in {1..15}; do
  for n in {1..20}; do
    tag=\"$(printf %s "$number" | sha256sum | cut -c 1-32)\"
    code=$(curl -s -o "$work/body" -w '%{http_code}' -u root:r -X PUT -H "If-Match: $tag" \
      --data-binary $((number + 1)) "$base/door/doc/f/counter")
    case $code in
      204) number=$((number + 1)) ;;
      *)
        now=$(curl -s -u root:r "$base/doc/f/counter")
        holds "$code, and the room has $now after $number" \
          [ "$now" = "$number" -o "$now" = $((number + 1)) ]
        number=$now
        ;;
    esac
  done &
  changing=$!
  sleep 0.0$((RANDOM % 90 + 10))
  kill -9 "$door"
  wait "$door" 2>/dev/null
  start_door
  wait "$changing"
  number=$(curl -s -u root:r "$base/doc/f/counter")
done
holds "the room goes on, at $number" [ "$number" -ge 20 ]
ask 'and so does the door' 200 "$number" root:r /door/doc/f/counter

# A room that is stopped, and one that hangs.
stop_server
would question >got
same 'what would come of a change, without a room' got follows
ask 'no room' 503 '{"why":"no-room"}' root:r /door/below/f
kill "$door"
wait "$door" 2>/dev/null
ask 'no door' 502 - root:r /door/below/f
gives 'the room is sound' 0 'sound\n' '' verify F
