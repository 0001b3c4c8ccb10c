# When documents changed, by whom, how large they are: what nginx and the door write down of
# changes, what users are told of it, and what nobody is told who is barred.

. "$here/lib/front.sh"
. "$here/lib/door.sh"
if ! has python3 || [ -z "$nginx" ] || ! has curl || [ "$loopback" = no ]; then
  skip 'dates' 'no loopback, or python3, nginx or curl is missing'
  return
fi
open_room F
set_list F / dacl list:a "A:fd:root:$ALL" "A:fd:alice:$ALL" A:fd:bob:rwaxct A::carol:rx A::dave:x
start_room F 1000000 || return
mkdir -p machine/etc/nginx run/door/office
printf '%s:{PLAIN}%s\n' root r alice a bob b carol c dave d >rooms.htpasswd
admin setup
for setting in DRIVE=yes DATES=who; do sets office "${setting%=*}" "${setting#*=}"; done
start_front 'dates' || return
dated=(--drive=yes --changes "$PWD/changes/office" --dates=who)
journal=changes/office/journal
records() {
  cp F F.copy && cp F-wal F.copy-wal
  "$rooms" audit F.copy | wc -l
}
is_now() { # NAME PATH ROWS USER:PASSWORD: without moments (a line comes after its answer)
  local began=$SECONDS
  printf '{"at":"%s","closed":[],"rows":[%s],"searches":false,"shows":"who"}' "$2" "$3" >wanted
  until curl -s -u "$4" "$base/door/folder$2" | sed 's/,"when":[0-9]\{10\}/,"when":T/g' >got &&
    cmp -s got wanted || [ $((SECONDS - began)) -ge 10 ]; do sleep 0.1; done
  same "$1" got wanted
}

# Random changes by three ways, with kills of the door.
random_changes() { # SEED COUNT
  PATIENCE=$patience python3 -B "$here/services/dated.py" "$front" "$PWD" "$1" "$2" kill \
    >"$work/out" 2>&1
  status=$?
  echo "random changes: $(tail -n 1 "$work/out")"
  holds "random changes: $(tail -n 12 "$work/out")" [ "$status" = 0 ]
}
random_changes 1 900
random_changes 2 900
rm -r changes/office
mkdir changes/office

start_door office "${dated[@]}"
holds 'there is a journal' [ "$(stat -c %a $journal)" = 620 ]
ask 'a folder' 201 '' alice:a /folder/f -X POST
ask 'a document' 201 '' alice:a /doc/f/plan -X PUT --data-binary 12345
rows='{"kind":"document","name":"plan","size":5,"when":T,"who":"alice"}'
is_now 'is told with its size' /f "$rows" bob:b
ask 'as one of the newest' 200 - bob:b /door/latest/
sed 's/,"when":[0-9]\{10\}/,"when":T/' "$work/body" >got
rows='{"path":"/f/plan","size":5,"when":T,"who":"alice"}'
printf '{"at":"/","found":[%s],"shows":"who"}' "$rows" >wanted
same 'which it is' got wanted

# Nor is anybody told of another document by a line that comes late: bob may move one that is closed
# to him to where his own was, while nginx has other things to do.
ask 'a folder of things that move' 201 '' alice:a /folder/way -X POST
printf 'list:ap\nA:fd:alice:%s\nA:fd:bob:rwaxDtc\n' "$ALL" >list
ask 'in which bob may move them' 204 '' alice:a /dacl/way -X PUT --data-binary @list
ask 'a document' 201 '' alice:a /doc/way/closed -X PUT --data-binary 'of alice'
printf 'list:p\nA::alice:%s\n' "$ALL" >list
ask 'that is closed to him' 204 '' alice:a /dacl/way/closed -X PUT --data-binary @list
ask 'and his own' 201 '' bob:b /doc/way/own -X PUT --data-binary 1
rows='{"kind":"document","name":"closed","size":8,"when":T,"who":"alice"},'
rows+='{"kind":"document","name":"own","size":1,"when":T,"who":"bob"}'
is_now 'both are known' /way "$rows" alice:a
read -r -a workers <"/proc/$proxy/task/$proxy/children"
awaits() { # NUMBER: so many sockets of the room, of which the first is its own
  local began=$SECONDS
  until [ "$(grep -c 'run/rooms/office/socket$' /proc/net/unix)" = "$1" ] ||
    [ $((SECONDS - began)) -ge 10 ]; do sleep 0.02; done
}
kill -STOP "$server"
curl -s -o /dev/null -w '%{http_code}\n' -u bob:b -d '{"to":"/way/other"}' \
  "$base/move/way/own" >met &
moving=$!
awaits 2
curl -s --unix-socket run/door/office/socket -H 'Room-User: bob' -d '{"to":"/way/own"}' \
  -o /dev/null -w '%{http_code}\n' http://x/door/move/way/closed >met.2 &
second=$!
awaits 3
kill -STOP "${workers[@]}"
kill -CONT "$server"
wait "$second"
kill -CONT "${workers[@]}"
wait "$moving"
holds 'both have moved' [ "$(cat met met.2 | tr '\n' ' ')" = '204 204 ' ]
began=$SECONDS
until grep -q '"p":"/move/way/own","s":"204"' $journal || [ $((SECONDS - began)) -ge 10 ]; do
  sleep 0.05
done
ask 'bob looks' 200 - bob:b /door/folder/way
holds "and is told nothing of alice's: $(cat "$work/body")" eval '! grep -q alice "$work/body"'

# Who may not read what is behind a folder is told nothing of it, whatever happens there.
ask 'a folder to list' 201 '' alice:a /folder/front -X POST
ask 'and one in it' 201 '' alice:a /folder/front/in -X POST
printf 'list:ap\nA:fd:alice:%s\nA::carol:rt\n' "$ALL" >list
ask 'where somebody comes no further' 204 '' alice:a /dacl/front -X PUT --data-binary @list
printf 'list:a\nU:fdF:EVERYONE@:rwxct\nU:fdS:carol:rwxct\n' >list
ask 'who would be recorded' 204 '' alice:a /sacl/front -X PUT --data-binary @list
routes=(door/folder/ door/folder/front door/latest/ door/latest/front door/folder/front/in
  door/latest/front/in)
told_all() { # FILE
  local user route
  for user in carol:c dave:d; do
    for route in "${routes[@]}"; do curl -s -u "$user" "$base/$route"; echo; done
  done >"$1"
}
# (once, since the last of these are recorded as what they are)
told_all before
rows='{"kind":"folder","name":"in","when":T,"who":"alice"}'
is_now 'what is there' /front "$rows" alice:a
for number in 1 2 3; do
  curl -s -u alice:a -X PUT --data-binary "secret $number" "$base/doc/front/plan"
  curl -s -u alice:a -X PUT --data-binary "s$number" "$base/doc/front/in/deep$number"
  curl -s -u alice:a -X DELETE "$base/object/front/in/deep$number"
done
curl -s -u alice:a -X DELETE "$base/object/front/plan"
told_all after
same 'ten changes behind a folder change no byte of twelve answers' after before
holds 'which say something' [ "$(grep -c '"at"' before)" -ge 6 ]
before=$(records)
for number in 1 2 3; do
  for user in carol:c bob:b dave:d; do
    curl -s -u "$user" "$base/door/latest/" >/dev/null
    curl -s -u "$user" "$base/door/folder/" >/dev/null
  done
done
holds 'and leave no record' [ "$(records)" = "$before" ]

# What the room understands of a target or a body, the door does.
understood() { # NAME STATUS TARGET: a PUT as it is
  local key
  key=$(printf alice:a | base64)
  exec 3<>"/dev/tcp/127.0.0.1/$front"
  printf 'PUT %s HTTP/1.1\r\nHost: x\r\nAuthorization: Basic %s\r\n' "$3" "$key" >&3
  printf 'Content-Length: 3\r\nConnection: close\r\n\r\nabc' >&3
  IFS= read -r -t 20 line <&3
  exec 3>&-
  holds "$1: $line" [ "${line:9:3}" = "$2" ]
}
ask 'another folder' 201 '' alice:a /folder/h -X POST
understood 'an escape in the route' 404 /%64oc/h/t
understood 'a query' 201 '/doc/h/q?x=1'
understood 'an absolute target' 201 http://x/doc/h/u
understood 'a slash that is escaped' 201 /doc/h%2Fv
understood 'a percent sign' 201 /doc/h/%2541
understood 'two slashes' 400 /doc//h/w
understood 'a dot' 400 /doc/h/./x
understood 'what is no text' 400 /doc/h/%ff
moved() { # STATUS BODY
  curl -s -o /dev/null -u alice:a "$base/doc/h/m" -X PUT --data-binary x
  ask "moves by $(head -c 30 <<<"$2")" "$1" - alice:a /move/h/m -X POST --data-binary "$2"
}
moved 204 '{"to":"/h/n3","u":"root","v":1,"t":1,"s":"201"}'
moved 204 $' {"to" :\n"/h/n6"}\n\n'
moved 204 '{"to":"/h/%42"}'
moved 204 '{"to":"/h/\u00fc\ud83d\ude00"}'
moved 400 $'{"to":"/h/n5"}\n{"v":1,"t":1,"u":"root","m":"PUT","p":"/doc/h/n5","s":"204","n":"7"}'
printf -v long '%20000s' x
moved 204 "{\"to\":\"/h/n4\",\"pad\":\"$long\"}"
began=$SECONDS
until [ "$(curl -s -o /dev/null -w '%{http_code}' -u alice:a "$base/door/latest/")" = 200 ] ||
  [ $((SECONDS - began)) -ge 20 ]; do sleep 0.2; done
curl -s -u alice:a "$base/door/folder/h" >got
python3 - got >seen <<'END'
import json, sys
for row in json.load(open(sys.argv[1]))["rows"]:
    print(ascii(row["name"]), row.get("size"), row.get("who"))
END
printf '%s\n' "'%41' 3 alice" "'%42' 1 alice" "'n3' 1 alice" "'n4' None None" "'n6' 1 alice" \
  "'q' 3 alice" "'u' 3 alice" "'v' 3 alice" "'\\xfc\\U0001f600' 1 alice" | sort >wanted
sort seen >got
same 'as the room has it' got wanted

# Whoever leaves before the answer has asked all the same.
kill -STOP "$server"
curl -s -m 1 -u bob:b -X PUT --data-binary 123456 "$base/doc/f/left"
kill -CONT "$server"
rows='{"kind":"document","name":"left","size":6,"when":T,"who":"bob"}'
plan='{"kind":"document","name":"plan","size":5,"when":T,"who":"alice"}'
is_now 'a client that left has its line' /f "$rows,$plan" alice:a

# Of what the room may have done, and was killed before it answered, nothing is told.
kill -STOP "$server"
curl -s -o /dev/null -w '%{http_code}\n' -u bob:b -X PUT --data-binary 1234567 "$base/doc/f/plan" \
  >answered &
asking=$!
sleep 0.5
kill -KILL "$server"
wait "$asking" "$server" 2>/dev/null
holds "the room was killed before it answered: $(cat answered)" grep -qx 502 answered
start_room F 1000000 || return
rows='{"kind":"document","name":"left","size":6,"when":T,"who":"bob"}'
is_now 'nobody knows of it' /f "$rows,{\"kind\":\"document\",\"name\":\"plan\"}" alice:a

# What was denied or refused leaves no line, and what is read neither; no body is written down.
size_of() { stat -c %s "$1"; }
before=$(size_of $journal)
ask 'what is denied' 403 - dave:d /doc/f/plan -X PUT --data-binary x
ask 'what nobody asks for' 401 - '' /doc/f/plan -X PUT --data-binary x
ask 'what is refused' 400 - alice:a /doc/f/%00 -X PUT --data-binary x
ask 'what is read' 200 12345 bob:b /doc/f/plan
ask 'a list' 204 '' alice:a /dacl/f -X PUT --data-binary 'list:a
A:fd:alice:rwanNxDtThHdcCoy
A:fd:bob:rwxatc
'
holds 'leaves no line' [ "$(size_of $journal)" = "$before" ]
holds 'no body is in it' [ "$(grep -c -e 12345 -e secret $journal)" = 0 ]

# At the end of the machine it says that no line is missing.
kill -TERM "${doors[-1]}"
wait "${doors[-1]}"
status=$?
holds "the door is stopped: $(tail -n 3 office.err)" [ "$status" = 0 ]
python3 - changes/office/dates.db >got <<'END'
import sqlite3, sys
print(sqlite3.connect(sys.argv[1]).execute(
    "SELECT value FROM told WHERE what = 'stopped'").fetchone())
END
echo "('yes',)" >wanted
same 'and has written that' got wanted

# While no door is there nothing is told, and nginx goes on to note: then all is known.
ask 'a folder beside no door' 201 '' alice:a /folder/away -X POST
ask 'a document' 201 '' alice:a /doc/away/plan -X PUT --data-binary 123
ask 'of which nothing is told' 502 - bob:b /door/folder/away
ask 'nor of what is new' 502 - bob:b /door/latest/
start_door office "${dated[@]}"
rows='{"kind":"document","name":"plan","size":3,"when":T,"who":"alice"}'
is_now 'and then when, by whom, how large' /away "$rows" bob:b

# A full disk keeps nobody from being answered, and a line has its place.
stop_door() {
  kill -9 "${doors[-1]}"
  wait "${doors[-1]}"
} 2>/dev/null
stop_door
if [ "$(id -u)" != 0 ] || ! mount -t tmpfs -o size=8m,mode=710 tmpfs changes/office; then
  skip 'a full disk' 'nothing can be mounted'
else
  start_door office "${dated[@]}"
  ask 'a folder for many' 201 '' alice:a /folder/many -X POST
  is_now 'which is known' /many '' alice:a
  head -c 9m /dev/zero >changes/office/fill 2>/dev/null
  began=$(date +%s%3N)
  for number in {1..200}; do
    curl -s -o /dev/null -w '%{http_code}\n' -u alice:a -X PUT --data-binary 12 \
      "$base/doc/many/$number"
  done | sort | uniq -c >got
  echo "200 changes beside a full disk: $(($(date +%s%3N) - began)) ms"
  echo '    200 201' >wanted
  same 'all are answered on a full disk' got wanted
  ask 'and by the door' 201 '' alice:a /drive/many/door -X PUT --data-binary 12
  rm changes/office/fill
  told_many() {
    [ "$(curl -s -u alice:a "$base/door/folder/many" | grep -o '"size":2,"when"' | wc -l)" = 201 ]
  }
  began=$SECONDS
  until told_many || [ $((SECONDS - began)) -ge 20 ]; do sleep 0.2; done
  holds 'and all are known once there is space' told_many
  stop_door
  umount -l changes/office
fi

# Where nothing is kept, nothing is there, and nothing is written.
rm -f $journal
start_door office --drive=yes --changes "$PWD/changes/office" --dates=
holds 'nothing is left' [ -z "$(ls changes/office)" ]
ask 'and nothing is told' 404 '{"why":"no-dates"}' alice:a /door/latest/
sets office DATES ''
admin setup
take_front
reload_front
ask 'a change' 201 '' alice:a /doc/f/unseen -X PUT --data-binary 12
holds 'leaves no line then' [ -z "$(ls changes/office)" ]
rows=
for name in left plan unseen; do rows+="{\"kind\":\"document\",\"name\":\"$name\"},"; done
rows="\"rows\":[${rows%,}],\"searches\":false"
ask 'the folder' 200 "{\"at\":\"/f\",\"closed\":[],$rows,\"shows\":null}" alice:a /door/folder/f
holds 'the door has no fault' [ "$(grep -c Traceback office.err)" = 0 ]
holds 'nor has nginx' [ "$(grep -c -e emerg -e alert error.log)" = 0 ]
stop_proxy

# By HTTP/2 somebody takes back what the room never got, who may do nothing there.
sets office DATES who
start_door office "${dated[@]}"
if certify_front && start_front 'dates by HTTP/2' tls; then
  before=$(size_of $journal)
  python3 "$here/lib/taken_back.py" rooms.pem "$secure" dave:d /doc/f/plan
  is_in_log() { grep -q 'PUT /doc/f/plan" 499' rooms.log; }
  began=$SECONDS
  until is_in_log || [ $((SECONDS - began)) -ge 10 ]; do sleep 0.1; done
  holds 'a request that is taken back' is_in_log
  holds 'leaves no line' [ "$(size_of $journal)" = "$before" ]

  # Nor does it help to take no answer: until its line is there, the door would tell of what stands
  # at a path what it knows of another one.
  head -c 1048576 /dev/zero >large
  curl -s -k -o /dev/null -u alice:a -T large "https://127.0.0.1:$secure/doc/f/large"
  mkfifo held
  python3 "$here/lib/unread.py" rooms.pem "$secure" alice:a /doc/f/large POST /folder/f/held \
    <held &
  asking=$!
  exec 3>held
  is_noted() { grep -q '"p":"/folder/f/held","s":"201"' $journal; }
  began=$SECONDS
  until is_noted || [ $((SECONDS - began)) -ge 10 ]; do sleep 0.1; done
  holds 'a change whose answer nobody takes has its line' is_noted
  exec 3>&-
  wait "$asking"
  stop_proxy
fi
stop_server
gives 'the room is sound' 0 'sound\n' '' verify F
