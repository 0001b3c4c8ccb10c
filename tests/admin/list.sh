# rooms-admin list: one list as it is now, and as root sets it, tried and shown before the server
# stops; what somebody else has set meanwhile stays.

. "$here/lib/people.sh"
if ! plays_people; then
  skip 'one list' 'no loopback, curl, setsid or /usr/bin/python3'
  return
fi
make_people
listens_at_socket
as_user "$rooms" init "$PWD/office/F" alice staff >/dev/null
printf '%s\n' list:a "A:fd:alice:$ALL" A::AUTHENTICATED@:xt |
  as_user "$rooms" reset "$PWD/office/F" / dacl >/dev/null
unit start
at_socket() { # USER METHOD TARGET [BODY]
  curl -s --unix-socket "$sock" -o "$work/body" -w '%{http_code}' -H "Room-User: $1" \
    -X "$2" "http://localhost/$3" ${4+--data-binary "$4"}
}
holds 'a folder' [ "$(at_socket alice POST folder/letters)" = 201 ]
holds 'and one with a blank' [ "$(at_socket alice POST folder/a%20b)" = 201 ]
sets() { # TEXT WORD ..
  printf '%s\n' "$1" >typed
  typed=typed room_verb list set "${@:2}"
}
stops_are() { # NAME NUMBER
  holds "$1" [ "$(grep -c ' systemctl stop' "$stand/steps")" = "$2" ]
}
printed() { # NAME LINE ..
  printf '%s\n' "${@:2}" >wanted
  same "$1" "$work/out" wanted
}
room_verb list show /letters
printed 'a list that is inherited' list:a "A:fdI:alice:$ALL"
stops_are 'is looked at without a stop' 0
sets $'list:ap\nA:fd:bob:rxtc' /letters --dry-run
ended_well 'what would be set'
printed 'is shown' '- list:a' '+ list:ap' '+ A:fd:bob:rxtc'
stops_are 'and not done' 0
sets $'list:a\nA:fd:bob:rxtc' /letters
ended_well 'a list'
printed 'is set' '+ A:fd:bob:rxtc' 'done'
stops_are 'with one stop' 1
unit_runs 'the server goes on'
room_verb list show /letters
printed 'with what comes from above' list:a A:fd:bob:rxtc "A:fdI:alice:$ALL"
sets $'list:a\nA:fd:bob:rxtc' /letters
says 'the same again' 0 'nothing to change'
stops_are 'stops nothing' 0
# What comes from above is not set here, whatever is sent of it.
sets $'# as it was shown\nlist:a\nA:fd:bob:rxtc\n'"A:fdI:alice:$ALL" /letters
says 'all that was shown' 0 'nothing to change'
holds 'of which nothing is said' [ "$(grep -c 'not set' "$work/err")" = 0 ]
stops_are 'stops nothing' 0
sets $'list:a\nA:fd:bob:rxtc\nA:fdI:alice:r' /letters
says 'less of it' 1 "not set: + A:fdI:alice:r, - A:fdI:alice:$ALL: what has the flag I comes with"
printed 'changes nothing' 'nothing to change'
stops_are 'and stops nothing' 0
sets $'list:a\nA:fd:bob:r\nD:fdI:bob:r' /letters --dry-run
says 'beside what is set' 1 'not set: + D:fdI:bob:r, '
printed 'it is left out' '- A:fd:bob:rxtc' '+ A:fd:bob:r'
sets $'list:ap\nA:fd:bob:rxtc\nA:fdI:alice:r' /letters --dry-run
ended_well 'a list that is closed to it'
printed 'keeps what is sent' '- list:a' '+ list:ap' '+ A:fdI:alice:r'
sets $'list:a\nA:fdI:alice:r' / --dry-run
printed 'and so does the root' "- A:fd:alice:$ALL" '- A::AUTHENTICATED@:xt' '+ A:fdI:alice:r'

# A name that nobody has is most often mistyped. Dates have names of their own, and no mask.
sets "$(printf '%s\n' list:a A::alise:r A:fdg:staff:r A::alice:r A::OWNER@:r \
  A:g:until.2027-01-01.read.u.eve@alice:)" /letters --dry-run
says 'a name that nobody has' 0 'nobody is called alise; did you mean alice?'
says 'a group that nobody is in' 0 'nobody is in staff'
holds 'nobody else is told of' [ "$(grep -c 'nobody is' "$work/err")" = 2 ]
setting PASSWORDS directory
sets $'list:a\nA::alise:r' /letters --dry-run
holds 'users of a directory are known there' [ "$(grep -c 'nobody is' "$work/err")" = 0 ]
setting PASSWORDS file
sets $'list:a\nU:fdF:EVERYONE@:rx' --sacl '/a b'
ended_well 'what is recorded'
printed 'is set' '+ U:fdF:EVERYONE@:rx' 'done'
room_verb list show --sacl '/a b'
printed 'and shown' list:a U:fdF:EVERYONE@:rx

# Of a document in parts it would be that of one of them.
for name in scan scan~rooms-part-0001; do
  holds "a part of a document ($name)" [ "$(at_socket alice PUT "doc/letters/$name" x)" = 201 ]
done
sets $'list:p\nA::alice:rxtc' /letters/scan
says 'a document in parts' 2 'not set: /letters/scan is kept in parts'
stops_are 'stops nothing' 0
sets $'list:p\nA::alice:rxtc' /letters/scan~rooms-part-0001 --dry-run
ended_well 'one of them alone, by its name'

# What can't be is refused before anything stops.
for wrong in 'no entry;list:a|A:fd:bob;/letters;not set: refused: line 2: A' \
  'no list;A:fd:bob:rxtc;/letters;not set: refused: line 1: A' \
  'no object;list:a;/none;no object: /none isn'"'t in the room" \
  'no path;list:a;letters;bad arguments: a path in the room begins with a slash' \
  'nothing;;/letters;no list: standard input has none'; do
  IFS=';' read -r name text path said <<<"$wrong"
  sets "${text//|/$'\n'}" "$path"
  says "$name" 2 "$said"
  stops_are "$name: no stop" 0
done
head -c 1048577 /dev/zero | tr '\0' x >large
typed=large room_verb list set /letters
says 'too long' 2 'no list: standard input has more than 1048576 bytes'

# Somebody sets it meanwhile.
cat >meanwhile <<END
#!/bin/bash
if [ "\$1 \$2" = "dump $PWD/office/F" ] && [ ! -e "$PWD/taken" ]; then
  : >"$PWD/taken"
  printf '%s\\n' list:ap A:fd:carol:rxtc | "$rooms" reset "\$2" /letters dacl >/dev/null
fi
exec "$rooms" "\$@"
END
chmod 755 meanwhile
chmod 777 .
setting PROGRAM "$PWD/meanwhile"
sets $'list:a\nA:fd:dana:rxtc' /letters
says 'somebody sets it meanwhile' 2 'changed meanwhile: somebody has set the list of /letters'
setting PROGRAM "$stand/bin/rooms"
unit_runs 'the server goes on'
room_verb list show /letters
printed 'and theirs stays' list:ap A:fd:carol:rxtc
sets $'list:a' /letters
ended_well 'the next one'
unit stop
sets $'list:a\nA:fd:bob:rxtc' /letters
says 'a room that rests' 0 done
unit_rests 'goes on to rest'
