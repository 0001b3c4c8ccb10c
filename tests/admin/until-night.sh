# rooms-admin until: a date counts whoever wrote it, in nobody's name; what is no date is told, in
# the night by mail; and a server that rests stays so.

. "$here/lib/until.sh" || return

# A date counts whoever wrote it and whoever has left, and no record says that anybody asked for it.
records() { "$rooms" audit look/F | tail -n +2; }
asked 'a folder of carol' 201 alice POST /folder/carols
sets alice /carols list:ap "A:fd:carol:$ALL"
sets carol /carols list:ap "A:fd:carol:$ALL" A:fd:eve:rxtc "$(ends "$over" read u.eve alice)"
asked 'a folder that carol manages for a while' 201 alice POST /folder/given
sets alice /given list:a "A:fd:carol:$ALL"
sets carol /given list:a "A:fd:carol:$ALL" A:fd:eve:rxtc "$(ends "$over" read u.eve carol)"
sets alice /given list:a A:fd:carol:rxtc A:fd:eve:rxtc "$(ends "$over" read u.eve carol)"
dumps
records >wanted
holds 'there are records' [ "$(grep -c ',C,' wanted)" -gt 4 ]
room_verb until
says 'in the name of somebody who has no way there' 0 "taken back: /carols: read of eve"
says 'in the name of somebody who had' 0 \
  "taken back: /given: read of eve, until $over, asked by carol"
dumps
records >got
same 'nobody is said to have asked for it' got wanted
unit_runs 'the server runs after it'
list_is 'the first is done' carol /carols list:ap "A:fd:carol:$ALL" "$(ended read u.eve alice)"
list_is 'and the second' alice /given list:a A:fd:carol:rxtc "$(ended read u.eve carol)" \
  "${top[@]}"
sets carol /carols list:ap "A:fd:carol:$ALL"
sets alice /given list:a

# What is no date is told, and never carried out.
nonsense=(list:a A:fd:eve:rxtc A:g:until.2026-02-30.read.u.eve@alice:
  A:g:until.2026-01-01.own.u.eve@alice: A::until.2026-01-01.read.u.eve@alice:
  A:g:until.2026-01-01.read.u.eve@alice:r A:fdg:until.2026-01-01.read.u.eve@alice:
  A:g:until.2026-01-01.read.u.eve:)
sets alice /given "${nonsense[@]}"
dumps
room_verb until
for line in "${nonsense[@]:2}"; do
  says 'what is no date' 1 \
    "not understood: /given: $line is no date, and whoever manages it removes that"
done
list_is 'stays as it is' alice /given "${nonsense[@]}" "${top[@]}"

# A clock that is ahead of the last backup by more than a week: what would be over by it stays,
# which is told, and what was over then goes.
long=$(date -d '40 days ago' +%F)
sets alice /given list:a A:fd:eve:rxtc "$(ends "$over" read u.eve alice)" A:fd:bob:rxtc \
  "$(ends "$long" read u.bob alice)"
today=$(date -d '29 days ago' +%F)
night=$PWD/backups/office/$(date -d '30 days ago' +%F).030000
dumps
room_verb until
says 'a clock that is ahead' 1 \
  'not taken back: 1 accesses that are over if the clock is right, which says' \
  "; the last backup before is of $(date -d '30 days ago' +%F), and the next run goes on"
list_is 'ends nothing that was not over' alice /given list:a A:fd:eve:rxtc \
  "$(ends "$over" read u.eve alice)" "$(ended read u.bob alice)" "${top[@]}"
today=$(date +%F)
night=$PWD/backups/office/$today.030000

# In the night: what couldn't be taken back is a mail of its own, and the backup is a good one.
rm -rf backups/office/*
sets alice /given "${nonsense[@]}" "$(ends "$over" read u.eve alice)"
room_verb backup
says 'a night' 0 "taken back: /given: read of eve, until $over, asked by alice"
list_is 'takes it back' alice /given list:a "${nonsense[@]:2}" "$(ended read u.eve alice)" \
  "${top[@]}"
holds 'with a mail' grep -qF 'mail -s rooms on ' "$stand/messages"
holds 'of what it is about' grep -qF 'accesses that should have ended root' "$stand/messages"
holds 'and each line' [ "$(grep -c '^not understood: /given: ' "$stand/messages")" = 6 ]
sets alice /given list:a
rm -rf backups/office/*
room_verb backup
holds 'a night without any has no mail' [ "$status" = 0 -a ! -s "$stand/messages" ]

# Nothing stops for a date that isn't over, or that can't be kept; and a stopped server stays so.
was_stopped() { grep -q ' systemctl stop' "$stand/steps"; }
sets alice /given list:a A:fd:eve:rxtc "$(ends "$later" read u.eve alice)" A:fd:bob:rwaxtc \
  "$(ends "$over" read u.bob alice)"
dumps
room_verb until
says 'another level' 1 "the entries of bob aren't those of 'read' any more"
holds 'stops nothing' eval '! was_stopped'
sets alice /given list:a A:fd:eve:rxtc "$(ends "$over" read u.eve alice)"
dumps
unit stop
room_verb until
says 'a server that rests' 0 "taken back: /given: read of eve, until $over, asked by alice"
unit_rests 'stays so'
unit start
sets alice /given list:a A:fd:eve:rxtc "$(ends "$over" read u.eve alice)"
dumps
kill -KILL "$(cat "$stand/pid")"
room_verb until
says 'a server that ends by itself' 1 \
  "not taken back: 1 lists have accesses that are over: rooms is 'activating', and the next run"
unit start
room_verb until --dry-run
says 'a look' 0 "would take back: /given: read of eve, until $over, asked by alice"
holds 'stops nothing either' eval '! was_stopped'
: >"$stand/no-start"
room_verb until
says 'a server that does not start again' 1 "rooms doesn't start"
rm "$stand/no-start"
room_verb until
ended_well 'the next run'
unit_runs 'starts it'

# A backup in the room's place brings no access back that is over.
sets alice /given list:a A:fd:eve:rxtc "$(ends "$over" read u.eve alice)"
mkdir then
cp office/F* then
room_verb restore --dry-run --start "$PWD/then"
says 'what a restore would do' 0 "would take back: /given: read of eve, until $over, asked by alice"
cksum then/F* >before
room_verb restore --start "$PWD/then"
says 'a restore' 0 "taken back: /given: read of eve, until $over, asked by alice"
asked 'lets nobody in by what is over' 403 eve GET /folder/given
cksum then/F* >got
same 'the backup is as it was' got before
verb until --other "$PWD/office.conf"
says 'an unknown word' 2 'bad arguments'
exec 8<>run/.rooms-admin/rooms
flock 8
room_verb until
exec 8>&-
says 'a room that is at work' 2 busy
leaves_socket
holds 'nothing is left' [ -z "$(ls run)" ]
