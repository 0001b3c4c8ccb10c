# rooms-admin until: accesses that have an end date are taken back, and nothing else is touched,
# whatever somebody has changed meanwhile.

. "$here/lib/until.sh" || return

# What is over goes, at folders and documents, and in the list of whoever asked. What isn't, and
# what others have, stays.
for path in projects projects/bridge; do
  asked 'a folder' 201 alice POST "/folder/$path"
done
asked 'a document' 201 alice PUT '/doc/projects/plan%20%22a%22' x
bridge=(list:a A:fd:bob:rwaxtc A:fd:eve:rxtc "$(ends "$over" read u.eve alice)" A:d:dan:wa
  A:fd:dan:rxtc "$(ends "$yesterday" add u.dan alice)"
  'A:fd:OFFICE\fay:rxtc' "$(ends "$today" read 'u.OFFICE\fay' alice)" A::eve:x A:fdg:eve:rxtc
  A:fdg:staff:rxtc "$(ends "$over" read g.staff alice)" A:fi:OWNER@:d)
sets alice /projects/bridge "${bridge[@]}"
sets alice /projects list:a A::eve:x A::bob:xt "$(ends "$over" pass u.eve alice)" \
  "$(ends "$later" pass u.bob alice)"
sets alice '/projects/plan%20%22a%22' list:a A::bob@x.example:rwaxtc \
  "$(ends "$over" change u.bob+40x.example alice)"
dumps
curl -s --unix-socket "$sock" -H 'Room-User: alice' http://localhost/dacl/projects/bridge >before
room_verb until --dry-run
says 'what would be done' 0 \
  "would take back: /projects/bridge: read of eve, until $over, asked by alice"
list_is 'is not done' alice /projects/bridge $(cat before)
room_verb until
says 'a person' 0 "taken back: /projects/bridge: read of eve, until $over, asked by alice"
says 'two entries' 0 "taken back: /projects/bridge: add of dan, until $yesterday, asked by alice"
says 'a group' 0 \
  "taken back: /projects/bridge: read of the group staff, until $over, asked by alice"
says 'the way there' 0 "taken back: /projects: pass of eve, until $over, asked by alice"
says 'a document' 0 "change of bob@x.example, until $over, asked by alice"
after=(list:a A:fd:bob:rwaxtc "$(ended read u.eve alice)" "$(ended add u.dan alice)"
  'A:fd:OFFICE\fay:rxtc' "$(ends "$today" read 'u.OFFICE\fay' alice)" A::eve:x A:fdg:eve:rxtc
  "$(ended read g.staff alice)" A:fi:OWNER@:d "${top[@]}")
list_is 'those entries and no others' alice /projects/bridge "${after[@]}"
list_is 'what is not over stays' alice /projects list:a A::bob:xt "$(ended pass u.eve alice)" \
  "$(ends "$later" pass u.bob alice)" "${top[@]}"
list_is 'of the document too' alice '/projects/plan%20%22a%22' list:a \
  "$(ended change u.bob+40x.example alice)" "A:I:alice:$ALL"
asked 'eve may not read any more' 403 eve GET /folder/projects/bridge
asked 'bob may' 200 bob GET /folder/projects/bridge
dumps
room_verb until
ended_well 'nothing is left to do'
list_is 'so nothing is done' alice /projects/bridge "${after[@]}"
holds 'a date is no user of the room' [ "$("$rooms" review look/F / | grep -cE 'until|ended')" = 0 ]

# Somebody has changed it: by hand, to another level, to another date, or the object has gone.
changed=(list:a A:fd:eve:rwaxtc "$(ends "$over" read u.eve alice)" A:fd:bob:rxtc
  "$(ends "$over" read u.bob alice)")
sets alice /projects/bridge "${changed[@]}"
dumps
room_verb until
says 'another level' 1 "not taken back: /projects/bridge: read of eve, until $over, asked by alice: the entries of eve aren't those of 'read' any more"
list_is 'stays, and others go' alice /projects/bridge list:a A:fd:eve:rwaxtc \
  "$(ends "$over" read u.eve alice)" "$(ended read u.bob alice)" "${top[@]}"
sets alice /projects/bridge list:a A:fd:bob:rxtc "$(ends "$over" read u.eve alice)"
dumps
room_verb until
ended_well 'what somebody has taken away'
list_is 'has no date any more' alice /projects/bridge list:a A:fd:bob:rxtc "${top[@]}"
over_now=(list:a A:fd:eve:rxtc "$(ends "$over" read u.eve alice)")
sets alice /projects/bridge "${over_now[@]}"
dumps
sets alice /projects/bridge list:a A:fd:eve:rxtc "$(ends "$later" read u.eve alice)"
room_verb until
ended_well 'a date that was put off after the night'
list_is 'counts' alice /projects/bridge list:a A:fd:eve:rxtc "$(ends "$later" read u.eve alice)" \
  "${top[@]}"
# Last night's lists decide nothing.
sets alice /projects/bridge "${over_now[@]}"
room_verb until --dry-run
says 'a date of today' 0 'would take back: /projects/bridge: read of eve'
room_verb until
says 'is taken back at once' 0 'taken back: /projects/bridge: read of eve'
sets alice /projects/bridge "${over_now[@]}"
dumps
asked 'a move' 204 alice POST /move/projects/bridge '{"to":"/projects/tunnel"}'
room_verb until
says 'what was moved after the night' 0 "taken back: /projects/tunnel: read of eve"
list_is 'has none of it' alice /projects/tunnel list:a "$(ended read u.eve alice)" "${top[@]}"
unit_runs 'the server runs after it'
leaves_socket
holds 'nothing is left' [ -z "$(ls run)" ]
