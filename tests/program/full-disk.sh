# A disk that is full while a room is served: documents are read, no change is made and none is
# lost, and each way out of messages.md leads out.

if [ "$loopback" = no ] || ! has curl; then
  skip 'a full disk under a server' 'no loopback, or no curl'
  return
fi
if [ "$(id -u)" != 0 ] || ! mkdir small ||
  ! mount -t tmpfs -o size=16m rooms-small small 2>said; then
  skip 'a full disk under a server' 'no root, or no mount'
  return
fi

asked() { # NAME STATUS METHOD PATH [FILE]
  local got
  got=$(curl -s -o reply -m "$patience" -X "$3" -H 'Room-User: root' ${5+--data-binary "@$5"} \
    -w '%{http_code}' "http://127.0.0.1:$port$4")
  holds "$1: $got" [ "$got" = "$2" ]
}
# Nothing else fits on the disk.
fill() { cat /dev/zero >small/backup 2>/dev/null; }
room_left() { df -P -k small | awk 'NR == 2 { print $4 }'; }
# The block of the page, without what stops and starts the server.
verified() {
  local block
  block=$(awk '/^```/ { inside = !inside; next } inside && /rooms verify/' \
    "$here/../docs/messages.md" | sort -u)
  holds 'the page has the block' [ "$block" = \
    'runuser --pty -u rooms -- rooms verify /var/lib/rooms/office.rooms </dev/null' ]
  gives 'it is sound' 0 'sound\n' '' verify small/F
}

gives 'a room' 0 'ready\n' '' init small/F root staff
head -c 500000 /dev/urandom >document
printf 'small' >note
start_server small/F 1000 || return
for number in 1 2 3 4 5 6; do asked "document $number" 201 PUT "/doc/$number" document; done
asked 'a note' 201 PUT /doc/note note
fill
holds 'the disk is full' [ "$(room_left)" = 0 ]
# What fits into the pages of the log that are used again may be done; at last nothing does.
tries=0
until [ "$tries" = 40 ] ||
  [ "$(curl -s -o /dev/null -m "$patience" -X PUT -H 'Room-User: root' --data-binary @document \
    -w '%{http_code}' "http://127.0.0.1:$port/doc/more.$tries")" = 500 ]; do
  tries=$((tries + 1))
done
asked 'a document that has no place' 500 PUT /doc/more document
asked 'it is not there' 404 GET /doc/more
asked 'a removal' 500 DELETE /object/1
asked 'what it would have removed' 200 GET /doc/1
same 'is whole' reply document
asked 'a list' 200 GET /dacl/

# The oldest backup goes.
rm small/backup
asked 'a removal, once there is room' 204 DELETE /object/1
asked 'and a document' 201 PUT /doc/7 document
stop_server
verified

# A large log is cut short by the program itself, as soon as there is some room.
start_server small/F 1000 || return
for number in 2 3 4 5 6 7; do asked "document $number again" 204 PUT "/doc/$number" document; done
# What takes another one's place needs no more room in the file. This one does, and so the log stays
# as long as the disk is full.
asked 'one that is new' 201 PUT /doc/8 document
fill
asked 'a full disk again' 500 PUT /doc/more document
stop_server
log=$(stat -c %s small/F-wal)
verified
truncate -s -3500000 small/backup
left=$(room_left)
verified
holds "the log had $log bytes, and is short" [ "$(stat -c %s small/F-wal)" -lt 4096 ]
holds "$left KB were free, and more are now" [ "$(room_left)" -gt "$left" ]
start_server small/F 1000 || return
asked 'a removal then' 204 DELETE /object/2
for number in 3 4 5 6 7; do
  asked "document $number is there" 200 GET "/doc/$number"
  same 'as it was' reply document
done
asked 'the note too' 200 GET /doc/note
same 'is whole' reply note
stop_server
verified
umount small
