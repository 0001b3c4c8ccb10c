# A room's file that root removed while its server runs: what messages.md says puts it back, and a
# new server has all that was answered.

top=$here/..
version=none
. "$here/lib/machine.sh"
. "$here/lib/booted.sh"
. "$here/lib/pasted.sh"
docs=$top/docs
boot_machine 'a file that was removed' || return
does 'a room' 'dpkg -i rooms.deb
  runuser -u rooms -- rooms init /var/lib/rooms/office.rooms alice staff &&
  systemctl enable --now rooms@office'
ask='curl -s --unix-socket /run/rooms/office/socket -H Room-User:alice'
does 'a document' "head -c 900000 /dev/urandom >paper
  $ask -f -X PUT --data-binary @paper http://localhost/doc/paper"
does 'its file and its log are removed' 'rm /var/lib/rooms/office.rooms{,-wal}'
does 'the server goes on' "$ask -f -X PUT --data-binary @paper http://localhost/doc/later"

blocks messages.md 'kill -STOP' >putting
holds 'the page says what to do' [ -s putting ]
does 'they are put back' "$(cat putting)"
before=$(inside 'systemctl show -P MainPID rooms@office'; cat "$work/out")
does 'a new server takes them' "$(blocks messages.md 'systemctl kill -s KILL rooms@office')"
until_inside 'it answers' "[ \"\$(systemctl show -P MainPID rooms@office)\" != $before ] &&
  [ \"\$($ask -o /dev/null -w %{http_code} http://localhost/can/?)\" = 200 ]"
does 'what came before' "$ask http://localhost/doc/paper | cmp - paper"
does 'and what came after' "$ask http://localhost/doc/later | cmp - paper"
does 'it is sound' 'systemctl stop rooms@office &&
  runuser -u rooms -- rooms verify /var/lib/rooms/office.rooms'
stop_machine
