# The door of a room as somebody attacks it, over the program: what it says of random trees beside
# an evaluator of its own, conditional writes at once, kills in the middle of moves and copies, what
# users who work together can have it take, malformed requests through nginx and past it. Each
# script says in its head how it is played at length.

. "$here/lib/front.sh"
. "$here/lib/door.sh"
if ! has python3; then
  skip 'attacks on the door' 'python3 is missing'
  return
fi
plays() { # NAME SCRIPT ARGUMENT ..
  PATIENCE=$patience python3 -B "$here/services/$2" "${@:3}" >"$work/out" 2>&1
  status=$?
  echo "$1: $(tail -n 1 "$work/out")"
  holds "$1: $(tail -n 12 "$work/out")" [ "$status" = 0 ]
}
plays 'what is said of random trees' evaluated.py "$rooms" lab 7 2 120 240
plays 'conditional writes at once' at_once.py "$rooms" lab 1 1600 8
plays 'and with kills' at_once.py "$rooms" lab 2 800 8 kill
plays 'moves and copies that are cut off' cut_off.py "$rooms" lab 3 24
plays 'locks' locked.py "$rooms" lab 8
plays 'what is taken of memory' harm.py "$rooms" lab 1500 120

if [ -z "$nginx" ] || ! has curl || [ "$loopback" = no ]; then
  skip 'malformed requests' 'no loopback, or nginx or curl is missing'
  return
fi
open_room F
set_list F / dacl list:a D::alice:D "A:fd:root:$ALL" A:fd:alice:rwaxctdD
start_room F 1000000 || return
mkdir -p machine/etc/nginx
printf 'root:{PLAIN}r\nalice:{PLAIN}a\n' >rooms.htpasswd
admin setup
sets office DRIVE yes
start_front 'malformed requests' || return
start_door office --drive=yes
plays 'malformed requests' hostile.py "$front" alice:a "$PWD/run/rooms/office/socket" \
  "$PWD/run/door/office/socket"
holds 'the door has no fault' [ "$(grep -c Traceback office.err)" = 0 ]
stop_server
stop_proxy
gives 'the room is sound' 0 'sound\n' '' verify F
