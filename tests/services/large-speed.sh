# How long a large document takes through nginx and the door. ROOMS_FIGURES=TABLE takes the figures
# that tools/speed puts into docs/speed.md; otherwise a small one comes, and it is only seen that
# each is answered.

. "$here/lib/front.sh"
. "$here/lib/door.sh"
if ! has python3 || [ -z "$nginx" ] || ! has curl || [ "$loopback" = no ]; then
  skip 'how long large documents take' 'no loopback, or python3, nginx or curl is missing'
  return
fi
open_room F
set_list F / dacl list:a "A:fd:alice:$ALL"
start_room F 1000000 || return
echo 'alice:{PLAIN}x' >rooms.htpasswd
admin setup
sets office DRIVE yes
start_front 'how long large documents take' || return
start_door office --drive=yes
declare -A least
rows=()
# The least of several times, in thousandths of a second.
timed() { # WHAT STATUS TARGET ARGUMENT ..
  local status took
  read -r status took < <(curl -s -o got -w '%{http_code} %{time_total}\n' -u alice:x "${@:4}" \
    "$base$3")
  holds "$1 of $size MB: $status" [ "$status" = "$2" ]
  took=$(awk "BEGIN { printf \"%.0f\", 1000 * $took }")
  [ -n "${least[$1]-}" ] || rows+=("$1")
  [ "$took" -ge "${least[$1 $size]:-1000000}" ] || least[$1 $size]=$took
  least[$1]=1
}
tag() { echo "\"$(sha256sum <"$1" | cut -c 1-32)\""; }
all_of() {
  timed 'a new one' 201 /door/doc/d -T first -H 'If-None-Match: *'
  timed 'another one in its place' 204 /door/doc/d -T second -H "If-Match: $(tag first)"
  timed 'reading it' 200 /door/doc/d
  holds 'which is the same' cmp -s got second
  timed '64 kB in its middle' 206 /door/doc/d -r 1000000-1065535
  timed 'saving it by WebDAV' 204 /drive/d -T first
  timed 'a move' 204 /door/move/d -d '{"to":"/e"}'
  timed 'removing it' 204 /door/object/e -X DELETE
}
sizes=(2) turns=1
[ -z "${ROOMS_FIGURES-}" ] || sizes=(20 80) turns=5
for size in "${sizes[@]}"; do
  head -c "${size}000000" /dev/urandom >first
  head -c "${size}000000" /dev/urandom >second
  for ((turn = 0; turn < turns; turn++)); do all_of; done
done
for what in "${rows[@]}"; do
  row=$what
  for size in "${sizes[@]}"; do row="$row | ${least[$what $size]} ms"; done
  echo "  $row"
  [ -z "${ROOMS_FIGURES-}" ] || echo "$row" >>"$ROOMS_FIGURES"
done
stop_server
gives 'the room is sound' 0 'sound\n' '' verify F
