# A room with a folder for each signal, TERM and KILL, and a backup of it, for verbs that are cut
# off at each of their calls of the system: the room is served, nothing of the run goes on, and the
# same command then completes, with the same outcome. Where that can't be, the status isn't 0.

if [ "$loopback" = no ] || [ ! -x /usr/bin/python3 ] || ! has setpriv; then
  skip 'verbs that are cut off' 'no loopback, or no python3 or setpriv'
  return 1
fi
. "$here/lib/cut.sh"
mkdir stand office
stand=$PWD/stand
give_office
mkdir source
echo two >source/b
open_room F
start_server F 1000000 || return
room=http://127.0.0.1:$port
for how in TERM KILL; do
  admin import --as root --room "$room" source "/$how"
  told 'documents' 0 'made 2, replaced 0, there already 0, left out 0'
  asks 'a list of its own' done_reply PUT "/dacl/$how/b" root $'list:p\nA::root:'"$ALL"
  mkdir "$how" "$how/wanted"
  admin export --as root --room "$room" "/$how" "$how/wanted/tree"
  told 'as they come out' 0 'folders 1, documents 1, left out 0'
done
stop_server
mkdir -p backups/2026-11-20.030000
cp F* backups/2026-11-20.030000/
printf '%s\n' "FILE=$PWD/office/F" "BACKUPS=$PWD/backups" "PROGRAM=$rooms" UNIT=rooms >conf
cksum backups/*/* >sums
start_server F 1000000 || return
room=http://127.0.0.1:$port

same_tree() { # NAME GOT WANTED
  diff -r "$2" "$3" >"$work/found" 2>&1
  same "$1" "$work/found" /dev/null
}
is_served() { asks "$1: the room is served" "json '200 OK' '{}'" GET '/can/?' -; } # NAME
