# setup, add and remove below a folder, cut off at each of their calls of the system: what the next
# run says to do then makes the same files, and leaves no other.

if [ ! -x /usr/bin/python3 ] || ! has setpriv || ! has flock; then
  skip 'an installation that is cut off' 'no python3, setpriv or flock'
  return
fi
. "$here/lib/cut.sh"
is_served() { :; }
mkdir TERM KILL
# The key of the check of passwords is another one each time.
files() {
  (cd "$1" && find . ! -type d ! -name passwords.key -exec cksum {} + &&
    find . -printf '%m %p %l\n') | sort
}
image() { # FOLDER: what is there before the verb, by other verbs
  rm -rf "$1"
  mkdir -p "$1"/etc/nginx/sites-{available,enabled}
  [ "$2" = setup ] || "$repo/admin/rooms-admin" setup --destdir "$PWD/$1" >"$work/out" </dev/null
  [ "$2" != remove ] ||
    "$repo/admin/rooms-admin" add --destdir "$PWD/$1" invoices >"$work/out" </dev/null
}
does_all() {
  before() { rm -rf image && cp -a "ready.$one" image; }
  again() {
    case $one.$status in
      add.2)
        told "$1: half a room" 2 'invoices.conf is there; rooms-admin remove invoices takes it away'
        admin remove --destdir "$PWD/image" invoices
        told "$1: goes" 0 ''
        admin "${words[@]}"
        ;;
      remove.2)
        told "$1: the room is gone" 2 'no room: '
        admin setup --destdir "$PWD/image"
        ;;
    esac
    told "$1: then it is done" 0 ''
    files image | diff - "wanted.$one" >got
    same "$1: the same files" got /dev/null
  }
  local one
  for one in setup add remove; do
    image "ready.$one" "$one"
    words=("$one" --destdir "$PWD/done.$one" invoices)
    [ "$one" != setup ] || words=("$one" --destdir "$PWD/done.$one")
    cp -a "ready.$one" "done.$one"
    admin "${words[@]}"
    told "$one below a folder" 0 'file /etc/nginx/sites-available/rooms'
    files "done.$one" >"wanted.$one"
    words=("${words[@]/done.$one/image}")
    at_each_call "$one" 10
  done
}

both_signals
