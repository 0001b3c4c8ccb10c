# import and handover, cut off at each of their calls of the system.

. "$here/lib/cut-room.sh" || return

# Each time into a folder of its own, which is compared at the end.
import_it() {
  local one
  before() { words=(import --as root --room "$room" "$above/source" "/in/$how/$((into += 1))"); }
  again() {
    told "$1: the same command" 0 'left out 0'
    read -r _ made _ _ _ _ there _ <<<"$(tr -d , <"$work/out")"
    holds "$1: all of it is there, $made and $there" [ $((made + there)) -ge 2 ]
  }
  into=0 words=(import)
  at_each_call import 10
  admin export --no-lists --as root --room "$room" "/in/$how" got
  told 'what came in' 0 'left out 0'
  for ((one = 1; one <= into; one++)); do
    same_tree "import, $how, $one: the same tree" "got/$one" "$above/source"
  done
}

# To and fro: the lists say whose all was before.
hand_over() {
  local swap
  listed() { # OWNER
    printf '%s\n' 'folder owner staff /' "folder $1 staff /$how" "document $1 staff 4 /$how/b"
  }
  before() {
    listed "$giver" >lists
    words=(handover --new --as root --room "$room" lists "$giver" "$taker")
  }
  again() {
    local path given others
    told "$1: the same command" 0 'left out 0'
    read -r _ given _ _ _ _ others _ <<<"$(tr -d , <"$work/out")"
    holds "$1: all is given, $given and $others" [ "$((given + others))" = 2 ]
    for path in folder: document:/b; do
      asks "$1: $path belongs to $taker" \
        "json '200 OK' '{\"group\":\"staff\",\"kind\":\"${path%:*}\",\"owner\":\"$taker\"}'" \
        GET "/attr/$how${path#*:}" root
    done
    swap=$giver giver=$taker taker=$swap
  }
  giver=root taker=carol words=(handover)
  at_each_call handover 7
}

does_all() {
  import_it
  hand_over
}
both_signals
cksum backups/*/* >got
same 'the backup is as it was' got sums
asks 'the room answers' "json '200 OK' '{}'" GET '/can/?' -
