# Each call on the disk in turn: the program is killed right after it, or the call fails. strace
# does both.

calls=pwrite64,fdatasync,fsync,ftruncate
at_call() { # NUMBER HOW COMMAND ..: the status is that of the program, or 137
  local number=$1 how=$2
  shift 2
  { strace -f -qq -o /dev/null -e "trace=$calls" -e "inject=$calls:$how:when=$number" \
    "$rooms" "$@" <"$input" >"$work/out" 2>"$work/err"; } 2>/dev/null
  status=$?
}
if ! has strace ||
  ! strace -f -qq -o /dev/null -e trace=$calls -e inject=$calls:error=EIO:when=1 true 2>/dev/null
then
  skip 'each call on the disk' 'strace is missing or not allowed'
  return
fi

new_room B
printf 'group,user\na,one\n' >first.csv
{ echo group,user; seq -f 'b,user%05.0f' 300; } >second.csv
gives 'first members' 0 'groups 1, members 1\n' '' groups B first.csv
for how in signal=KILL error=EIO error=ENOSPC; do
  for number in {1..60}; do
    cp B F
    cp B-wal F-wal
    at_call "$number" "$how" groups F second.csv
    ended=$status
    cp "$work/out" answered
    name="groups, $how at call $number"
    case $ended in
      0) wants "$name" 0 'groups 1, members 300\n' '' ;;
      137) pass ;;
      *) wants "$name" 3 '' 'fault: database\n' ;;
    esac
    run groups-out F
    # What was answered is there; else it is there whole, or not at all. A disk that fails in the
    # commit may leave either.
    if [ -s answered ]; then
      wants_file "$name: there" 0 second.csv
    else
      one_of "$name" first.csv second.csv
    fi
    gives "$name: sound" 0 'sound\n' '' verify F
    [ "$ended" = 0 ] && break
  done
  holds "$how: the calls came to an end" [ "$ended" = 0 ]
done

for how in signal=KILL error=EIO error=ENOSPC; do
  for number in {1..60}; do
    rm -f I I-wal
    at_call "$number" "$how" init I root staff
    ended=$status
    name="init, $how at call $number"
    case $ended in
      0) wants "$name" 0 'ready\n' '' ;;
      137) cp "$work/out" answered ;;
      *)
        wants "$name" 3 '' 'fault: database\n'
        holds "$name: no file stays" is_missing I
        holds "$name: no log stays" is_missing I-wal
        ;;
    esac
    if [ "$ended" = 137 ]; then
      run dump I
      if [ -s answered ] || [ "$status" = 0 ]; then
        wants "$name: there" 0 "$EMPTY_ROOM" ''
      else
        wants "$name: not there" 2 'refused: not a rooms file\n' ''
      fi
    fi
    [ "$ended" = 0 ] && break
  done
done

# A list that is set, and a file that is upgraded: the file holds what was before or what was asked,
# whole.
restore() { # FROM
  cp "$1" F
  rm -f F-wal
  [ ! -e "$1-wal" ] || cp "$1-wal" F-wal
}
before_or_after() { # NAME TOLD FROM OLD NEW COMMAND ..: OLD and NEW are texts of `look`
  local what=$1 told=$2 from=$3 old=$4 new=$5
  shift 5
  for how in signal=KILL error=EIO error=ENOSPC; do
    for number in {1..60}; do
      restore "$from"
      at_call "$number" "$how" "$@"
      ended=$status
      name="$what, $how at call $number"
      answered=no
      [ ! -s "$work/out" ] || answered=yes
      case $ended in
        0) wants "$name" 0 "$told" '' ;;
        137) pass ;;
        *) wants "$name" 3 '' 'fault: database\n' ;;
      esac
      look
      if [ "$answered" = yes ]; then
        wants_file "$name: there" 0 "$new"
      else
        one_of "$name" "$old" "$new"
      fi
      [ "$ended" = 0 ] && break
    done
    holds "$what, $how: the calls came to an end" [ "$ended" = 0 ]
  done
}

look() { input=/dev/null run dump F; }
take "rejoined.1.db" R
gives 'a room of three folders' 0 'migrated\n' '' migrate R
restore R
look
cp "$work/out" old
set_list F / dacl list:a "A:fd:alice:$ALL"
look
cp "$work/out" new
from_lines list:a "A:fd:alice:$ALL"
before_or_after reset 'done\n' R old new reset F / dacl
input=/dev/null

look() { # what can be told of both schemas
  run dump F
  [ "$status" = 0 ] || run verify F
  status=0
}
take "rejoined.1.db" O
printf 'refused: schema 1 is old\n' >old
before_or_after migrate 'migrated\n' O old "$data/rejoined.dump" migrate F

# A request: the server reports the fault in its reply, or is killed before there is one.
look() { run dump F; }
# A server one of whose calls meets the fault HOW, asked by ASK: its status is in 'ended'.
serve_faulty() { # CALLS HOW NUMBER ASK [WORD ..]
  local tries
  for tries in {1..50}; do
    port=$((port + 1))
    : >"$work/server.out"
    { strace -f -qq -o /dev/null -e "trace=$1" -e "inject=$1:$2:when=$3" \
      "$rooms" serve F --port "$port" "${@:5}" \
      </dev/null >"$work/server.out" 2>"$work/server.err"; } 2>/dev/null &
    server=$!
    "$4"
    wait_for "$server" || fail 'a traced server' "it doesn't end"
    wait "$server" 2>/dev/null
    ended=$?
    server=
    grep -q '^fault: net$' "$work/server.err" || return
  done
}
put_one() {
  : >"$work/reply"
  await_line || return
  last_message PUT /doc/f root hello >"$work/sent"
  exchange 2>/dev/null
}
serve_once() { # NUMBER HOW: the reply to a document that is put, and the server's status
  serve_faulty "$calls" "$2" "$1" put_one
}
if [ "$loopback" = yes ]; then
  open_room S
  restore S
  look
  cp "$work/out" old
  calls_of_all=$calls
  start_server F 1 && {
    asks 'a document' made PUT /doc/f root hello
    server_ends 'it ends' 0 ''
  }
  look
  cp "$work/out" new
  made >replied
  json '500 Internal Server Error' '{"why":"store"}' >failed
  for how in signal=KILL error=EIO error=ENOSPC; do
    for number in {1..40}; do
      restore S
      serve_once "$number" "$how"
      name="a request, $how at call $number"
      if cmp -s "$work/reply" replied; then
        look
        wants_file "$name: there" 0 new
        # Nothing was left to fail or to kill.
        [ "$ended" != 0 ] || [ -s "$work/server.err" ] || break
      elif [ ! -s "$work/reply" ] || cmp -s "$work/reply" failed; then
        look
        one_of "$name" old new
      else
        same "$name: reply" "$work/reply" failed
      fi
      gives "$name: sound" 0 'sound\n' '' verify F
    done
    holds "a request, $how: the calls came to an end" [ "$number" -lt 40 ]
  done

  # A sync that fails shuts the connection to the file. The server ends after the request that met
  # it, and whoever starts it again finds all that it answered.
  syncs=fdatasync,fsync
  put_four() {
    local document
    answered=()
    await_line || return
    for document in a b c d; do
      last_message PUT "/doc/$document" root hello >"$work/sent"
      exchange 2>/dev/null
      cmp -s "$work/reply" replied || break
      answered+=("$document")
    done
  }
  serve_four() { # NUMBER HOW: how many of four documents were answered, and the server's status
    serve_faulty "$syncs" "$2" "$1" put_four --count 4
  }
  printf 'fault: database\n' >shut
  for how in error=EIO error=ENOSPC; do
    met=0
    for number in {1..20}; do
      restore S
      serve_four "$number" "$how"
      [ "$ended" != 0 ] || break
      name="sync $number, $how"
      holds "$name: the status is 3" [ "$ended" = 3 ]
      same "$name: standard error" "$work/server.err" shut
      if [ -s "$work/server.out" ]; then
        met=$((met + 1))
        same "$name: the last reply" "$work/reply" failed
      fi
      gives "$name: sound" 0 'sound\n' '' verify F
      if start_server F $((${#answered[@]} + 1)); then
        for document in "${answered[@]}"; do
          asks "$name: $document is there" "reply '200 OK' application/octet-stream hello" \
            GET "/doc/$document" root
        done
        asks "$name: it is served again" "json '200 OK' '{}'" GET '/can/?' root
        server_ends "$name: it ends" 0 ''
      fi
    done
    # At least one sync for each of the four commits.
    holds "$how: each commit met it" [ "$met" -ge 4 ]
    holds "$how: and then all is answered" [ "${#answered[@]}" = 4 ]
  done
else
  skip 'a request at each call on the disk' 'this machine has no loopback'
fi

# Reads that fail change nothing.
calls=pread64,read
restore R
rm -f F-wal
before=$(cksum <F)
run dump F
cp "$work/out" whole
for number in {1..300}; do
  restore R
  at_call "$number" error=EIO dump F
  [ "$status" = 0 ] && break
  holds "a read that fails, call $number: nothing is told" [ ! -s "$work/out" ]
  holds "a read that fails, call $number: nothing is changed" [ "$(cksum <F)" = "$before" ]
done
wants_file 'reads came to an end' 0 whole
