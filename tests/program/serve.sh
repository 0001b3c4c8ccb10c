# `serve`: a tour over real sockets, streams of every kind, and callers who break off.

open_room F

# One connection by default, and the server ends after it.
printf '%s' $'PUT /doc/f HTTP/1.1\r\nRoom-User: root\r\nContent-Length: 5\r\n\r\nhello' >one
if start_server F 1; then
  { cat one one; last_message GET /doc/f root; } >"$work/sent"
  exchange
  {
    made goes-on
    done_reply goes-on
    reply '200 OK' application/octet-stream hello
  } >"$work/want.reply"
  same 'two messages at once, and a third' "$work/reply" "$work/want.reply"
  server_ends 'the server ends after one' 0 ''
fi
gives 'the port of a server that ended is free' 0 'sound\n' '' verify F

# All routes, a connection each.
start_server F 52 || return
asks 'no folder yet' "json '404 Not Found' '{\"at\":\"/a\",\"why\":\"no-such\"}'" GET /folder/a root
asks 'a folder' made POST /folder/a root
asks 'it is there' "json '409 Conflict' '{\"at\":\"/a\",\"why\":\"exists\"}'" POST /folder/a root
asks 'a document' made PUT /doc/a/x root hello
asks 'it is replaced' done_reply PUT /doc/a/x root hi
asks 'bytes behind it' done_reply POST /doc/a/x root '!!'
asks 'it is read' "reply '200 OK' application/octet-stream 'hi!!'" GET /doc/a/x root
asks 'a document is no folder' "json '409 Conflict' '{\"at\":\"/a/x\",\"why\":\"wrong-kind\"}'" \
  GET /folder/a/x root
asks 'a listing' \
  "json '200 OK' '[{\"kind\":\"folder\",\"name\":\"a\"},{\"kind\":\"document\",\"name\":\"f\"}]'" \
  GET /folder/ root
asks 'an empty listing for nobody' "denied / r null null" GET /folder/ -
asks 'the list of the folder' "reply '200 OK' text/plain 'list:a
A:fdI:root:$ALL
'" GET /dacl/a root
asks 'a list is set' done_reply PUT /dacl/a root 'list:a
A:fd:alice:r
A::alice:xt
'
asks 'it passes down' "reply '200 OK' text/plain 'list:a
A:I:alice:r
A:I:root:$ALL
'" GET /dacl/a/x root
asks 'alice reads by it' "reply '200 OK' application/octet-stream 'hi!!'" GET /doc/a/x alice
asks 'bob does not pass' "denied /a x null null" GET /doc/a/x bob
asks 'what is behind is hidden' "denied /a x null null" GET /doc/a/zz bob
asks 'alice may not write' "denied /a/x w null null" PUT /doc/a/x alice no
asks 'a list with a fault' \
  "json '422 Unprocessable Entity' '{\"line\":1,\"why\":\"bad-list A6\"}'" PUT /dacl/a root A::a:r
asks 'an entry with a fault' \
  "json '422 Unprocessable Entity' '{\"at\":\"/a\",\"entry\":1,\"why\":\"bad-list A9\"}'" \
  PUT /dacl/a root 'list:
U:S:bob:r'
asks 'a list of records' done_reply PUT /sacl/a/x root 'list:a
U:F:EVERYONE@:r
L:S:AUTHENTICATED@:w
'
asks 'which is read' "reply '200 OK' text/plain 'list:a
U:F:EVERYONE@:r
L:S:AUTHENTICATED@:w
'" GET /sacl/a/x root
asks 'owners' "json '200 OK' '{\"group\":\"staff\",\"kind\":\"folder\",\"owner\":\"root\"}'" \
  GET /attr/a alice
asks 'owners are set' done_reply PUT /attr/a/x root '{"group":"sales","owner":"alice"}'
asks 'and read' "json '200 OK' '{\"group\":\"sales\",\"kind\":\"document\",\"owner\":\"alice\"}'" \
  GET /attr/a/x root
asks 'a body that is none' "json '400 Bad Request' '{\"why\":\"bad-body\"}'" \
  PUT /attr/a/x root '{"owner":"x"}'
asks 'rights' "json '200 OK' '{\"r\":\"allowed 1\",\"w\":\"silent\"}'" GET '/can/a?rw' alice
asks 'no rights asked' "json '200 OK' '{}'" GET '/can/a?' alice
asks 'a letter that is none' "json '400 Bad Request' '{\"why\":\"bad-target A4\"}'" \
  GET '/can/a?rq' alice
asks 'a move' done_reply POST /move/a/x root '{"to":"/y"}'
asks 'back' done_reply POST /move/y root '{"to":"/a/x"}'
asks 'a move into itself' "json '409 Conflict' '{\"at\":\"/a/b\",\"why\":\"loop\"}'" \
  POST /move/a root '{"to":"/a/b"}'
asks 'a move of the root' "json '409 Conflict' '{\"at\":\"/\",\"why\":\"root\"}'" \
  POST /move/ root '{"to":"/z"}'
asks 'a folder that is not empty' "json '409 Conflict' '{\"at\":\"/a\",\"why\":\"not-empty\"}'" \
  DELETE /object/a root
asks 'bob may not remove' "denied /a x null null" DELETE /object/a/x bob
asks 'a document has no folder in it' \
  "json '409 Conflict' '{\"at\":\"/f\",\"why\":\"not-folder\"}'" GET /doc/f/q root
asks 'no route' "json '404 Not Found' '{\"why\":\"no-route\"}'" GET /nope -
asks 'no such method' "no_method 'DELETE, GET, POST, PUT'" PATCH /doc/f root
asks 'not for this word' "no_method 'GET, POST, PUT'" DELETE /doc/f root
asks 'two users' "json '400 Bad Request' '{\"why\":\"bad-user\"}'" \
  GET /doc/f root '' 'Room-User: root'
asks 'no name' "json '400 Bad Request' '{\"why\":\"bad-user\"}'" GET /doc/f 'bad name'
asks 'dots' "json '400 Bad Request' '{\"why\":\"bad-target P1\"}'" GET /folder/%2e%2e root
asks 'a name in UTF-8' made PUT /doc/%C3%A9 root x
asks 'a listing of bytes' "json '200 OK' '[{\"kind\":\"folder\",\"name\":\"a\"},{\"kind\":\"document\",\"name\":\"f\"},{\"kind\":\"document\",\"name\":\"é\"}]'" GET /folder/ root
asks 'chunks' "json '501 Not Implemented' '{\"why\":\"transfer-coding\"}'" \
  GET /doc/f root '' 'Transfer-Encoding: chunked'
asks 'two lengths' "json '400 Bad Request' '{\"why\":\"bad-length\"}'" \
  GET /doc/f root '' 'Content-Length: 5, 5'
asks 'a length over the limit' "json '413 Payload Too Large' '{\"why\":\"too-large\"}'" \
  PUT /doc/f root '' 'Content-Length: 1048577'
asks 'many fields' "json '431 Request Header Fields Too Large' '{\"why\":\"too-many-fields\"}'" \
  GET /doc/f root '' $(printf 'X:%d ' {1..64})
asks 'removed' done_reply DELETE /object/%C3%A9 root
asks 'gone' "json '404 Not Found' '{\"at\":\"/é\",\"why\":\"no-such\"}'" GET /doc/%C3%A9 root

# A message of version 1.0 ends its connection. So does garbage, and no message after it is served.
printf 'GET /doc/f HTTP/1.0\r\nRoom-User: root\r\n\r\nGET /doc/f HTTP/1.0\r\n\r\n' >"$work/sent"
exchange
reply '200 OK' application/octet-stream hello >"$work/want.reply"
same 'version 1.0' "$work/reply" "$work/want.reply"
printf '\x00\x01\xff garbage\r\n\r\nGET /doc/f HTTP/1.1\r\n\r\n' >"$work/sent"
exchange
json '400 Bad Request' '{"why":"bad-head"}' >"$work/want.reply"
same 'garbage' "$work/reply" "$work/want.reply"
{ printf 'GET /doc/f HTTP/1.1\r\nX: '; head -c 16360 /dev/zero | tr '\0' x; } >"$work/sent"
exchange
json '431 Request Header Fields Too Large' '{"why":"too-many-fields"}' >"$work/want.reply"
same 'a head without an end' "$work/reply" "$work/want.reply"
server_ends 'the server ends after all of them' 0 ''

# A socket in the file system, in the place of a port. The path of one has at most 107 bytes.
at_socket() { # NAME PATH WANTED ARGUMENT ..
  local got
  got=$(curl -s --max-time "$patience" --unix-socket "$2" -H 'Room-User: root' \
    -w ' %{http_code}' "${@:4}" 2>&1)
  holds "$1: $got" [ "$got" = "$3" ]
}
long=$(printf 'x%.0s' {1..107})
if has curl; then
  for path in s './s t' "$long"; do
    start_at_socket F "$path" 3 || continue
    holds "a socket is made at $path" [ -S "$path" ]
    at_socket 'a change through a socket' "$path" ' 204' -X PUT -H Expect: \
      --data-binary socket http://room/doc/f
    at_socket 'a document through a socket' "$path" 'socket 200' http://room/doc/f
    at_socket 'two messages on a connection of a socket' "$path" 'socket 200socket 200' \
      http://room/doc/f http://room/doc/f
    server_ends "the server ends at $path" 0 ''
    holds "its socket is gone from $path" is_missing "$path"
  done

  # Whoever may write to its file reaches the room: those whom the umask leaves.
  mask_before=$(umask)
  for mask in 022 077; do
    umask "$mask"
    start_at_socket F s 1
    listens=$?
    umask "$mask_before"
    [ "$listens" = 0 ] || continue
    mode=$(stat -c %a s)
    holds "a socket under umask $mask has mode $mode" \
      [ "$mode" = "$(printf '%o' $((0777 & ~0$mask)))" ]
    at_socket "a socket under umask $mask" s 'socket 200' http://room/doc/f
    server_ends "the server ends under umask $mask" 0 ''
  done

  # However much is written, the log stays short while the server runs: it is copied into the file.
  head -c 1000000 /dev/zero >large
  open_room L
  if start_at_socket L s 2; then
    addresses=()
    for number in {1..40}; do addresses+=("http://room/doc/large-$number"); done
    got=$(curl -s --max-time 300 --unix-socket s -H 'Room-User: root' -H Expect: -X PUT \
      --data-binary @large -w '%{http_code}\n' "${addresses[@]}" 2>&1 | sort | uniq -c)
    holds "40 MB are written: $got" [ "${got// /}" = 40201 ]
    length=$(stat -c %s L-wal)
    holds "the log has $length bytes" [ "$length" -lt 8000000 ]
    holds "the log is in use, with $length bytes" [ "$length" -gt 100000 ]
    at_socket 'a look after 40 MB' s '{} 200' 'http://room/can/?'
    server_ends 'the server ends after 40 MB' 0 ''
  fi
  rm -f large L L-wal

  # What is there by the end isn't the server's.
  if start_at_socket F s 1; then
    mv s moved
    echo other >s
    at_socket 'a socket that was moved' moved 'socket 200' http://room/doc/f
    server_ends 'the server ends where its socket was moved' 0 ''
    holds 'the file in its place stays' [ "$(cat s)" = other ]
    rm s moved
  fi
else
  skip 'requests through a socket' 'no curl'
fi

# A path at which no socket can be made is a fault, and whatever is there stays.
cp F before
no_socket() { # NAME PATH
  gives "$1" 3 '' 'fault: net\n' serve F --socket "$2"
  same "$1: the room is as it was" F before
}
echo mine >taken
no_socket 'a file in the place of the socket' taken
holds 'the file stays' [ "$(cat taken)" = mine ]
mkdir folder
no_socket 'a folder in the place of the socket' folder
ln -s nowhere link
no_socket 'a link in the place of the socket' link
holds 'no link was followed' is_missing nowhere
no_socket 'a path of 108 bytes' "x$long"
no_socket 'a path of 300 bytes' "$long$long$long"
no_socket 'an empty path' ''
no_socket 'a missing folder' missing/s
no_socket 'below a document of the system' taken/s
if [ "$(id -u)" != 0 ]; then
  mkdir -m 555 closed
  no_socket 'a folder that may not be written' closed/s
  rmdir closed
elif has setpriv; then
  # Another user has a copy of the room, and a folder of root's.
  mkdir -m 755 closed theirs
  cp F theirs/F
  chown -R 65534:65534 theirs
  chmod a+x "$work" . 2>/dev/null
  setpriv --reuid=65534 --regid=65534 --clear-groups "$rooms" serve theirs/F --socket closed/s \
    </dev/null >"$work/out" 2>"$work/err"
  status=$?
  wants 'a folder that is not ours' 3 '' 'fault: net\n'
  holds 'nothing is made there' is_missing closed/s
else
  skip 'a folder that is not ours' 'root without setpriv'
fi

# A server that is killed leaves its socket, which the next one refuses until it is removed.
if start_at_socket F s 1; then
  stop_server
  holds 'the socket of a killed server stays' [ -S s ]
  no_socket 'the socket of a killed server' s
  holds 'it is not removed' [ -S s ]
  rm s
  start_at_socket F s 1 && stop_server
  rm -f s
fi
gives 'sound after the sockets' 0 'sound\n' '' verify F

# A path of `reset` that leads through a document.
from_lines list:
gives 'reset below a document' 2 'refused: N2 not-folder at /f\n' '' reset F /f/q dacl
gives 'reset far below a document' 2 'refused: N2 not-folder at /f\n' '' reset F /f/q/r sacl
input=/dev/null

# The records of the tour: alice's write was no event; bob's reads stopped above it.
run audit F
head -1 "$work/out" >head
printf 'at,user,path,bits,granted,entry,kind\n' >wanted
same 'header of the records' head wanted
gives 'sound after the tour' 0 'sound\n' '' verify F
