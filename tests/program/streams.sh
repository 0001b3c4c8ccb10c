# Connections that are cut, reset, half closed or slow, documents of the greatest size, and what a
# server prints of them.

open_room F
M=$'PUT /doc/f HTTP/1.1\r\nRoom-User: root\r\nContent-Length: 5\r\n\r\nhello'
start_server F 9 || return

# 1: nothing at all.
exec 3<>"/dev/tcp/127.0.0.1/$port"
exec 3>&-
# 2: cut in mid-head. 3: cut in mid-body: the message is never acted on.
printf 'PUT /doc/cut HTT' >"/dev/tcp/127.0.0.1/$port"
printf 'PUT /doc/cut HTTP/1.1\r\nRoom-User: root\r\nContent-Length: 5\r\n\r\nhel' \
  >"/dev/tcp/127.0.0.1/$port"
asks 'what was cut is not there' "json '404 Not Found' '{\"at\":\"/cut\",\"why\":\"no-such\"}'" \
  GET /doc/cut root # 4

# 5: one byte at a time.
exec 3<>"/dev/tcp/127.0.0.1/$port"
text=$M$(last_message GET /doc/f root; echo .)
text=${text%.}
for ((at = 0; at < ${#text}; at++)); do printf '%s' "${text:at:1}" >&3; done
timeout "$patience" cat <&3 >"$work/reply"
exec 3>&-
{ made goes-on; reply '200 OK' application/octet-stream hello; } >"$work/want.reply"
same 'a byte at a time' "$work/reply" "$work/want.reply"

# 6: the greatest body. 7: it is read. 8: no byte can be added to it.
head -c 1048576 /dev/urandom >big
{
  printf 'PUT /doc/big HTTP/1.1\r\nRoom-User: root\r\nConnection: close\r\n'
  printf 'Content-Length: 1048576\r\n\r\n'
  cat big
} >"$work/sent"
exchange
made >"$work/want.reply"
same largest-body "$work/reply" "$work/want.reply"
last_message GET /doc/big root >"$work/sent"
exchange
{
  printf 'HTTP/1.1 200 OK\r\nContent-Type: application/octet-stream\r\n'
  printf 'Content-Length: 1048576\r\nConnection: close\r\n\r\n'
  cat big
} >"$work/want.reply"
same 'it is read' "$work/reply" "$work/want.reply"
asks 'nothing fits behind it' \
  "json '413 Payload Too Large' '{\"at\":\"/big\",\"why\":\"too-large\"}'" POST /doc/big root x
asks 'and it is still there' \
  "json '200 OK' '{\"group\":\"staff\",\"kind\":\"document\",\"owner\":\"root\"}'" \
  GET /attr/big root # 9
server_ends 'nothing is told of callers who break off in order' 0 ''
gives 'sound' 0 'sound\n' '' verify F

# A caller who has sent more than is served, and reads slowly, gets the whole of the last reply:
# what it sent behind that is read before its connection is closed. It is more than the server reads
# at once.
if start_server F 2; then
  {
    printf 'HTTP/1.1 200 OK\r\nContent-Type: application/octet-stream\r\n'
    printf 'Content-Length: 1048576\r\nConnection: close\r\n\r\n'
    cat big
  } >"$work/want.reply"
  for turn in 1 2; do
    { last_message GET /doc/big root; head -c 100000 /dev/zero | tr '\0' x; } >"$work/sent"
    exec 3<>"/dev/tcp/127.0.0.1/$port"
    cat "$work/sent" >&3
    : >"$work/reply"
    : >"$work/broken"
    before=
    until [ "$before" = "$(wc -c <"$work/reply")" ]; do
      before=$(wc -c <"$work/reply")
      timeout "$patience" head -c 65536 <&3 >>"$work/reply" 2>>"$work/broken"
      sleep 0.02
    done
    exec 3>&- 3<&-
    same "all of the last reply, to a caller who sent more ($turn)" "$work/reply" "$work/want.reply"
    same "its connection is not reset ($turn)" "$work/broken" /dev/null
  done
  server_ends 'nothing is told of what was sent behind the end' 0 ''
fi

# A caller who resets: the first connection has bytes that nobody reads when it is closed. They are
# more than the system buffers, so the server is writing.
if start_server F 2; then
  exec 3<>"/dev/tcp/127.0.0.1/$port"
  for turn in {1..200}; do message GET /doc/big root; done >&3
  head -c 1000 <&3 >/dev/null
  exec 3>&-
  asks 'the next caller is served' "reply '200 OK' application/octet-stream hello" GET /doc/f root
  server_ends 'a reset is told' 0 'connection 1: write fault\n'
fi

# A caller who closes its writing side, and reads on: `http-over-loopback`.
if has perl && perl -MIO::Socket::INET -e 1 2>/dev/null; then
  start_server F 1 && {
    printf '%s' "$M" >"$work/sent"
    perl -MIO::Socket::INET -e '
      my $s = IO::Socket::INET->new(PeerAddr => "127.0.0.1", PeerPort => shift) or die;
      local $/; my $sent = <STDIN>; print $s $sent; $s->flush; shutdown($s, 1); print scalar <$s>;
    ' "$port" <"$work/sent" >"$work/reply" 2>/dev/null
    done_reply goes-on >"$work/want.reply"
    same 'half closed' "$work/reply" "$work/want.reply"
    server_ends 'the server ends' 0 ''
  }

  # A caller who resets in the middle of a head: the server is reading.
  start_server F 2 && {
    perl -MIO::Socket::INET -MSocket -e '
      my $s = IO::Socket::INET->new(PeerAddr => "127.0.0.1", PeerPort => shift) or die;
      print $s "GET /doc/f HTT"; $s->flush; select(undef, undef, undef, 0.1);
      setsockopt($s, SOL_SOCKET, SO_LINGER, pack("ii", 1, 0)); close $s;
    ' "$port" 2>/dev/null
    asks 'the next caller is served' "reply '200 OK' application/octet-stream hello" GET /doc/f root
    server_ends 'a reset while it reads is told' 0 'connection 1: read fault\n'
  }
else
  skip 'half closed, and a reset while it reads' 'no perl'
fi

# A connection has at most 10,000 messages.
if start_server F 1; then
  for turn in {1..10000}; do printf 'GET /can/f? HTTP/1.1\r\n\r\n'; done >"$work/sent"
  exec 3<>"/dev/tcp/127.0.0.1/$port"
  cat "$work/sent" >&3 &
  sender=$!
  timeout "$patience" cat <&3 >"$work/reply"
  wait "$sender"
  exec 3>&-
  one=$(json '200 OK' '{}' goes-on; echo .)
  for turn in {1..9999}; do printf '%s' "${one%.}"; done >"$work/want.reply"
  json '200 OK' '{}' >>"$work/want.reply"
  same 'ten thousand messages' "$work/reply" "$work/want.reply"
  if wait_for "$server"; then
    wait "$server"
    holds 'the server ends after them' [ $? = 0 ]
    server=
  else
    fail 'the server ends after them' "it doesn't end"
    stop_server
  fi
fi
gives 'sound after all' 0 'sound\n' '' verify F
