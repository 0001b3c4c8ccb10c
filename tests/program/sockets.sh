# What the program's own lines between `serve` and the system do: the address that is bound, replies
# of any length at both kinds of place, each to who asked, and connections that are lost before or
# after they are served. No contract says what a socket does.

open_room F
head -c 1048576 /dev/urandom >large

# Of a port, 127.0.0.1 alone is bound: no other address of this machine, and none of IPv6.
if start_server F 1; then
  hex=$(printf '%04X' "$port")
  bound=$(cat /proc/net/tcp /proc/net/tcp6 2>/dev/null | awk -v port=":$hex" \
    '$4 == "0A" && substr($2, length($2) - 4) == port { print $2 }')
  holds "one address is bound: $bound" [ "$bound" = "0100007F:$hex" ]
  others=$(hostname -I 2>/dev/null | tr ' ' '\n' | grep -v : | head -3)
  for address in $others; do
    if (exec 3<>"/dev/tcp/$address/$port") 2>/dev/null; then
      fail 'another address' "$address takes a connection"
    fi
  done
  stop_server
fi

# The largest document goes in and comes out as it is, at a port and at a socket. Two clients who
# are connected at once get their own replies.
asks_large() { # NAME ARGUMENT ..
  local name=$1
  shift
  wants_curl "$name: it goes in" '204' "$@" -X PUT -H Expect: --data-binary @large http://room/doc/f
  wants_curl "$name: it comes out" '200' "$@" http://room/doc/f
  same "$name: as it was" got large
}
wants_curl() { # NAME STATUS ARGUMENT ..
  local status
  status=$(curl -s --max-time "$patience" -o got -w '%{http_code}' -H 'Room-User: root' "${@:3}")
  holds "$1: $status" [ "$status" = "$2" ]
}
if has curl; then
  printf old >old
  if start_server F 3; then
    wants_curl 'a document' 201 --connect-to "room:80:127.0.0.1:$port" -X PUT --data-binary @old \
      http://room/doc/f
    asks_large 'a port' --connect-to "room:80:127.0.0.1:$port"
    server_ends 'the server ends at its port' 0 ''
  fi
  if start_at_socket F s 2; then
    asks_large 'a socket' --unix-socket s
    server_ends 'the server ends at its socket' 0 ''
  fi
else
  skip 'large documents' 'no curl'
fi

# Who is connected first is served first, whoever waits behind.
if start_server F 2; then
  if exec 3<>"/dev/tcp/127.0.0.1/$port" 4<>"/dev/tcp/127.0.0.1/$port"; then
    last_message GET /nope - >&4
    last_message GET '/can/?' root >&3
    timeout "$patience" cat <&3 >"$work/reply"
    timeout "$patience" cat <&4 >got
    exec 3>&- 3<&- 4>&- 4<&-
    json '200 OK' '{}' >"$work/want.reply"
    same 'the first client' "$work/reply" "$work/want.reply"
    json '404 Not Found' '{"why":"no-route"}' >"$work/want.reply"
    same 'the second client' got "$work/want.reply"
  fi
  server_ends 'the server ends after both' 0 ''
fi

# A client that keeps its side open after the last reply holds nobody for long.
if start_server F 2; then
  if exec 4<>"/dev/tcp/127.0.0.1/$port"; then
    last_message GET '/can/?' root >&4
    began=$SECONDS
    asks 'the next client' "json '200 OK' '{}'" GET '/can/?' root
    holds 'soon' [ $((SECONDS - began)) -lt 5 ]
    exec 4>&- 4<&-
  fi
  server_ends 'the server ends' 0 ''
fi

# A connection that is aborted before it is accepted counts as one that was lost, and the next one
# is served. A listener that can accept no more ends the server.
accepts='accept,accept4'
if has strace && strace -f -qq -o /dev/null -e trace=$accepts \
  -e inject=$accepts:error=EMFILE:when=1 true 2>/dev/null; then
  program=$rooms
  failing() { # ERROR WHEN
    cat >failing <<END
#!/bin/sh
exec strace -D -qq -o /dev/null -e trace=$accepts -e inject=$accepts:error=$1:when=$2 \\
  "$program" "\$@"
END
    chmod 755 failing
    rooms=$PWD/failing
  }
  for error in ECONNABORTED ENETUNREACH; do
    failing $error 1
    if start_server F 2; then
      asks "after $error" "json '200 OK' '{}'" GET '/can/?' root
      server_ends "the server ends after $error" 0 'connection 1: read fault\n'
    fi
    failing $error 1
    if start_at_socket F s 2; then
      has curl && wants_curl "$error at a socket" 200 --unix-socket s 'http://room/can/?'
      server_ends "the server ends at its socket after $error" 0 'connection 1: read fault\n'
    fi
    rm -f s
  done
  failing EMFILE 2
  if start_server F 3; then
    asks 'before EMFILE' "json '200 OK' '{}'" GET '/can/?' root
    server_ends 'the server ends by EMFILE' 3 'fault: net\n'
  fi
  rooms=$program
else
  skip 'aborted connections' 'strace is missing or not allowed'
fi
gives 'sound after all of them' 0 'sound\n' '' verify F
