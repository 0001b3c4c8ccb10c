# A server of the program, and messages to it over real sockets.

# Below the ports that systems hand out by themselves.
port=$((10000 + RANDOM % 20000))
place=

# Whether this shell opens sockets, and there is a loopback: port 1 then takes or refuses a
# connection.
has_loopback() {
  local why
  why=$( (exec 3<>/dev/tcp/127.0.0.1/1) 2>&1) || [[ $why = *refused* ]]
}

# Starts a server for COUNT connections, and waits until it listens.
start_server() { # FILE COUNT
  local tries
  if [ "$loopback" = no ]; then
    skip "server on $1" 'this machine has no loopback'
    return 1
  fi
  for tries in {1..50}; do
    port=$((port + 1))
    # The line of an earlier server has to go.
    : >"$work/server.out"
    "$rooms" serve "$1" --port "$port" --count "$2" \
      </dev/null >"$work/server.out" 2>"$work/server.err" &
    server=$!
    place=127.0.0.1:$port
    if await_line; then return 0; fi
    wait "$server"
    server=
    # The port may be another program's.
    grep -q '^fault: net$' "$work/server.err" || break
  done
  fail "server on $1" "it doesn't listen: $(cat "$work/server.err")"
  return 1
}

# The same on a socket in the file system.
start_at_socket() { # FILE PATH COUNT
  : >"$work/server.out"
  "$rooms" serve "$1" --socket "$2" --count "$3" \
    </dev/null >"$work/server.out" 2>"$work/server.err" &
  server=$!
  place=$2
  if await_line; then return 0; fi
  wait "$server"
  server=
  fail "server at $2" "it doesn't listen: $(cat "$work/server.err")"
  return 1
}

# Waits until the server has printed its line, or has ended.
await_line() {
  local began=$SECONDS
  while [ $((SECONDS - began)) -lt "$patience" ]; do
    [ -s "$work/server.out" ] && return 0
    # It may have ended right after its line.
    kill -0 "$server" 2>/dev/null || { [ -s "$work/server.out" ]; return; }
    sleep 0.01
  done
  return 1
}

# The server ends by itself, having printed its line and nothing else on standard output.
server_ends() { # NAME STATUS ERR
  local wanted=$2
  printf '%b' "$3" >"$work/want.err"
  printf 'listening %s\n' "$place" >"$work/want.out"
  wait_for "$server" || { fail "$1" "it doesn't end"; stop_server; return; }
  wait "$server"
  status=$?
  server=
  if [ "$status" != "$wanted" ]; then
    fail "$1" "status $status, wanted $wanted: $(cat "$work/server.err")"
  elif ! cmp -s "$work/server.out" "$work/want.out"; then
    same "$1 (standard output)" "$work/server.out" "$work/want.out"
  else
    same "$1 (standard error)" "$work/server.err" "$work/want.err"
  fi
}

# Waits for a process to end.
wait_for() { # PROCESS
  local began=$SECONDS
  while [ $((SECONDS - began)) -lt "$patience" ]; do
    kill -0 "$1" 2>/dev/null || return 0
    sleep 0.02
  done
  return 1
}

stop_server() {
  if [ -n "$server" ]; then
    kill -9 "$server" 2>/dev/null
    wait "$server" 2>/dev/null
    server=
  fi
}

stop_proxy() {
  if [ -n "$proxy" ]; then
    kill "$proxy" 2>/dev/null
    wait "$proxy" 2>/dev/null
    proxy=
  fi
}

# The bytes of $work/sent go out on a connection of their own, and what comes back until the server
# closes is in $work/reply.
exchange() {
  if [[ $place = /* ]]; then
    timeout "$patience" python3 -IBc 'import shutil, socket, sys, threading
with socket.socket(socket.AF_UNIX) as at:
    at.connect(sys.argv[1])
    back = threading.Thread(target=shutil.copyfileobj,
                            args=(at.makefile("rb"), sys.stdout.buffer))
    back.start()
    at.sendall(sys.stdin.buffer.read())
    back.join()' "$place" <"$work/sent" >"$work/reply"
    return
  fi
  exec 3<>"/dev/tcp/127.0.0.1/$port" || { : >"$work/reply"; return 1; }
  cat "$work/sent" >&3
  timeout "$patience" cat <&3 >"$work/reply"
  exec 3>&- 3<&-
}

# Sends what was written, and reads the answers meanwhile, so that neither side waits for the other;
# $work/statuses then has a line for each answer.
converse() {
  last_message GET '/can/?' - >>"$work/sent"
  : >"$work/statuses"
  exec 3<>"/dev/tcp/127.0.0.1/$port" || return 1
  timeout "$patience" cat <&3 >"$work/reply" &
  cat "$work/sent" >&3
  wait $!
  exec 3>&- 3<&-
  grep -ao 'HTTP/1\.1 [0-9]*' "$work/reply" | cut -d' ' -f2 | sed '$d' >"$work/statuses"
}

# One message with an optional user and body. '-' is no user.
message() { # METHOD TARGET USER [BODY [FIELD ..]]
  local method=$1 target=$2 user=$3 body=${4-} field
  shift 3
  [ $# -gt 0 ] && shift
  printf '%s %s HTTP/1.1\r\n' "$method" "$target"
  [ "$user" = - ] || printf 'Room-User: %s\r\n' "$user"
  for field in "$@"; do printf '%s\r\n' "$field"; done
  [ -z "$body" ] || printf 'Content-Length: %s\r\n' "${#body}"
  printf '\r\n%s' "$body"
}

# As `message`, for the last message of its connection.
last_message() { # METHOD TARGET USER [BODY [FIELD ..]]
  local method=$1 target=$2 user=$3 body=${4-}
  shift 3
  [ $# -gt 0 ] && shift
  message "$method" "$target" "$user" "$body" 'Connection: close' "$@"
}

# A reply with a body, which is the last one of its connection unless it says 'goes-on'.
reply() { # 'STATUS REASON' TYPE BODY [goes-on]
  printf 'HTTP/1.1 %s\r\nContent-Type: %s\r\nContent-Length: %s\r\n' "$1" "$2" "${#3}"
  closing "${4-}"
  printf '\r\n%s' "$3"
}

json() { reply "$1" application/json "$2" "${3-}"; } # 'STATUS REASON' BODY [goes-on]
closing() { [ "${1-}" = goes-on ] || printf 'Connection: close\r\n'; }
made() { # [goes-on]
  printf 'HTTP/1.1 201 Created\r\nContent-Length: 0\r\n'
  closing "${1-}"
  printf '\r\n'
}
done_reply() { # [goes-on]
  printf 'HTTP/1.1 204 No Content\r\n'
  closing "${1-}"
  printf '\r\n'
}
no_method() { # METHODS [goes-on]
  printf 'HTTP/1.1 405 Method Not Allowed\r\nAllow: %s\r\nContent-Length: 0\r\n' "$1"
  closing "${2-}"
  printf '\r\n'
}

denied() { # PATH BITS ENTRY TEXT [goes-on]; ENTRY and TEXT as JSON
  json '403 Forbidden' "{\"at\":\"$1\",\"bits\":\"$2\",\"entry\":$3,\"text\":$4}" "${5-}"
}

# One message on a connection of its own gets this reply.
asks() { # NAME REPLY-COMMAND MESSAGE-ARGUMENT ..
  local name=$1 wanted=$2
  shift 2
  last_message "$@" >"$work/sent"
  exchange
  eval "$wanted" >"$work/want.reply"
  same "$name" "$work/reply" "$work/want.reply"
}
