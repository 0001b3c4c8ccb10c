# Stand-ins with which rooms-admin is tried: a systemctl that starts and stops a server of the
# program as a process, and tools whose calls are counted, so that a script can be killed at each of
# them.

stand=

# In the current folder: office/F is the room. It belongs to another user where the machine allows
# that.
make_stand() {
  stand=$PWD/stand
  mkdir -p "$stand/bin" run office
  mkdir -m 700 backups backups/conf
  echo 0 >"$stand/count"
  : >"$stand/pid"
  echo "$port" >"$stand/port"
  printf '%s\n' "FILE=$PWD/office/F" "BACKUPS=$PWD/backups" KEEP=0 MAIL=root UNIT=rooms \
    "PROGRAM=$stand/bin/rooms" >conf
  write_step >"$stand/step"
  write_systemctl >"$stand/bin/systemctl"
  write_tool >"$stand/bin/tool"
  chmod 755 "$stand/bin/systemctl" "$stand/bin/tool"
  local tool
  for tool in rooms setpriv cat sync mkdir mv rm rmdir touch chmod tar mail logger sleep; do
    ln -s tool "$stand/bin/$tool"
  done
  export STAND=$stand STAND_ROOMS=$rooms STAND_FILE=$PWD/office/F ROOMS_RUN=$PWD/run
  # What the machine has beside its rooms is looked for here.
  mkdir -p root/etc/rooms
  echo 'TITLE=office' >root/etc/rooms/office.conf
  export ROOMS_ROOT=$PWD/root
  give_office
}

# Another user has the folder if it can run the program here.
give_office() {
  STAND_USER=$(id -u)
  export STAND_USER
  [ "$(id -u)" = 0 ] || return
  chmod 755 "$work" . "$stand"
  chmod -R a+rX "$stand"
  setpriv --reuid=65534 --regid=65534 --clear-groups "$rooms" --version </dev/null >/dev/null 2>&1
  [ $? = 2 ] || return
  STAND_USER=65534
  chown 65534:65534 office
  chmod 700 office
}

as_user() {
  if [ "$STAND_USER" = "$(id -u)" ]; then
    "$@"
  else
    setpriv --reuid=65534 --regid=65534 --clear-groups "$@"
  fi
}

# At the given call the script under test gets a signal, and this tool too, as all processes of a
# unit do.
write_step() {
  cat <<'STEP'
step() {
  local number target
  # What runs as another user was counted as setpriv.
  [ -O "$STAND/count" ] || return 0
  read -r number <"$STAND/count"
  number=$((number + 1))
  echo "$number" >"$STAND/count"
  echo "$number $1" >>"$STAND/steps"
  [ "$number" = "${KILL_AT:-0}" ] || return 0
  echo "$1" >"$STAND/hit"
  read -r target <"$STAND/script"
  kill -s "$KILL_HOW" "$target"
  kill -s "$KILL_HOW" $$
}
STEP
}

# STAND/socket names the socket at which a server listens, in the place of a port. STAND/no-start
# makes a start fail, STAND/no-answer a server that never gets so far as to listen, STAND/no-tool a
# tool of that name, and STAND/no-word the program at that subcommand, after a part of its output.
# What is in STAND/at-TOOL is done once, before that tool does anything.
write_tool() {
  cat <<'TOOL'
#!/usr/bin/env bash
. "$STAND/step"
name=${0##*/}
step "$name $*"
if [ -e "$STAND/at-$name" ]; then
  mv "$STAND/at-$name" "$STAND/hook"
  (PATH=${PATH#*:} && . "$STAND/hook") </dev/null >"$STAND/hooked" 2>&1
fi
if [ -e "$STAND/no-tool" ] && [ "$name" = "$(<"$STAND/no-tool")" ]; then exit 1; fi
case $name in
  sleep) ;;
  mail | logger)
    { echo "$name $*"; [ "$name" = logger ] || PATH=${PATH#*:} cat; } >>"$STAND/messages"
    ;;
  rooms)
    if [ -e "$STAND/no-word" ] && [ "$1" = "$(<"$STAND/no-word")" ]; then echo a part; exit 3; fi
    exec "$STAND_ROOMS" "$@"
    ;;
  *) exec "$(PATH=${PATH#*:} command -v "$name")" "$@" ;;
esac
TOOL
}

write_systemctl() {
  cat <<'SYSTEMCTL'
#!/usr/bin/env bash
. "$STAND/step"
step "systemctl $*"
PATH=${PATH#*:}
read -r pid <"$STAND/pid"
# One that has ended may go while it is looked at.
alive() { [ -n "$pid" ] && grep -q ') [^ZX] ' "/proc/$pid/stat" 2>/dev/null; }
serve() {
  if [ -e "$STAND/no-answer" ]; then
    setsid sleep 600 </dev/null >/dev/null 2>&1 &
    pid=$!
    echo "$pid" >"$STAND/pid"
    : >"$STAND/err"
    return
  fi
  read -r port <"$STAND/port"
  echo "$((port += 1))" >"$STAND/port"
  : >"$STAND/out"
  user=(setpriv "--reuid=$STAND_USER" "--regid=$STAND_USER" --clear-groups)
  [ "$STAND_USER" != "$(id -u)" ] || user=()
  place=(--port "$port")
  if [ -e "$STAND/socket" ]; then
    place=(--socket "$(<"$STAND/socket")")
    rm -f "${place[1]}"
  fi
  setsid env -u CUT "${user[@]}" "$STAND_ROOMS" serve "$STAND_FILE" "${place[@]}" --count 1000000 \
    </dev/null >"$STAND/out" 2>"$STAND/err" &
  pid=$!
  echo "$pid" >"$STAND/pid"
  until grep -q '^listening ' "$STAND/out" || ! alive; do sleep 0.02; done
}
case $1 in
  is-active)
    if alive; then echo active; exit 0; fi
    # What was started and has ended is started over and over.
    if [ -e "$STAND/started" ]; then echo activating; else echo inactive; fi
    exit 3
    ;;
  show)
    if [ "$3" = MainPID ]; then
      if alive; then echo "$pid"; else echo 0; fi
    fi
    ;;
  stop)
    rm -f "$STAND/started"
    if alive; then kill -KILL "$pid"; fi
    while alive; do sleep 0.02; done
    ;;
  start)
    [ ! -e "$STAND/no-start" ] || exit 1
    : >"$STAND/started"
    for turn in {1..50}; do
      alive || serve
      # The port may be another program's.
      grep -q '^fault: net$' "$STAND/err" || break
    done
    ;;
esac
SYSTEMCTL
}

# The server listens at its unit's socket, as each room's does, from its next start on.
listens_at_socket() {
  sock=$PWD/run/rooms/rooms/socket
  mkdir -p "${sock%/*}"
  chown "$STAND_USER" "${sock%/*}"
  echo "$sock" >"$stand/socket"
}
# Asks there. (A case may use the name of the place itself.)
asks_there() { # NAME REPLY-COMMAND MESSAGE-ARGUMENT ..
  local place=$sock
  asks "$@"
}

unit() { PATH=$stand/bin:$PATH KILL_AT=0 systemctl "$@" rooms; }

stop_unit() { if [ -n "$stand" ] && [ -s "$stand/pid" ]; then unit stop; fi; }

# A verb of rooms-admin with the stand-ins; its status is in $status, and its output in $work/out
# and $work/err. KILL_AT and KILL_HOW name the call at which it is interrupted. Its standard input
# is the file $typed, if that is set.
verb() { # VERB WORD ..
  echo 0 >"$stand/count"
  : >"$stand/steps"
  : >"$stand/messages"
  # shellcheck disable=SC2016
  { PATH=$stand/bin:$PATH bash -c 'echo $$ >"$STAND/script"; exec "$@"' script \
    /usr/bin/python3 -I "$here/admin/hooked.py" "$@" <"${typed-/dev/null}" \
    >"$work/out" 2>"$work/err"; } 2>/dev/null
  status=$?
}

# Runs a command that is cut off at its call of that number, and puts how and where into 'name'. The
# status is 1 if it made no such call.
cut_off() { # HOW NUMBER COMMAND ..
  rm -f "$stand/hit"
  export KILL_HOW=$1 KILL_AT=$2
  "${@:3}"
  unset KILL_AT
  [ -e "$stand/hit" ] || return
  name="$1 at $2, $(cat "$stand/hit")"
  name=${name//$PWD\//}
}

# The status of the last script, and a text that is in its output.
says() { # NAME STATUS TEXT
  if [ "$status" != "$2" ]; then
    fail "$1" "status $status, wanted $2: $(head -c 400 "$work/out" "$work/err")"
  elif ! cat "$work/out" "$work/err" | grep -qF -e "$3"; then
    fail "$1" "no '$3' in: $(head -c 400 "$work/out" "$work/err")"
  else
    pass "$1"
  fi
}

unit_runs() { # NAME
  if [ "$(unit is-active)" = active ]; then
    pass "$1"
  else
    fail "$1" "no server runs: $(cat "$stand/err")"
  fi
}
unit_rests() { # NAME
  if [ "$(unit is-active)" = inactive ]; then pass "$1"; else fail "$1" 'a server runs'; fi
}
