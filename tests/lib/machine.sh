# A machine of its own, a copy of the folder $machine that debootstrap has made: its processes, what
# runs there, and stand-ins for what it lacks.

# The program's version and the name of its package, where that can be made.
can_package() { # NAME OF WHAT IS SKIPPED
  if ! has dpkg-deb || ! has gzip || ! has md5sum || ! has sha256sum; then
    skip "$1" 'dpkg-deb, gzip, md5sum or sha256sum is missing'
    return 1
  fi
  version=$("$rooms" --version 2>&1 </dev/null | sed 's/^rooms //')
  package=rooms_${version}_amd64.deb
}
# Copies the folder ROOMS_DEBIAN to $machine; tests/run makes it, if it isn't there.
copy_machine() { # NAME OF WHAT IS SKIPPED
  local folder=$ROOMS_DEBIAN
  until [ -d "$folder" ] || [ -e "$ROOMS_TESTS/no-debian" ]; do sleep 1; done
  [ -d "$folder" ] || { skip "$1" "debootstrap fails: $(<"$ROOMS_TESTS/no-debian")"; return 1; }
  cp -a "$folder" "$machine" || { skip "$1" "$folder can't be copied"; return 1; }
  # There is no network from which what is only recommended could be brought.
  mkdir -p "$machine/etc/apt/apt.conf.d"
  echo 'APT::Install-Recommends "false";' >"$machine/etc/apt/apt.conf.d/90recommends"
}
# The folder, without what runs in it. It is started, if the machine allows that.
make_machine() { # NAME OF WHAT IS SKIPPED [FOLDER]
  local file
  if [ "$(id -u)" != 0 ] || ! has unshare || ! has nsenter || ! has chroot || ! has ip; then
    skip "$1" 'no root, or no unshare, nsenter, chroot, ip'
    return 1
  fi
  machine=$PWD/${2:-machine}
  copy_machine "$1" || return 1
  for file in usr/sbin/nginx usr/bin/htpasswd usr/bin/openssl usr/bin/curl usr/bin/python3 \
    usr/bin/systemctl; do
    [ -x "$machine/$file" ] || { skip "$1" "/$file isn't in it"; return 1; }
  done
  start_machine || { skip "$1" "no network of its own: $(head -c 200 said)"; return 1; }
}

# Gives it processes and a network of its own, without a way out. All of its processes end with the
# first of them, which ends with the case.
start_machine() {
  local spawned turn
  unshare --net --mount --pid --fork bash -c '
    trap "exit 0" TERM
    for turn in {1..3600}; do sleep 1 & wait $!; done' &
  spawned=$!
  first=
  for turn in {1..100}; do
    read -r first _ 2>/dev/null <"/proc/$spawned/task/$spawned/children"
    [ -z "$first" ] || break
    sleep 0.05
  done
  proxy=$first
  nsenter -t "${first:-0}" -n ip link set lo up 2>said
}
# Whoever asks for a password gets 'typed'.
inside() { # TEXT
  nsenter -t "$first" -n -m -p chroot "$machine" /usr/bin/env -i HOME=/root LC_ALL=C.UTF-8 \
    DEBIAN_FRONTEND=noninteractive \
    PATH=/usr/local/sbin:/usr/local/bin:/usr/sbin:/usr/bin:/sbin:/bin \
    timeout "$patience" bash -c "cd /root && $1" <<<typed >"$work/out" 2>"$work/err"
  status=$?
}
does() { # NAME TEXT: with status 0
  inside "$2"
  if [ "$status" = 0 ]; then pass "$1"; return; fi
  fail "$1" "status $status: $(tail -c 600 "$work/out" "$work/err")"
}
prints() { # NAME LINE ..: the last command wrote just this
  local name=$1
  shift
  printf '%s\n' "$@" >wanted
  same "$name" "$work/out" wanted
}
# The fenced block of a page that has a text in it; a package has a name, and a password that is
# asked for is given.
block() { # PAGE TEXT
  awk -v text="$2" '
    /^```/ { if (inside && found) printf "%s", kept; inside = !inside; found = 0; kept = ""; next }
    inside { kept = kept $0 "\n"; if (index($0, text)) found = 1 }' "$top/$1" |
    sed -e 's/^apt-get update && //' -e "s/rooms_VERSION/rooms_${3-${version-}}/" \
      -e 's/^rooms-admin user add [^|<]*$/& <<<typed/'
}

# In place of systemd: it starts what the units name, with their settings, as their users.
write_systemd() {
  cat <<'END'
#!/usr/bin/env bash
unit() { # NAME: its file, which for an instance is that of the template
  local name=$1
  [[ $name != *@* ]] || name=${name%%@*}@
  for folder in /etc/systemd/system /usr/lib/systemd/system /lib/systemd/system; do
    if [ -e "$folder/$name.service" ]; then echo "$folder/$name.service"; return; fi
  done
}
alive() { [ -s "/run/$1.pid" ] && kill -0 "$(cat "/run/$1.pid")" 2>/dev/null; } # NAME
command_of() { # NAME: what the unit starts, with its instance and its settings
  local line file
  line=$(sed -n '/^ExecStart=/{:a; /\\$/{N; s/\\\n *//; ba}; s/^ExecStart=//p}' "$(unit "$1")")
  file=$(sed -n 's/^EnvironmentFile=//p' "$(unit "$1")")
  line=${line//%i/${1#*@}}
  file=${file//%i/${1#*@}}
  echo "${line//\$\$/\$}"
}
start() { # NAME
  alive "$1" && return
  [ -n "$(unit "$1")" ] || { echo "Unit $1.service not found." >&2; return 5; }
  : >"/run/$1.line"
  settings=$(sed -n 's/^EnvironmentFile=//p' "$(unit "$1")")
  settings=${settings//%i/${1#*@}}
  mapfile -t settings < <(grep '^FILE=' "$settings")
  for one in "${settings[@]}"; do export "$one"; done
  rm -rf "/run/rooms/${1#*@}" "/run/rooms-server/${1#*@}"
  install -d -o rooms -g rooms -m 710 "/run/rooms/${1#*@}" "/run/rooms-server/${1#*@}"
  eval "set -- \"$1\" $(command_of "$1")"
  env "${settings[@]}" setpriv --reuid=rooms --regid=rooms --clear-groups "${@:2}" \
    >"/run/$1.line" 2>"/run/$1.fault" </dev/null &
  echo $! >"/run/$1.pid"
  for turn in {1..500}; do
    [ ! -s "/run/$1.line" ] || break
    alive "$1" || return 1
    sleep 0.02
  done
  line=$(sed -n 's/^ExecStartPost=+//p' "$(unit "$1")")
  env "${settings[@]}" MAINPID="$(cat "/run/$1.pid")" ${line//%i/${1#*@}} || return
  port start "${1#*@}"
}
port() { # start|stop ROOM: what listens at its port, if it has one
  local line
  [ ! -s "/run/port.$2" ] || kill "$(cat "/run/port.$2")" 2>/dev/null
  while [ -s "/run/port.$2" ] && kill -0 "$(cat "/run/port.$2")" 2>/dev/null; do sleep 0.02; done
  rm -f "/run/port.$2"
  line=$(sed -n 's/^ListenStream=127.0.0.1://p' \
    "/etc/systemd/system/rooms-port@$2.socket.d/port.conf" 2>/dev/null)
  [ "$1" = start ] && [ -n "$line" ] || return 0
  ROOM=$2 python3 -c 'import os, socket, sys
at = socket.create_server(("127.0.0.1", int(sys.argv[1])))
os.dup2(at.fileno(), 3)
os.set_inheritable(3, True)
os.environ["LISTEN_FDS"] = "1"
os.execv(sys.argv[2], [sys.argv[2], "port"])' "$line" \
    "$(ls /usr/{,local/}lib/rooms/rooms-service 2>/dev/null)" >/dev/null 2>&1 </dev/null &
  echo $! >"/run/port.$2"
  for turn in {1..500}; do
    ! (exec 3<>"/dev/tcp/127.0.0.1/$line") 2>/dev/null || break
    sleep 0.02
  done
}
stop() { # NAME
  port stop "${1#*@}"
  ! alive "$1" || kill -9 "$(cat "/run/$1.pid")"
  while alive "$1"; do sleep 0.02; done
  rm -rf "/run/rooms/${1#*@}" "/run/rooms-server/${1#*@}"
}
all() { # NAME: it, or those that run
  if [ "$1" = 'rooms@*' ]; then
    for pid in /run/rooms@*.pid; do
      pid=${pid##*/}
      ! alive "${pid%.pid}" || echo "${pid%.pid}"
    done
  else
    echo "$1"
  fi
}
# What a package enables when it is installed.
[ "$1" != --root=/ ] || exec /usr/bin/systemctl "$@"
verb=$1
shift
if [ "$verb" = show ] && [ "$3" = --value ]; then # -p PROPERTY --value UNIT
  case $2 in
    MainPID) if alive "$4"; then cat "/run/$4.pid"; else echo 0; fi ;;
    MemoryMax) echo 1073741824 ;;
  esac
  exit
fi
now=no
units=()
for word in "$@"; do
  case $word in
    --now) now=yes ;;
    -*) ;;
    *) units+=("${word%.service}") ;;
  esac
done
[ "$verb" != --system ] || { verb=$1; units=("${units[@]:1}"); }
case $verb in
  daemon-reload | reset-failed) exit ;;
  is-failed) echo inactive && exit 1 ;;
  list-units) # --all .. 'rooms*.service': those that run; nothing begins here by itself
    if [[ $* = *--all*service* ]]; then
      for pid in /run/rooms*.pid; do
        pid=${pid##*/}
        ! alive "${pid%.pid}" || echo "${pid%.pid}.service loaded active running of rooms"
      done
    fi
    exit
    ;;
  show) printf '%s\n' MemoryCurrent=0 MemoryMax=0; exit ;;
  reload | reload-or-restart | try-reload-or-restart)
    [ "${units[*]}" = nginx ] || { echo "no such unit: ${units[*]}" >&2; exit 1; }
    [ -s /run/nginx.pid ] || exec nginx
    before=$(cat "/proc/$(cat /run/nginx.pid)"/task/*/children)
    nginx -s reload
    for worker in $before; do while kill -0 "$worker" 2>/dev/null; do sleep 0.02; done; done
    exit
    ;;
  enable | disable)
    /usr/bin/systemctl --root=/ -q "$verb" \
      $(printf '%s\n' "${units[@]}" | sed '/\./!s/$/.service/') || exit
    [ "$now" = yes ] || exit 0
    if [ "$verb" = enable ]; then verb=start; else verb=stop; fi
    ;;
esac
for name in "${units[@]}"; do
  case $verb:$name in
    is-active:*.timer)
      [ -L "/etc/systemd/system/timers.target.wants/$name" ] || { echo inactive; exit 3; }
      # A timer whose file is gone.
      [ -e "/etc/systemd/system/timers.target.wants/$name" ] || { echo failed; exit 3; }
      echo active
      ;;
    # (No door runs here.)
    is-active:rooms-connections | is-active:rooms-door@*) echo active ;;
    is-active:*) if alive "$name"; then echo active; else echo inactive; exit 3; fi ;;
    start:rooms-port@*.socket | restart:rooms-port@*.socket)
      name=${name#*@}
      port start "${name%.socket}"
      ;;
    stop:rooms-port@*.socket)
      name=${name#*@}
      port stop "${name%.socket}"
      ;;
    *:*.timer | *:*.socket) ;;
    *:rooms-full@* | *:rooms-firewall | *:rooms-connections) ;;
    start:rooms-nightly* | start:rooms-directory*) $(command_of "$name") || exit ;;
    stop:rooms-nightly* | stop:rooms-directory*) ;;
    stop:rooms-passwords | stop:rooms-session) ! alive "$name" || kill "$(cat "/run/$name.pid")" ;;
    try-restart:rooms-passwords) ! alive "$name" || "$0" restart "$name" ;;
    start:rooms-passwords | restart:rooms-passwords | start:rooms-session)
      "$0" stop "$name"
      while alive "$name"; do sleep 0.02; done
      mkdir -p /run/rooms-directory /run/rooms-session
      $(command_of "$name") >"/run/$name.fault" 2>&1 </dev/null &
      echo $! >"/run/$name.pid"
      ;;
    try-restart:rooms@*) ! alive "$name" || { stop "$name" && start "$name"; } || exit ;;
    restart:nftables) nft -f /etc/nftables.conf || exit ;;
    start:rooms | start:rooms@*) start "$name" || exit ;;
    stop:rooms | stop:rooms@*) stop "$name" ;;
    restart:rooms | restart:rooms@*)
      for one in $(all "$name"); do stop "$one" && start "$one" || exit; done
      ;;
    *) echo "no such words: $verb $*" >&2; exit 1 ;;
  esac
done
END
}

furnish_machine() {
  write_systemd >"$machine/usr/local/bin/systemctl"
  # A password that is asked for is typed twice.
  printf '%s\n' '#!/bin/sh' '[ "$1" = -B ] || exec /usr/bin/htpasswd "$@"' \
    'exec /usr/bin/htpasswd -bB "$2" "$3" typed' >"$machine/usr/local/bin/htpasswd"
  printf '#!/bin/sh\nexit 101\n' >"$machine/usr/sbin/policy-rc.d"
  # There is no way out.
  printf '%s\n' 'Dpkg::Use-Pty "0";' 'quiet "2";' 'APT::Sandbox::User "root";' \
    'DPkg::Path "/usr/local/sbin:/usr/local/bin:/usr/sbin:/usr/bin:/sbin:/bin";' \
    >"$machine/etc/apt/apt.conf.d/99rooms"
  chmod 755 "$machine"/usr/local/bin/{systemctl,htpasswd} "$machine/usr/sbin/policy-rc.d"
  mkdir -p "$machine/run/systemd/system" "$machine/root"
  nsenter -t "$first" -m -p mount -t proc proc "$machine/proc"
  # Where 'runuser --pty' makes a terminal.
  mkdir -p "$machine/dev/pts"
  nsenter -t "$first" -m mount -t devpts -o newinstance,ptmxmode=0666 devpts "$machine/dev/pts"
  ln -sf pts/ptmx "$machine/dev/ptmx"
}
