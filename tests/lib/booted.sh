# A machine of its own with the package in it, booted by systemd-nspawn without a way out: its
# folder is a copy of ROOMS_DEBIAN, or made anew, as that of machine.sh. `$machine` is its folder,
# `$first` its first process.

can_boot() { # NAME OF WHAT IS SKIPPED
  if [ "$(id -u)" != 0 ] || ! has systemd-nspawn || ! has nsenter || ! has dpkg-deb; then
    skip "$1" 'no root, or no systemd-nspawn, nsenter, dpkg-deb'
    return 1
  fi
}
# The folder, with the package at /root/rooms.deb, booted.
boot_machine() { # NAME OF WHAT IS SKIPPED
  machine=$PWD/machine
  can_boot "$1" && copy_machine "$1" || return
  if ! "$repo/tools/package" --program "$rooms" >said 2>&1 </dev/null; then
    fail 'the package' "$(tail -n 1 said)"
    return 1
  fi
  cp rooms_*.deb "$machine/root/rooms.deb"
  rm -f "$machine/usr/sbin/policy-rc.d"
  boot && return
  skip "$1" "it doesn't boot here: $(tail -n 1 booted | head -c 200)"
  stop_machine
  return 1
}

# More words for systemd-nspawn, such as for users of its own. Its first process then can't write to
# this machine's groups of processes, and has some of its own.
boot_words=()
own_groups() {
  echo "/sys/fs/cgroup/"{,systemd/,unified/}"${ROOMS_TESTS##*/}-$ROOMS_NUMBER"
}
enter_groups() {
  local one
  for one in $(own_groups); do
    [ ! -e "${one%/*}/cgroup.procs" ] ||
      { mkdir -p "$one" && echo "$BASHPID" >"$one/cgroup.procs"; } 2>/dev/null
  done
}
leave_groups() { find $(own_groups) -depth -type d -exec rmdir {} + 2>/dev/null; }

# Boots it, and waits until its systemd says that all is started.
boot() {
  local began=$SECONDS
  (
    [ "${#boot_words[@]}" = 0 ] || enter_groups
    exec systemd-nspawn --quiet --register=no --keep-unit --private-network --directory="$machine" \
      ${boot_words[@]+"${boot_words[@]}"} --boot
  ) >booted 2>&1 </dev/null &
  proxy=$!
  first=
  while kill -0 "$proxy" 2>/dev/null && [ $((SECONDS - began)) -lt "$patience" ]; do
    read -r first _ 2>/dev/null <"/proc/$proxy/task/$proxy/children"
    if [ -n "$first" ]; then
      inside 'systemctl is-system-running'
      case $(cat "$work/out") in running | degraded) return ;; esac
    fi
    sleep 0.2
  done
  return 1
}
inside() { # TEXT
  nsenter -t "$first" --all /usr/bin/env \
    -i HOME=/root LC_ALL=C.UTF-8 DEBIAN_FRONTEND=noninteractive \
    PATH=/usr/local/sbin:/usr/local/bin:/usr/sbin:/usr/bin:/sbin:/bin \
    timeout "$patience" bash -c "cd /root && $1" </dev/null >"$work/out" 2>"$work/err"
  status=$?
}
stop_machine() {
  local began=$SECONDS
  [ -n "$proxy" ] || return 0
  kill "$proxy" 2>/dev/null
  until ! kill -0 "$proxy" 2>/dev/null || [ $((SECONDS - began)) -ge 30 ]; do sleep 0.1; done
  kill -9 "$proxy" ${first:+"$first"} 2>/dev/null
  wait "$proxy" 2>/dev/null
  proxy=
}
shows() { # NAME UNIT PROPERTY VALUE: soon
  local began=$SECONDS got
  while :; do
    inside "systemctl show $2 -p $3 --value"
    got=$(cat "$work/out")
    [ "$got" != "$4" ] && [ $((SECONDS - began)) -lt "$patience" ] || break
    sleep 0.2
  done
  holds "$1: $3 of $2 is $4, and not $got" [ "$got" = "$4" ]
}
until_inside() { # NAME TEXT: it succeeds soon
  local began=$SECONDS
  until inside "$2"; [ "$status" = 0 ] || [ $((SECONDS - began)) -ge "$patience" ]; do
    sleep 0.2
  done
  holds "$1" [ "$status" = 0 ]
}

ends() { # NAME UNIT: with what it does after its run
  until_inside "$1 ends" "systemctl show $2 -p ActiveState --value | grep -qx -e inactive -e failed"
}

# That no process of a unit sees into another one, each of which may have what the other may not.
sees_no_other() { # UNIT SOCKET
  local folder=$machine/etc/systemd/system/$1@.service.d
  rm -rf "$folder"
  mkdir -p "$folder"
  cp "$here/machine/beside.py" "$machine/usr/local/lib/"
  printf '%s\n' '[Service]' ExecStart= 'ExecStart=/usr/bin/python3 -I /usr/local/lib/beside.py' \
    >"$folder/beside.conf"
  does "two of $1" "systemctl daemon-reload; python3 -I /usr/local/lib/beside.py $2
    systemctl stop '$1@*'"
  cp "$work/out" did
  rm -r "$folder"
  does 'as it was' 'systemctl daemon-reload'
  echo looks >wanted
  same "one of $1 sees nothing of another one" did wanted
}
