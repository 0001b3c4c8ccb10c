# A standby copy on another machine, as machines.md has it: by a stand-in of ssh, and by sshd where
# there is one. admin/standby has the room and its stand-ins.

remote=$(sed -n 's/^.*`STANDBY=\(root@[^`]*\)`.*/\1/p' "$here/../docs/machines.md")
holds 'the page names a place' [ "$remote" = root@b.example:/ ]
# What stands before the key there, by which it can do nothing else.
forced=$(tr '\n' ' ' <"$here/../docs/machines.md" | grep -o 'restrict,command="rrsync [^"]*"')
holds 'and what its key may do' \
  [ "$forced" = 'restrict,command="rrsync -wo /var/backups/rooms/standby"' ]
if ! has rrsync; then
  skip 'a standby copy on another machine' 'no rrsync'
  return
fi

# In place of ssh: what it would run there is run here, below the folder `elsewhere`. With STAND/cut
# the connection ends within the copy; with STAND/talks there is no end of what it says.
mkdir -p elsewhere/var/backups/rooms/standby
cat >"$stand/bin/ssh" <<END
#!/usr/bin/env bash
printf '%s\n' "\$*" >>'$PWD/ssh.asked'
while [ "\$1" != b.example ]; do shift; done
shift
[ ! -e '$stand/talks' ] || { yes talks | head -c 3000000 >&2; exit 1; }
run() {
  cd / && SSH_ORIGINAL_COMMAND="\$*" exec rrsync -wo '$PWD/elsewhere/var/backups/rooms/standby'
}
if [ -e '$stand/cut' ]; then head -c 100000 | run "\$@"; else run "\$@"; fi
END
chmod 755 "$stand/bin/ssh"
set_value STANDBY "$remote"
there=elsewhere/var/backups/rooms/standby
head -c 300000 /dev/urandom >large
put_large() { # NAME: more than the connection lets through once it is cut
  curl -q -s -o "$work/body" -X PUT -H 'Room-User: root' -H Expect: --unix-socket "$sock" \
    --data-binary @large "http://localhost/doc/$1"
}
put by-ssh
stands
holds 'it is brought by ssh' [ "$status" = 0 ]
holds 'to that user and machine, and nobody is asked' \
  grep -qE '^-o BatchMode=yes -o ConnectTimeout=10 -l root b\.example rsync --server ' ssh.asked
holds 'all of it' has_document "$there" by-ssh
put_large after-a-cut
: >"$stand/cut"
stands
says 'a connection that ends within it' 1 "$remote doesn't get the copy"
rm "$stand/cut"
holds 'leaves the last one there whole' \
  eval 'has_document "$there" by-ssh && [ "$("$rooms" verify look 2>&1)" = sound ]'
answers 'and the room is served'
stands
holds 'the next run brings all' eval '[ "$status" = 0 ] && has_document "$there" after-a-cut'
holds 'and leaves nothing else' [ "$(ls -A "$there")" = F ]
PATH=$stand/bin:$PATH rsync -e 'ssh -l root' root@b.example:/F read >"$work/out" 2>&1
holds 'whoever has the key reads nothing there' [ "$?" != 0 -a ! -e read ]
# One that somebody has taken over talks on and on.
: >"$stand/talks"
stands
says 'a machine that talks on' 1 "$remote doesn't get the copy"
holds "of which no more is told: $(wc -c <"$work/err")" [ "$(wc -c <"$work/err")" -lt 3000 ]
rm "$stand/talks" "$stand/bin/ssh"

# sshd itself, in a network of its own, where the machine b.example is this one.
sshd=$(PATH=$PATH:/usr/sbin command -v sshd)
if [ -z "$sshd" ] || ! has ssh || ! has ssh-keygen || ! has ip || [ "$(id -u)" != 0 ] ||
  ! unshare --mount --net true 2>/dev/null; then
  skip 'a standby copy by sshd' 'no root, unshare, ip, ssh or sshd'
  cp kept conf
  return
fi
mkdir -m 700 keys
for key in host mine; do ssh-keygen -q -t ed25519 -N '' -f "keys/$key"; done
printf '%s\n' '127.0.0.1 localhost b.example' >hosts
printf '%s\n' 'ListenAddress 127.0.0.1' "HostKey $PWD/keys/host" 'UsePAM no' 'PidFile none' \
  >sshd_config
# Root's own keys are those of this case there; /run is empty but for what sshd wants, and so is the
# other machine's folder.
unshare --mount --net bash -c 'trap "exit 0" TERM
  ip link set lo up && mkdir -p /root/.ssh /var/backups && mount --bind keys /root/.ssh &&
    mount --bind hosts /etc/hosts && mount -t tmpfs none /run && mkdir -p /run/sshd &&
    mount -t tmpfs none /var/backups && mkdir -p /var/backups/rooms/standby && : >ready
  while :; do sleep 1 & wait $!; done' >space.out 2>&1 &
space=$!
others+=("$space")
began=$SECONDS
until [ -e ready ] || ! kill -0 "$space" 2>/dev/null || [ $((SECONDS - began)) -ge "$patience" ]; do
  sleep 0.05
done
if [ ! -e ready ]; then
  skip 'a standby copy by sshd' "no place of its own: $(head -c 200 space.out)"
  cp kept conf
  return
fi
there() { nsenter -t "$space" -m -n "$@"; }
start_sshd() {
  local began=$SECONDS
  nsenter -t "$space" -m -n "$sshd" -D -e -f "$PWD/sshd_config" >>sshd.out 2>&1 &
  listener=$!
  others+=("$listener")
  until there bash -c ': <>/dev/tcp/127.0.0.1/22' 2>/dev/null ||
    ! kill -0 "$listener" 2>/dev/null || [ $((SECONDS - began)) -ge "$patience" ]; do
    sleep 0.1
  done
}
stands_there() {
  echo 0 >"$stand/count"
  PATH=$stand/bin:$PATH there "$repo/admin/rooms-admin" standby --room "$PWD/conf" \
    </dev/null >"$work/out" 2>"$work/err"
  status=$?
}
arrived() { # NAME
  there cat /var/backups/rooms/standby/F >sent/F && has_document sent "$1"
}
mkdir sent
cp keys/mine keys/id_ed25519
start_sshd
put by-sshd
stands_there
says 'a machine that is not known' 1 'Host key verification failed'
there ssh-keyscan -t ed25519 b.example >keys/known_hosts 2>said
stands_there
says 'a machine that does not know root' 1 'Permission denied'
echo "$forced $(<keys/mine.pub)" >keys/authorized_keys
stands_there
holds "it is brought by sshd: $(head -c 300 "$work/err")" [ "$status" = 0 ]
holds 'all of it is there' arrived by-sshd
holds 'as one file' [ "$(there ls -A /var/backups/rooms/standby)" = F ]
holds 'which nobody else may read' \
  [ "$(there stat -c '%U %a' /var/backups/rooms/standby/F)" = 'root 600' ]
put by-sshd-again
stands_there
holds 'and once more' arrived by-sshd-again
kill -STOP "$listener"
began=$SECONDS
put while-it-hangs
stands_there
says 'a machine that hangs' 1 "doesn't get the copy"
holds "for less than a minute: $((SECONDS - began)) s" [ $((SECONDS - began)) -lt 60 ]
kill -CONT "$listener"
kill "$listener"
wait "$listener" 2>/dev/null
stands_there
says 'a machine that is off' 1 "doesn't get the copy"
answers 'the room is served all the same'
holds 'its copy here is new' has_document backups/conf/standby while-it-hangs
start_sshd
stands_there
holds 'one that is back' arrived while-it-hangs
cp kept conf
