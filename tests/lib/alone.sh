#!/usr/bin/env bash
# Plays a part by part.sh, as prove asks for it; where the machine lets it (ROOMS_APART), with
# processes, mounts and a network of its own. Whatever ends it, a kill too, ends all of its
# processes, and nothing of its mounts stays.
here=$(dirname "$0")
if [ "$ROOMS_APART" = yes ] && [ $$ != 1 ]; then
  exec unshare --mount --net --pid --fork --kill-child --mount-proc bash "$0" "$1"
fi
# What others leave in these folders is looked for there, by the number of a process that is gone.
own_folders() {
  local own=$ROOMS_TESTS/tmp/${1//\//-} below=${ROOMS_TESTS#/var/tmp/}
  ip link set lo up && mount -t tmpfs none /run && mount -t tmpfs none /dev/shm || return
  mkdir -p "$own" && chmod 1777 "$own" /dev/shm || return
  # The folder of the run may lie in the one that is hidden.
  if [ "$below" != "$ROOMS_TESTS" ]; then
    mkdir -p "$own/$below" && mount --bind "$ROOMS_TESTS" "$own/$below" || return
  fi
  mount --rbind "$own" /var/tmp
}
if [ $$ = 1 ]; then
  own_folders "$1" || { echo "$1: no folders of its own" >&2; exit 1; }
fi
# Not in the place of this shell, which buries what loses its parent.
timeout 7200 bash "$here/part.sh" "$1" </dev/null
exit
