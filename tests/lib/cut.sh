# A verb of rooms-admin that is cut off at each of its calls of the system, by a signal that it can
# catch and by one that it can't: nothing of the run goes on, and the same command then completes.

admin() {
  "$repo/admin/rooms-admin" "$@" >"$work/out" 2>"$work/err" </dev/null
  status=$?
}
# Each process of a run has this in its surroundings, whoever its user is.
goes_on() { grep -lsz "^CUT=$1\$" /proc/[0-9]*/environ; }
nobody_left() { # NAME RUN
  local turn
  for turn in {1..100}; do
    [ -n "$(goes_on "$2")" ] || break
    sleep 0.05
  done
  holds "$1: none of its processes goes on" [ -z "$(goes_on "$2")" ]
}

# What a case may have otherwise: the command once more, what is found in the folder of marks, and
# whether a run that got a signal may say that all is well.
once_more() { admin "${words[@]}"; }
owes() { ls "$ROOMS_RUN"; }
ended_badly() { [ "$status" != 0 ]; }

# Each call of the verb in `words`: `before` makes ready, `is_served` looks at the room and at what
# is left, and `again` at the command once more.
at_each_call() { # NAME LEAST
  local number name lock
  for number in {1..200}; do
    before
    CUT=${words[0]}.$how.$number cut_off "$how" "$number" verb "${words[@]}" || break
    name="$1, $name"
    holds "$name: it doesn't end well" ended_badly
    nobody_left "$name" "${words[0]}.$how.$number"
    holds "$name: nothing is owed" [ -z "$(owes)" ]
    for lock in "$ROOMS_RUN"/.rooms-admin/*; do
      [ ! -e "$lock" ] || holds "$name: the lock $lock is free" flock -n "$lock" true
    done
    is_served "$name"
    once_more
    again "$name"
  done
  holds "$1, $how: the calls come to an end, after $number" \
    [ "$number" -gt "$2" -a "$number" -lt 200 ]
  holds "$1, $how: a run that nothing cuts off" [ "$status" = 0 ]
}

# Both signals at once, each in a folder of its own.
lane() { # SIGNAL
  how=$1 above=$PWD
  cd "$how" || return
  work=$PWD/work stand=$PWD/stand
  mkdir "$work" "$stand" run
  mkdir -m 1777 tmp
  export STAND=$stand ROOMS_RUN=$PWD/run TMPDIR=$PWD/tmp
  echo 0 >"$stand/count"
  does_all
  : >whole
}
both_signals() {
  local lanes=()
  for how in TERM KILL; do
    (lane "$how") &
    lanes+=("$!")
  done
  wait "${lanes[@]}"
  for how in TERM KILL; do
    holds "$how: each verb was cut off" [ -e "$how/whole" ]
  done
}
