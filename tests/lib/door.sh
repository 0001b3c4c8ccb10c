# The door beside a room that is served at its socket below ./run.

doors=()
# Where rooms would is asked: a process for each question, as systemd starts it.
start_would() { # [PROGRAM]
  [ ! -S run/would ] || return 0
  mkdir -p run
  python3 "$here/lib/answer_would.py" "$PWD/run/would" 8 "${1:-$rooms}" 2>>would.err &
  answering=$!
  others+=("$answering")
  until [ -S run/would ]; do sleep 0.02; done
}
stop_would() {
  kill "$answering"
  wait "$answering" 2>/dev/null
  rm run/would
}
# Starts it, and waits until it listens.
start_door() { # ROOM ARGUMENT ..
  local began=$SECONDS largest
  mkdir -p "run/door/$1"
  start_would
  : >"$1.err"
  # As large as its settings say.
  largest=$(sed -n 's/^LARGEST=//p' "machine/etc/rooms/$1.conf" 2>/dev/null)
  python3 -IB "$repo/services/rooms_services/door/__main__.py" \
    --room "$PWD/run/rooms/$1/socket" --listen "$PWD/run/door/$1/socket" \
    --full "$PWD/run/rooms-full/$1.full" --would "$PWD/run/would" \
    --largest="${largest:-1}" "${@:2}" 2>"$1.err" &
  others+=($!)
  doors+=($!)
  until [ -s "$1.err" ] || [ $((SECONDS - began)) -ge "$patience" ]; do sleep 0.02; done
}
