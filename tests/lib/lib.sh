# What the cases use: a run of the program, and comparisons of what it wrote.

ALL=rwanNxDtThHdcCoy
EMPTY_ROOM="folder root staff /\ndacl\nlist:a\nA:fd:OWNER@:$ALL\nsacl\nlist:a\n"

# Where a check stands, the innermost place first: 'lib/check.sh:20 admin/check.sh:30'.
place_of_check() {
  local n
  place_of_check=
  for ((n = 2; n < ${#BASH_SOURCE[@]} - 1; n++)); do
    [[ ${BASH_SOURCE[n]} = */lib/lib.sh ]] ||
      place_of_check+="${place_of_check:+ }${BASH_SOURCE[n]#"$here/"}:${BASH_LINENO[n - 1]}"
  done
}
# Seconds that anything may take, 120 or up to 600: more where more processes want each processor.
# Nothing waits for them where all is well.
processors=$(nproc)
follow_load() {
  local load
  read -r load _ </proc/loadavg
  patience=$((120 * (1 + ${load%.*} / processors)))
  [ "$patience" -le 600 ] || patience=600
}
# A line of TAP, whose name may hold what would end it.
tap() { # ok|'not ok' NAME [MORE]
  local name=${2//$'\n'/ }
  name=${name//$'\r'/ }
  printf '%s - %s%s\n' "$1" "${name//#/ }" "${3-}" >>"${tap_file-$ROOMS_TAP}"
  # What comes next may wait, and the load is another one by now.
  follow_load
}

pass() { # [NAME]
  [ $# != 0 ] || place_of_check
  tap ok "${1-$place_of_check}"
}

fail() { # NAME WHY
  local why=${2//$'\n'/ }
  place_of_check
  tap 'not ok' "$1" $'\n'"# $place_of_check: ${why//$'\r'/ }"
  echo "FAILED $1 ($place_of_check): $2"
}

skip() { # NAME WHY
  local why=${2//$'\n'/ }
  tap ok "$1" " # SKIP ${why//$'\r'/ }"
  echo "skipped $1: $2"
}

# Checks that a program of the case has made.
passes() { # NAME NUMBER
  local n
  for ((n = 0; n < $2; n++)); do tap ok "$1"; done
}

# Plays checks that aren't the part's; the status is 1 if one of them fails.
tried() { # COMMAND ..
  local tap_file=$work/tried
  : >"$tap_file"
  "$@"
  ! grep -q '^not ok' "$tap_file"
}

# Bytes for a failure's message, so that none is lost.
shown() { head -c 600 "$1" | od -An -c | sed 's/^ *//' | head -12; }

# What differs: lines, or what stands round the first byte where these are too long to be read.
difference() { # GOT WANTED
  local at file
  diff -a -u --label wanted --label got "$2" "$1" >"$work/diff" 2>&1
  if [ "$(wc -c <"$work/diff")" -le 12000 ]; then
    cat -v "$work/diff"
    return
  fi
  at=$(LC_ALL=C cmp -- "$1" "$2" 2>&1 | sed -n 's/.* byte \([0-9]*\),.*/\1/p')
  for file in "$2" "$1"; do
    echo "$file, from byte $((${at:-1} > 200 ? ${at:-1} - 200 : 1)) on:"
    tail -c +$((${at:-1} > 200 ? ${at:-1} - 200 : 1)) "$file" | head -c 600 | cat -v
    echo
  done
}

# The two files have the same bytes.
same() { # NAME GOT WANTED
  if cmp -s "$2" "$3"; then
    pass "$1"
  else
    fail "$1" 'other bytes'
    difference "$2" "$3"
  fi
}

# A command succeeds.
holds() { # NAME COMMAND ..
  local name=$1
  shift
  if "$@"; then pass "$name"; else fail "$name" "doesn't hold: $*"; fi
}

# The status of the last command, and texts that it wrote to either of its outputs.
told() { # NAME STATUS TEXT ..
  local name=$1 text
  holds "$name (status $status)" [ "$status" = "$2" ]
  shift 2
  for text; do
    holds "$name ($text): $(head -c 400 "$work/out" "$work/err")" \
      grep -qF -e "$text" "$work/out" "$work/err"
  done
}

# A verb with --json has printed a list of these objects and of no other.
rows_are() { # NAME OBJECT ..
  holds "$1: $(head -c 400 "$work/out" "$work/err")" python3 -c 'import json, sys
wanted = [json.loads(one) for one in sys.argv[2:]]
sys.exit(json.load(open(sys.argv[1], encoding="utf-8")) != wanted)' "$work/out" "${@:2}"
}

# Runs the program on $input, with what it writes in $work/out and $work/err, and its status in
# $status.
run() {
  "$rooms" "$@" <"$input" >"$work/out" 2>"$work/err"
  status=$?
}

# The status and every byte of the last run. OUT and ERR may hold escapes like \n.
wants() { # NAME STATUS OUT ERR
  printf '%b' "$3" >"$work/want.out"
  printf '%b' "$4" >"$work/want.err"
  if [ "$status" != "$2" ]; then
    fail "$1" "status $status, wanted $2"
    shown "$work/out"
    shown "$work/err"
  elif ! cmp -s "$work/out" "$work/want.out"; then
    same "$1 (standard output)" "$work/out" "$work/want.out"
  else
    same "$1 (standard error)" "$work/err" "$work/want.err"
  fi
}

# As `wants`, with the bytes of a file on standard output, and none on standard error.
wants_file() { # NAME STATUS FILE
  : >"$work/want.err"
  if [ "$status" != "$2" ]; then
    fail "$1" "status $status, wanted $2"
    shown "$work/err"
  elif ! cmp -s "$work/err" "$work/want.err"; then
    same "$1 (standard error)" "$work/err" "$work/want.err"
  else
    same "$1" "$work/out" "$3"
  fi
}

# The bytes of the last run are those of one of two files.
one_of() { # NAME FILE FILE
  if [ "$status" = 0 ] && { cmp -s "$work/out" "$2" || cmp -s "$work/out" "$3"; }; then
    pass "$1"
  else
    fail "$1" "neither of both, status $status"
    shown "$work/out"
  fi
}

# A run, and what it has to write.
gives() { # NAME STATUS OUT ERR ARGUMENT ..
  local name=$1 wanted=$2 out=$3 err=$4
  shift 4
  run "$@"
  wants "$name" "$wanted" "$out" "$err"
}

# Words that are refused: nothing on standard output, and the usage on standard error.
refuses_words() { # NAME ARGUMENT ..
  local name=$1
  shift
  run "$@"
  if [ "$status" != 2 ]; then
    fail "$name" "status $status, wanted 2"
  elif [ -s "$work/out" ]; then
    fail "$name" "it wrote on standard output"
  elif ! grep -q "^Usage: $(basename "$rooms")" "$work/err"; then
    fail "$name" "no usage on standard error"
  else
    pass "$name"
  fi
}

# A list text on standard input, one argument a line.
from_lines() {
  printf '%s\n' "$@" >"$work/input"
  input=$work/input
}

# A copy of a file of data, which may be written whatever the rights of that one.
take() { cat "$data/$1" >"$2"; } # NAME COPY

# A new room of root and staff.
new_room() { # FILE
  rm -f "$1" "$1-wal"
  input=/dev/null
  run init "$1" root staff
  [ "$status" = 0 ] || fail "new room $1" "status $status"
}

# A new room in which root may do all, and all may pass through.
open_room() { # FILE
  new_room "$1"
  from_lines 'list:a' 'A::EVERYONE@:x' "A:fd:root:$ALL"
  run reset "$1" / dacl
  [ "$status" = 0 ] || fail "open room $1" "status $status"
  input=/dev/null
}

# A list set by the operator.
set_list() { # FILE PATH dacl|sacl LINE ..
  local file=$1 path=$2 which=$3
  shift 3
  from_lines "$@"
  gives "reset $path $which" 0 'done\n' '' reset "$file" "$path" "$which"
  input=/dev/null
}

is_there() { [ -e "$1" ]; }
is_missing() { [ ! -e "$1" ] && [ ! -L "$1" ]; }
has() { command -v "$1" >/dev/null 2>&1; }
# An older sqlite3 doesn't read the tables.
has_sqlite() {
  has sqlite3 && sqlite3 :memory: 'CREATE TABLE t (a INTEGER) STRICT;' >/dev/null 2>&1
}

# What the consoles of a page type goes to a script, with a line @N before each command; what they
# show goes to standard output in the same form. Nothing is typed that the page doesn't say, but
# after a server's start its line is waited for, as a reader does.
from_consoles() { # PAGE SCRIPT
  awk -v script="$2" '
    /^```/ { inside = $0 == "```console"; typed = 0; next }
    !inside { next }
    typed { print >script; typed = $0 != "END"; next }
    /^\$ / {
      print "@" ++n
      print "echo; echo @" n >script
      print substr($0, 3) >script
      if (/&$/) print "until grep -q ^listening \"$OUT\"; do sleep 0.05; done" >script
      typed = /<<END$/
      next
    }
    { print }' "$1"
}

# What a case has started beside a server and a proxy.
stop_others() {
  local one
  for one in ${others[@]+"${others[@]}"}; do
    kill -CONT "$one" 2>/dev/null
    kill "$one" 2>/dev/null
    wait "$one" 2>/dev/null
  done
  others=()
}

# What is no path, by the `refuses` of a case, whose subcommand takes a file and a path.
refuses_bad_paths() {
  refuses 'no slash' 'P1 bad object name' F q
  refuses 'no path' 'P1 bad object name' F ''
  refuses 'an empty name' 'P1 bad object name' F //q
  refuses 'a slash behind' 'P1 bad object name' F /q/
  refuses 'dots' 'P1 bad object name' F /..
  refuses 'a long name' 'P1 bad object name' F "/$(printf 'a%.0s' {1..256})"
  refuses 'a long path' 'P2 path over 4096 bytes' F "/$(printf 'a%.0s' {1..4096})"
}
