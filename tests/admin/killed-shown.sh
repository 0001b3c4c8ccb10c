# people, mine, until and full, cut off at each of their calls of the system.

. "$here/lib/cut-people.sh"
can_cut_people 'what is shown of people, cut off' || return
mkdir TERM KILL
[ "$(id -u)" != 0 ] || chmod 755 "$work" .

same_files() { # NAME GOT WANTED
  diff -r "$2" "$3" >"$work/found" 2>&1
  same "$1" "$work/found" /dev/null
}
# Of names and places the old file is there, or the new one.
first_or_last() { # NAME FILE
  [ ! -e "$web/$2" ] || diff -r "first/$2" "$web/$2" >"$work/found" 2>&1 ||
    diff -r "last/$2" "$web/$2" >"$work/found" 2>&1 ||
    { fail "$1" "$2 is half written"; return; }
  pass
}
shows() { # VERB LEAST FILE ..
  local file
  rm -rf first last turn
  cp -a "$web" first
  sed 's/"made":"[^"]*"/"made":"2020-01-01T00:00:00Z"/' first/people.json >old
  cat old >first/people.json
  for file in first/mine/*; do
    sed -i 's/"made":"[^"]*"/"made":"2020-01-01T00:00:00Z"/' "$file"
  done
  words=("$1" --room "$PWD/office.conf")
  once_more
  told "$1" 0
  cp -a "$web" last
  # By turns from nothing, and in the place of what is there.
  before() {
    rm -rf "${web%/*}"
    if [ -e turn ]; then
      rm turn
    else
      mkdir -p "${web%/*}" && cp -a first "$web" && chmod 750 "$web" "${web%/*}" && : >turn
    fi
  }
  files=("${@:3}")
  whole() { for file in "${files[@]}"; do first_or_last "$1" "$file"; done; }
  again() {
    local file
    told "$1: the same command" 0
    for file in "${files[@]}"; do
      same_files "$1: $file is the new one" "$web/$file" "last/$file"
      holds "$1: $file is of then" \
        [ "$(stat -c %Y "$web/$file")" = "$(stat -c %Y "last/$file")" -o "$file" != members.csv ]
    done
    nothing_else "$1"
  }
  at_each_call "$1" "$2"
}

until_it() {
  listed() { [ "$(at_socket alice GET dacl/given)" = 200 ] && grep -v ':alice:' "$work/body"; }
  before() { set_over; }
  whole() {
    listed >got
    holds "$1: the list is one of both" eval 'cmp -s got before || cmp -s got after'
  }
  again() {
    told "$1: the same command" 0
    listed >got
    same "$1: the access is taken back" got after
  }
  words=(until --room "$PWD/office.conf")
  set_over
  listed >before
  printf '%s\n' list:a "A:g:ended.$(date +%F).read.u.eve@alice:" >after
  at_each_call until 4
}

# It goes on until a signal comes, which is sent where it would sleep.
# FLAGS is what nginx is told while it watches, and none before it once LIMIT is greater. The door
# is told beside them what is left.
no_flag='locks|[a-z]+[.]left([.]new)?'
watch_it() { # NAME LEAST LIMIT FLAGS
  flags() { ls run/rooms-full 2>/dev/null | grep -cvxE "$no_flag"; }
  wanted=$4
  setting LIMIT "$3"
  ends() {
    printf '%s\n' "ls \"\$ROOMS_RUN/rooms-full\" | grep -cvxE '$no_flag' >\"\$STAND/flags\"" \
      'kill -TERM $PPID' >"$stand/at-sleep"
  }
  before() {
    rm -f run/rooms-full/*:* "$stand/flags"
    if [ "$wanted" = 0 ] || [ -e turn ]; then
      cp -a flag "run/rooms-full/$(cat flag)" && rm -f turn
    else
      : >turn
    fi
    ends
  }
  ended_badly() { [ "$status" != 0 -o "$how" = TERM ]; }
  once_more() {
    ends
    verb "${words[@]}"
  }
  # A signal that can be caught takes the flag away, once the run has the lock.
  whole() {
    [[ $how = TERM && $(cat "$stand/hit") != *"mkdir ("* && $(cat "$stand/hit") != *"'full."* ]] ||
      return
    holds "$1: no flag stays" [ "$(flags)" = 0 ]
  }
  again() {
    told "$1: the same command" 0
    holds "$1: the flag is as it should be" [ "$(cat "$stand/flags")" = "$wanted" ]
    holds "$1: and goes with the watch" [ "$(flags)" = 0 -a ! -e run/rooms-full/office.left ]
  }
  words=(full --room "$PWD/office.conf")
  at_each_call "full, $1" "$2"
  rm -f "$stand/at-sleep"
}
full_room() {
  head -c 700000 /dev/zero >large
  for one in 1 2; do
    holds 'a large document' [ "$(at_socket alice PUT "doc/large$one" @large)" = 201 ]
  done
  # How its flag is called.
  words=(full --room "$PWD/office.conf")
  setting LIMIT 1
  printf '%s\n' "ls \"\$ROOMS_RUN/rooms-full\" | grep -vxE '$no_flag' >\"\$STAND/flags\"" \
    'kill -TERM $PPID' >"$stand/at-sleep"
  verb "${words[@]}"
  told 'a full room' 0 'the room is full'
  cp "$stand/flags" flag
  holds 'has a flag' [ "$(wc -l <flag)" = 1 ]
  watch_it 'a full room' 3 1 1
  watch_it 'a room with a flag that was left' 3 100 0
}

does_all() {
  make_room
  # What was known of the room's own file isn't known where nothing is there.
  rm "$web/members.csv"
  room_verb people
  shows people 6 people.json members.csv
  shows mine 10 mine
  mv "$night/review.csv" .
  shows mine 20 mine
  mv review.csv "$night/"
  until_it
  afresh
  full_room
  unit stop
}
both_signals
