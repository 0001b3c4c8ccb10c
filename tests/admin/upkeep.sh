# rooms-admin backup: what a good night leaves, what its settings ask for, and what is told of where
# there is a backup all the same.

. "$here/lib/nights.sh"
if [ "$loopback" = no ] || ! has flock || ! has setpriv || ! has setsid; then
  skip 'the nightly run' 'no loopback, or no flock, setpriv, setsid'
  return
fi
make_stand
# Only root keeps what the machine has beside its rooms.
tar=
[ "$(id -u)" != 0 ] || tar='machine.tar '

# A good night: the copy has what was answered last, which is in the log.
new_office
answers 'a document before the night' /doc/f made PUT hello
night
cp "$stand/steps" steps
holds 'a good night, without a message' [ "$status" = 0 -a ! -s "$stand/messages" ]
says 'which says before how long others wait' 0 \
  'requests wait while 0 MB are copied, for 30 s at most'
unit_runs 'the server runs after it'
answers 'and has the document' /doc/f "reply '200 OK' application/octet-stream hello"
good=$(backups)
holds 'one folder, of this night' \
  [ "$(grep -cE '^[0-9]{4}-[0-9]{2}-[0-9]{2}\.[0-9]{6}$' <<<"$good")" = 1 ]
gives 'the copy is sound' 0 'sound\n' '' verify "backups/conf/$good/F"
run dump "backups/conf/$good/F"
holds 'the copy has the document' grep -q '^document root staff 5 /f$' "$work/out"
holds 'the lists have it' grep -q '^document root staff 5 /f$' "backups/conf/$good/lists.txt"
holds 'the records are there' grep -q '^at,user,path' "backups/conf/$good/records.csv"
printf '%s\n' path,kind,user,rights,remove "/,folder,root,$ALL,no" '/,folder,*,,no' \
  '/,folder,ANONYMOUS@,,no' "/f,document,root,$ALL,yes" >wanted
same 'the review is there' "backups/conf/$good/review.csv" wanted
holds 'nobody else may read it' [ -z "$(find backups/conf/* -perm /077)" ]
holds 'the room is still its users' [ -z "$(find office -not -user "$STAND_USER")" ]
owes_nothing 'a good night'
holds 'nothing else is left' \
  [ "$(cd "backups/conf/$good" && echo *)" \
    = "F F-wal files-of-run lists.txt ${tar}records.csv review.csv run" ]
if [ -n "$tar" ]; then
  tar -xOf "backups/conf/$good/machine.tar" etc/rooms/office.conf >got
  same 'what the machine has beside its rooms is there' got root/etc/rooms/office.conf
fi

# Requests wait for the copy alone, and the program works on the copy, never on the room.
did() { sed -n 's/^[0-9]* \(systemctl\|rooms\) \([a-z-]*\).*/\2/p' steps | tr '\n' ' '; }
same_words() { if [ "$2" = "$3" ]; then pass; else fail "$1" "'$2' instead of '$3'"; fi; }
same_words 'the server goes on before the copy is read' "$(did)" \
  "is-active is-active verify audit dump ${tar:+--version }review is-active show show show "
holds 'the room itself is not opened' [ "$(grep -c ' rooms .*office/F' steps)" = 0 ]

# Where the settings say so, the review is put into the room once the server is back.
reviewing() { # FOLDER USER
  setting REVIEW "$1"
  setting REVIEWER "$2"
}
put_there() { # NAME
  local last
  last=$(backups | tail -n 1)
  curl -s -m "$patience" --unix-socket "$sock" \
    -H 'Room-User: root' "http://localhost/doc/for%20auditors/${last%.*}-review.csv" >got
  same "$1" got "backups/conf/$last/review.csv"
}
printf '%s\n' PORT= REVIEW= REVIEWER= MEMORY= >>conf
if has curl; then
  answers 'a way for all' /dacl/ done_reply PUT $'list:a\nA::EVERYONE@:x\nA:fd:root:'"$ALL"
  answers 'a folder for auditors' /folder/for%20auditors made POST
  answers 'and its list' /dacl/for%20auditors done_reply PUT $'list:a\nA:fd:carl:rxaw\n'
  reviewing '/for auditors' carl
  night
  holds 'a night with a review' [ "$status" = 0 -a ! -s "$stand/messages" ]
  put_there 'the review is in the room'
  sleep 1
  reviewing '/for auditors' carl
  night
  holds 'a second one that day' [ "$status" = 0 ]
  put_there 'takes its place'
  holds 'and has the document of the first' \
    grep -q '^/for auditors/.*-review.csv,document,carl,' got
  reviewing '/for auditors' bob
  night
  says 'who may not add there' 1 "-review.csv isn't put into the room: {\"at\":\"/for auditors\""
  unit_runs 'who may not add there: the server runs'
  holds 'the backup is there' [ -s "backups/conf/$(backups | tail -n 1)/review.csv" ]
  # The same of a unit of somebody's own, whose server has a port and no socket.
  unit stop
  rm -r "$stand/socket" run/rooms
  unit start
  setting PORT "$(<"$stand/port")"
  night
  says 'a night with a port' 1 "isn't put into the room"
  reviewing '/for auditors' carl
  rm -rf backups/conf/*
  night
  holds "a night with a port: $(head -c 300 "$work/err")" \
    [ "$status" = 0 -a ! -s "$stand/messages" ]
  curl -s -m "$patience" -H 'Room-User: root' \
    "http://127.0.0.1:$(<"$stand/port")/doc/for%20auditors/$(date +%F)-review.csv" >got
  same 'its review is in the room' got "backups/conf/$(backups | tail -n 1)/review.csv"
  unit stop
  setting PORT ''
  listens_at_socket
  unit start
  reviewing /nowhere root
  night
  says 'a folder that is not there' 1 '"why":"no-such"} 404'
  unit stop
  night
  says 'a review without a server' 0 "no server runs: /nowhere/"
  unit start
  setting REVIEW ''
  setting REVIEWER ''
else
  skip 'a review in the room' 'no curl'
fi

# A server that runs and doesn't answer, as one that is killed before it has read its file, and
# starts again: the copy is sound, and the run fails all the same.
: >"$stand/no-answer"
unit stop
unit start
night
says 'a server that does not answer' 1 "doesn't answer at $sock within 30 s"
holds 'a server that does not answer: mail' \
  grep -qF "rooms doesn't answer: [Errno 111] Connection refused: rooms is stopped for the copy" \
  "$stand/messages"
gives 'a server that does not answer: the copy is sound' 0 'sound\n' '' verify \
  "backups/conf/$(backups | tail -n 1)/F"
rm "$stand/no-answer"
unit stop
night
says 'a server that somebody stopped is not asked' 0 "isn't running, and is not started"
unit start
night
holds 'a server that answers' [ "$status" = 0 -a ! -s "$stand/messages" ]
rm -rf backups/conf/*

# A room that is nearly full.
if has perl; then
  echo LIMIT=1 >>conf
  night
  holds 'a room with room' [ "$status" = 0 ]
  head -c 950000 /dev/zero | tr '\0' a >big
  answers 'a large document' /doc/big made PUT "$(cat big)"
  sleep 1
  night
  says 'a room that is nearly full' 1 'the room has 0 MB in use, and beyond 1 MB nginx refuses'
  unit_runs 'a room that is nearly full: the server runs'
  holds 'a room that is nearly full: the backup is there' \
    [ -s "backups/conf/$(backups | tail -n 1)/review.csv" ]
  answers 'it is removed' /object/big done_reply DELETE
  setting LIMIT ''
  rm -rf backups/conf/*
else
  skip 'a room that is nearly full' 'no perl'
fi

# The site's certificate: one that ends soon is told, and the run is good all the same.
if [ -n "$tar" ] && has openssl; then
  mkdir -p root/etc/ssl
  certified() { # DAYS FILE
    printf '%s\n' "CERTIFICATE=$2" KEY=/etc/ssl/rooms.key >root/etc/rooms/site
    mkdir -p "root${2%/*}"
    openssl req -x509 -newkey ec -pkeyopt ec_paramgen_curve:P-256 -noenc -days "$1" \
      -subj /CN=rooms.example -keyout root/etc/ssl/rooms.key -out "root$2" 2>/dev/null
    night
  }
  untold() { holds "$1" [ "$status" = 0 -a ! -s "$stand/messages" ]; }
  certified 29 /etc/ssl/rooms.pem
  untold 'a certificate is told of by the run of office'
  ln -s rooms run/rooms/office
  setting UNIT rooms@office
  certified 31 /etc/ssl/rooms.pem
  untold 'a certificate that ends in 31 days'
  certified 29 /etc/ssl/rooms.pem
  says 'one that ends in 29' 0 'the certificate /etc/ssl/rooms.pem ends on '
  holds 'one that ends in 29: mail' \
    grep -q '^the certificate /etc/ssl/rooms.pem ends on .* GMT: ' "$stand/messages"
  holds 'which says no more' \
    [ "$(grep -c '^mail -s the certificate of rooms on ' "$stand/messages") $(
      wc -l <"$stand/messages"
    )" = '1 2' ]
  holds 'the backup is there' [ -s "backups/conf/$(backups | tail -n 1)/review.csv" ]
  setting MAIL ''
  night
  holds 'nobody named: the log' \
    grep -q '^logger -p daemon.warning .*rooms.pem ends on ' "$stand/messages"
  setting MAIL root
  certified 29 /etc/letsencrypt/live/rooms.example/fullchain.pem
  untold 'one that is renewed by a timer'
  certified 6 /etc/letsencrypt/live/rooms.example/fullchain.pem
  says 'and was not' 0 'fullchain.pem ends on '
  certified 31 /etc/ssl/rooms.pem
  : >root/etc/ssl/rooms.pem
  night
  says 'an empty one' 1 "the certificate /etc/ssl/rooms.pem can't be used"
  holds 'an empty one: mail' \
    grep -q "^the certificate /etc/ssl/rooms.pem can't be used" "$stand/messages"
  printf '%s\n' CERTIFICATE= KEY= >root/etc/rooms/site
  night
  untold 'a site without TLS'
  printf '%s\n' CERTIFICATE=/etc/ssl/rooms.pem KEY=/etc/ssl/rooms.key >root/etc/rooms/site
  setting PROGRAM /bin/false
  night
  says 'a night without a backup fails' 1 'verify of'
  says 'and tells it too' 1 "the certificate /etc/ssl/rooms.pem can't be used"
  setting PROGRAM "$stand/bin/rooms"
  setting UNIT rooms
  rm run/rooms/office
  rm -rf backups/conf/* root/etc/{rooms/site,ssl,letsencrypt}
else
  skip 'a certificate that ends' 'no root, or no openssl'
fi

# A server that somebody stopped stays stopped.
unit stop
night
says 'a night without a server' 0 "isn't running, and is not started"
unit_rests 'it is not started'
unit start

# KEEP: older ones go after a good night, and nothing else does.
rm -rf backups/conf/*
for day in 1 2 3 4; do
  mkdir "backups/conf/2020-01-0$day.030000"
  cp office/F "backups/conf/2020-01-0$day.030000/F"
done
mkdir backups/conf/2019-01-0{1.030000,2.030000,2.030000.unsound}
tee backups/conf/2019-01-0{1.030000/other,2.030000/F,2.030000/mine,2.030000.unsound/F} \
  <office/F >/dev/null
setting KEEP 3
setting PROGRAM /bin/false
night
says 'a night in which all fails' 1 'verify of'
holds 'removes nothing' [ "$(backups | grep -cE '^20(19|20)')" = 7 ]
setting PROGRAM "$stand/bin/rooms"
night
says 'a folder with more in it' 1 "can't be removed"
rm backups/conf/2019-01-02.030000/mine
rmdir backups/conf/2019-01-02.030000
holds 'the others went' [ "$(backups | grep -c '^2020-01-0[34]')" = 2 ]
# What the next one would remove is said without a copy, and nothing of it is done.
backups >before
verb backup --dry-run --room "$PWD/conf"
holds 'a dry run' [ "$status" = 0 ]
sed "s/[0-9-]*[.][0-9]*\$/DATE/" "$work/out" >got
printf '%s\n' "would: $PWD/office/F is copied to $PWD/backups/conf/DATE" \
  "would: $PWD/backups/conf/2020-01-03.030000 is removed" >wanted
same 'says where it would be, and what would go' got wanted
backups >after
same 'nothing is copied or removed' after before
night
holds 'a good night with KEEP' [ "$status" = 0 ]
holds 'three good ones stay' [ "$(find backups -name F | grep -vc unsound)" = 3 ]
holds 'what is no backup stays' [ -d backups/conf/2019-01-01.030000 ]
holds 'what is unsound stays' [ -e backups/conf/2019-01-02.030000.unsound/F ]
setting KEEP 0
rm -rf backups/conf/*

# A record that can't be read, which verify doesn't see: an older backup may have it.
if has_sqlite; then
  unit stop
  cp office/F whole
  as_user sqlite3 office/F "INSERT INTO audits (at, user, path, bits, granted, entry)
    VALUES (1, 'bob', 'no path', 1, 1, 1)" >/dev/null
  unit start
  setting KEEP 1
  mkdir backups/conf/2020-01-01.030000
  cp whole backups/conf/2020-01-01.030000/F
  night
  says 'a record that cannot be read' 1 'no older backup is removed'
  holds 'the text is told of too' \
    grep -q '^audit of the copy failed, status 3: fault: database' "$stand/messages"
  holds 'the older backup stays' [ -e backups/conf/2020-01-01.030000/F ]
  holds 'beside tonight'"'"'s' [ "$(backups | wc -l)" = 2 ]
  unit stop
  cat whole >office/F
  rm -f office/F-wal whole
  unit start
  setting KEEP 0
  rm -rf backups/conf/*
else
  skip 'a record that cannot be read at night' 'no sqlite3, or one that is too old'
fi

# What is written beside a sound copy fails: the copy stays, without that text, and older ones go.
setting KEEP 1
declare -A beside=([audit]=records.csv [dump]=lists.txt [review]=review.csv)
for word in audit dump review; do
  mkdir backups/conf/2020-01-01.030000
  cp office/F backups/conf/2020-01-01.030000/F
  echo "$word" >"$stand/no-word"
  night
  says "a night whose $word fails" 1 "$word of the copy failed, status 3: a part; the backup"
  rm "$stand/no-word"
  unit_runs "its $word fails: the server runs"
  holds "its $word fails: mail" grep -q "^$word of the copy failed" "$stand/messages"
  kept=$(backups)
  holds "its $word fails: the older one goes, and tonight's stays" \
    grep -qxE '20[2-9][0-9]-[0-9]{2}-[0-9]{2}\.[0-9]{6}' <<<"$kept"
  gives "its $word fails: the copy is sound" 0 'sound\n' '' verify "backups/conf/$kept/F"
  wanted=" F F-wal files-of-run lists.txt ${tar}records.csv review.csv run "
  same_words "its $word fails: the others are there" " $(cd "backups/conf/$kept" && echo *) " \
    "${wanted/ ${beside[$word]} / }"
  rm -rf backups/conf/*
done
setting KEEP 0
if [ -n "$tar" ]; then
  mkdir backups/conf/2020-01-01.030000
  cp office/F backups/conf/2020-01-01.030000/F
  echo tar >"$stand/no-tool"
  night
  says 'a night that can not keep the machine' 1 'but it has no machine.tar'
  rm "$stand/no-tool"
  unit_runs 'no machine.tar: the server runs'
  holds 'no machine.tar: the rest is there' \
    [ "$(cd "backups/conf/$(backups | tail -n 1)" && echo *)" \
      = 'F F-wal files-of-run lists.txt records.csv review.csv run' ]
  ln -s /nowhere/at/all root/etc/rooms/lost
  sleep 1
  night
  says 'a file of the machine that can not be read' 1 \
    "it lacks /etc/rooms/lost, which can't be read"
  rm root/etc/rooms/lost
  holds 'the others are kept' \
    tar -tf "backups/conf/$(backups | tail -n 1)/machine.tar" etc/rooms/office.conf
  rm -rf backups/conf/*
else
  skip 'what the machine has beside its rooms' 'only root keeps it'
fi

# A tree of folders so deep that its lists need more memory than the settings give. Each move puts
# what is there below 15 folders more: no path that is sent is longer than 4,096 bytes, and those
# that the lists print get far longer.
deepest() { # LEVELS
  local url=http://localhost name level=0 path turn
  name=$(printf 'n%.0s' {1..255})
  echo "url = $url/folder/deep" >calls
  call() { printf 'next\nurl = "%s"\n' "$url$1"; }
  while [ "$level" -lt "$1" ]; do
    path=
    for turn in {1..15}; do
      path+=/$name
      call "/folder$path"
    done
    call /move/deep
    echo "data = \"{\\\"to\\\":\\\"$path/$name\\\"}\""
    call "/move/$name"
    echo 'data = "{\"to\":\"/deep\"}"'
    level=$((level + 15))
  done >>calls
  sed -i "/^url/a unix-socket = \"$sock\"" calls
  sed -i '/^url/a request = POST\nheader = "Room-User: root"\noutput = /dev/null\nwrite-out = "%{http_code}\\n"' calls
  curl -q -s -m "$patience" -K calls
}
if has curl; then
  new_office
  deepest 1000 | sort | uniq -c >made
  holds 'a deep tree is made' \
    [ "$(awk '$2 != 201 && $2 != 204' made | wc -l)" = 0 \
      -a "$(awk '{ n += $1 } END { print n }' made)" = 1140 ]
  setting MEMORY 100
  night
  says 'lists that need more memory than there may be' 1 \
    'fault: memory, with MEMORY=100; the backup'
  unit_runs 'too large lists: the server runs'
  kept=$(backups)
  gives 'too large lists: the copy is sound' 0 'sound\n' '' verify "backups/conf/$kept/F"
  holds 'too large lists: they are not there' is_missing "backups/conf/$kept/lists.txt"
  holds 'the records are' is_there "backups/conf/$kept/records.csv"
  setting MEMORY ''
  rm -rf backups/conf/*
  sleep 1
  night
  holds 'with the memory of the default they are there' \
    [ "$(wc -c <"backups/conf/$(backups)/lists.txt")" -gt 100000000 ]
  rm -rf backups/conf/*
else
  skip 'lists that are too large' 'no curl'
fi
