# What pastes blocks of a page into a shell in which the folders, the ports and the programs of the
# system are those of the case, and looks at what is printed; and a room for that, with people in
# it, which is served at `sock`. Where that can't be, the status isn't 0.

if [ "$loopback" = no ] || ! has curl || ! has setpriv; then
  skip 'what is pasted' 'no loopback, or curl is missing'
  return 1
fi
docs=$here/../docs

# The fenced blocks of a page that have a text in them.
blocks() { # PAGE TEXT
  awk -v text="$2" '
    /^```/ { if (inside && found) printf "%s", kept; inside = !inside; found = 0; kept = ""; next }
    inside { kept = kept $0 "\n"; if (index($0, text)) found = 1 }' "$docs/$1"
}

# A program of ./bin, by its text.
stand_in() { { printf '#!/usr/bin/env bash\n'; cat; } >"bin/$1" && chmod 755 "bin/$1"; } # NAME

# A script of blocks: what it prints is in $work/out, and its status in $status.
paste_in() { # TEXT-OF-BLOCKS
  sed -e "s|/var/lib/rooms|$PWD/room|g; s|/etc/nginx/rooms.htpasswd|$PWD/passwords|g" \
    -e "s|/var/backups/rooms|$PWD/backups|g" -e "s|/run/rooms/office/socket|$sock|g" <<<"$1" >pasted
  [ -s pasted ] || fail 'what is pasted' 'no such block'
  PATH=$PWD/bin:$PATH TMPDIR=$PWD timeout "$patience" bash pasted \
    </dev/null >"$work/out" 2>"$work/err"
  status=$?
}
prints() { # NAME LINE ..: these lines, and status 0
  local name=$1
  shift
  printf '%s\n' "$@" >wanted
  if [ "$status" != 0 ]; then fail "$name" "status $status: $(head -c 400 "$work/err")"; return; fi
  same "$name" "$work/out" wanted
}
asked() { # USER METHOD TARGET [BODY]: the body of the reply and its status
  curl -s -m "$patience" -X "$2" -H "Room-User: $1" ${4+--data-binary "$4"} -w ' %{http_code}\n' \
    --unix-socket "$sock" "http://localhost$3"
}
answers() { # NAME WANTED USER METHOD TARGET [BODY]
  local name=$1 wanted=$2
  shift 2
  printf '%s\n' "$wanted" >wanted
  asked "$@" >got
  same "$name" got wanted
}

# Stand-ins for what needs root or another machine. The server is stopped and started for real.
mkdir -p bin room backups/office run/rooms/rooms
sock=$PWD/run/rooms/rooms/socket
ln -s "$rooms" bin/rooms
stand_in runuser <<'END'
[ "$1 $2 $3 $4" = '--pty -u rooms --' ] && shift 4 && exec "$@"
END
stand_in apt-get <<'END'
END
stand_in at <<END
{ cat; echo "at \$*"; } >>"$PWD/due"
END
# A password that is asked for is typed twice.
stand_in htpasswd <<END
if [ "\$1" = -B ] && [ -n "$(command -v htpasswd)" ]; then
  exec "$(command -v htpasswd)" -bB "\$2" "\$3" typed
fi
if [ -n "$(command -v htpasswd)" ]; then exec "$(command -v htpasswd)" "\$@"; fi
echo "htpasswd \$*" >>"$PWD/asked"
END
# The administrator's command, on this room. A password that isn't piped in is typed.
mkdir -p run root/etc/{nginx,rooms} root/var/lib/rooms-passwords
stand_in rooms-admin <<END
export ROOMS_RUN=$PWD/run ROOMS_ROOT=$PWD/root ROOMS_SETTINGS=$PWD/root/etc/rooms
case \$1 in
  full) [ "\$*" = 'full --look' ] && echo '0 MB of 384 are in use' && exit ;;
esac
if [ "\$1 \$2" = 'user add' ] && [ ! -p /dev/stdin ]; then exec <<<typed; fi
exec "$repo/admin/rooms-admin" "\$@"
END
stand_in systemctl <<END
if [ "\$*" = 'start rooms-nightly@office' ]; then
  exec "$repo/admin/rooms-admin" backup --room "$PWD/root/etc/rooms/office.conf"
fi
case \$1 in
  is-active) [ -e "$PWD/pid" ] && echo active || echo inactive ;;
  restart) "\$0" stop && "\$0" start ;;
  stop)
    [ ! -e "$PWD/pid" ] || kill -9 "\$(cat "$PWD/pid")"
    while [ -e "$PWD/pid" ] && kill -0 "\$(cat "$PWD/pid")" 2>/dev/null; do sleep 0.02; done
    rm -f "$PWD/pid"
    ;;
  start)
    : >"$PWD/line"
    rm -f "$sock"
    "$rooms" serve "$PWD/room/office.rooms" --socket "$sock" --count 1000000 \\
      </dev/null >"$PWD/line" 2>"$PWD/err" &
    echo \$! >"$PWD/pid"
    for turn in {1..3000}; do [ ! -s "$PWD/line" ] || exit 0; sleep 0.02; done
    exit 1
    ;;
  show) echo MemoryCurrent=0 ;;
esac
END

PATH=$PWD/bin:$PATH rooms init room/office.rooms alice staff >/dev/null
printf 'group,user\nstaff,bob\nstaff,a.bob\nsales,carol\nsales,bob\n' >members.csv
gives 'the members' 0 'groups 2, members 4\n' '' groups room/office.rooms members.csv
set_list room/office.rooms / dacl list:a "A:fd:alice:$ALL" A:fdg:staff:rwaxtc A::AUTHENTICATED@:xt
file=$PWD/root/var/lib/rooms-passwords/rooms.htpasswd
: | tee root/var/lib/rooms-passwords/rooms.first >"$file"
ln -s root/var/lib/rooms-passwords/rooms.htpasswd passwords
printf '%s\n' "FILE=$PWD/room/office.rooms" SOCKET=yes "BACKUPS=$PWD/backups" KEEP=0 MAIL= \
  UNIT=rooms "PROGRAM=$rooms" >root/etc/rooms/office.conf
if ! has htpasswd || [ ! -x /usr/bin/python3 ]; then
  skip 'what is pasted' 'htpasswd or python3 is missing'
  return 1
fi
bin/systemctl start rooms || { fail 'what is pasted' "no server: $(cat err)"; return 1; }
answers 'a folder' ' 201' alice POST /folder/letters
answers 'a document of bob' ' 201' bob PUT /doc/letters/reply 'Dear Sir'
answers 'a folder for others' ' 201' alice POST /folder/projects
answers 'and one in it' ' 201' alice POST /folder/projects/bridge
answers 'an entry that names bob' ' 204' \
  alice PUT /dacl/projects/bridge $'list:a\nA:fd:bob:r\nA:fd:a.bob:r\n'
