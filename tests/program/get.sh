# `get`: the bytes of one document, what is refused, and in which order.

refuses() { # NAME OUT ARGUMENT ..
  local name=$1 out=$2
  shift 2
  gives "$name" 2 "refused: $out\n" '' get "$@"
}
open_room F
refuses 'the root is a folder' 'N3 wrong-kind at /' F /
refuses 'nothing there' 'N1 no-such at /q' F /q
refuses 'nothing far below' 'N1 no-such at /q' F /q/r/s
refuses 'escapes stand as they are' 'N1 no-such at /%71' F /%71
refuses_bad_paths
refuses 'the path comes before the file' 'P1 bad object name' missing q
gives 'a file that is missing' 3 '' 'fault: file\n' get missing /q
holds 'nothing was made' is_missing missing
printf 'This is a letter, and no database at all.\n' >letter
gives 'a file that is no room' 3 '' 'fault: database\n' get letter /q
: >empty
refuses 'a file that is empty' 'not a rooms file' empty /q
refuses_words 'get wants a path' get F
refuses_words 'get takes two' get F /q /r
refuses_words 'get has no options' get F /q --all

[ "$loopback" = yes ] || { skip 'documents' 'this machine has no loopback'; return; }

for code in {0..255}; do printf "\\x$(printf %x "$code")"; done >each
holds 'it has each byte' [ "$(wc -c <each)" = 256 ]
head -c 1048576 /dev/urandom >big
put() { # FILE: a document of this name
  {
    printf 'PUT /doc/%s HTTP/1.1\r\nRoom-User: root\r\nConnection: close\r\n' "$1"
    printf 'Content-Length: %s\r\n\r\n' "$(wc -c <"$1")"
    cat "$1"
  } >"$work/sent"
  exchange
  made >"$work/want.reply"
  same "$1 is put" "$work/reply" "$work/want.reply"
}
start_server F 8 || return
asks 'a document' made PUT /doc/f root hello
put empty
put each
put big
asks 'a folder' made POST /folder/a%20b root
asks 'a document in it' made PUT /doc/a%20b/f root below
asks 'its list' done_reply PUT /dacl/a%20b/f root $'list:p\nD::EVERYONE@:rx\n'
gives 'a file that is served' 3 '' 'fault: database\n' get F /f
asks 'nobody reads it' 'denied "/a b/f" r 1 "\"D::EVERYONE@:rx\""' GET /doc/a%20b/f root
server_ends 'the server ends' 0 ''
run audit F
cp "$work/out" records
cp F before

gives 'a document' 0 hello '' get F /f
gives 'one without a byte' 0 '' '' get F /empty
run get F /each
wants_file 'each byte as it is' 0 each
run get F /big
wants_file 'the greatest one' 0 big
gives 'one that nobody may read' 0 below '' get F '/a b/f'
refuses 'a folder' 'N3 wrong-kind at /a b' F '/a b'
refuses 'nothing in the folder' 'N1 no-such at /a b/q' F '/a b/q'
refuses 'nothing below a document' 'N2 not-folder at /a b/f' F '/a b/f/q'
refuses 'nothing far below a document' 'N2 not-folder at /f' F /f/q/r
"$rooms" get F /f >&- 2>"$work/err" </dev/null
status=$?
: >"$work/out"
wants 'closed standard output' 3 '' 'fault: file\n'
if [ -w /dev/full ]; then
  "$rooms" get F /big >/dev/full 2>"$work/err" </dev/null
  status=$?
  wants 'a full disk' 3 '' 'fault: file\n'
fi
run audit F
wants_file 'no record is left' 0 records
holds 'nothing is changed' cmp -s F before

has_sqlite || { skip 'documents of damaged rooms' 'no sqlite3, or one that is too old'; return; }
damage() { # SQL
  cp before U
  rm -f U-wal
  sqlite3 U "PRAGMA foreign_keys=off; $1" >/dev/null || fail "$1" sqlite3
}
damaged() { # NAME SQL PATH
  damage "$2"
  gives "$1" 3 '' 'fault: database\n' get U "$3"
}
damaged 'a document without bytes' "DELETE FROM bodies" /f
damaged 'its row' "UPDATE nodes SET owner = 'bad name' WHERE name = 'f' AND parent = 1" /f
damaged 'a row on the way' "UPDATE nodes SET dacl_own = 'A::alice' WHERE name = 'a b'" '/a b/f'
damaged 'the root' "UPDATE nodes SET dacl_flags = 9 WHERE id = 1" /f
damaged 'no root' "UPDATE nodes SET parent = 2 WHERE id = 1" /f
damage "UPDATE nodes SET owner = 'bad name' WHERE name = 'big'"
gives 'a row beside it' 0 hello '' get U /f
