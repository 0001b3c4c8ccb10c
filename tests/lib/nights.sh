# The nightly run of the room that make_stand has made, by the settings in ./conf. Its server is at
# its unit's socket.

night() { verb backup --room "$PWD/conf"; }
setting() { # NAME VALUE
  { grep -v "^$1=" conf; echo "$1=$2"; } >conf.new
  mv conf.new conf
}
new_office() {
  unit stop
  listens_at_socket
  rm -f office/F office/F-wal
  as_user "$rooms" init "$PWD/office/F" root staff >/dev/null
  printf '%s\n' 'list:a' "A:fd:root:$ALL" | as_user "$rooms" reset "$PWD/office/F" / dacl >/dev/null
  unit start
}
owes_nothing() { holds "$1: nothing is owed" [ "$(ls run)" = rooms ]; } # NAME
backups() { (cd backups/conf && ls); }
answers() { # NAME TARGET REPLY [METHOD [BODY]]
  asks_there "$1" "$3" "${4:-GET}" "$2" root "${5-}"
}
mailed() { holds "$1: mail" grep -qF -e "$2" "$stand/messages"; } # NAME TEXT
newest() {
  (cd backups/conf && grep -l . ./*/run 2>/dev/null | while IFS= read -r one; do
    echo "$(sed -n 's/^number //p' "$one") ${one%/run}"
  done) | sort -n | tail -n 1 | sed 's/.*\///'
}
