# export and get, of a room and of a backup, cut off at each of their calls of the system.

. "$here/lib/cut-room.sh" || return

# What was written is in the way, and nothing else; without it all comes out.
afresh() {
  rm -rf out
  mkdir out
}
comes_out() { # NAME
  if [ "$status" = 2 ]; then
    told "$1: nothing is written over" 2 'there is something at out/tree'
    holds "$1: and there is no more" \
      [ -z "$(find out -mindepth 1 -maxdepth 1 ! -name tree ! -name tree.acl)" ]
    afresh
    admin "${words[@]}"
  fi
  told "$1: the same command" 0 'folders 1, documents 1, left out 0'
  same_tree "$1: the same tree" out wanted
  holds "$1: no private copy stays" [ -z "$(ls -A "$TMPDIR")" ]
}
export_it() {
  before() { afresh; }
  again() { comes_out "$1"; }
  words=(export --as root --room "$room" "/$how" out/tree)
  at_each_call export 15
  words=(export --room "$above/conf" --backup latest "/$how" out/tree)
  at_each_call 'export of a backup' 20
}

get_it() {
  before() { :; }
  again() {
    holds "$1: the same command" [ "$status" = 0 -a "$(cat "$work/out")" = two ]
    holds "$1: no private copy stays" [ -z "$(ls -A "$TMPDIR")" ]
  }
  words=(get --room "$above/conf" latest "/$how/b")
  at_each_call get 10
}

does_all() {
  export_it
  get_it
}
both_signals
cksum backups/*/* >got
same 'the backup is as it was' got sums
asks 'the room answers' "json '200 OK' '{}'" GET '/can/?' -
