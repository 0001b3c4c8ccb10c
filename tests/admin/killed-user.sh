# user add, change and remove, cut off at each of their calls of the system.

. "$here/lib/cut-people.sh"
if ! has htpasswd; then
  skip 'who joins and leaves, cut off' 'missing: htpasswd'
  return
fi
can_cut_people 'who joins and leaves, cut off' || return
mkdir TERM KILL
[ "$(id -u)" != 0 ] || chmod 755 "$work" .

# Passwords are those of before, but for one user's.
passwords_are_whole() { # NAME USER
  grep -v "^$2:" "$passwords" >got
  grep -v "^$2:" root.kept/var/lib/rooms-passwords/rooms.htpasswd >wanted
  same "$1: passwords of the others" got wanted
  holds "$1: each line is whole" \
    [ "$(grep -cvE '^[a-z]+:(\{PLAIN\}p|\$2y\$10\$.{53})$' "$passwords")" = 0 ]
}
somebody_joins() {
  echo secret >typed
  typed=$PWD/typed
  before() { afresh; }
  whole() { passwords_are_whole "$1" zoe; }
  again() {
    told "$1: the same command" 0 'password for zoe'
    passwords_are_whole "$1" zoe
    holds "$1: zoe has a password" [ "$(grep -c '^zoe:\$2y' "$passwords")" = 1 ]
    members_are "$1: and is in the group" clerks,carol clerks,zoe staff,bob
    holds "$1: and can be chosen" grep -q '"carol","zoe"\]' "$web/people.json"
    nothing_else "$1"
  }
  words=(user add zoe --groups clerks --room "$PWD/office.conf")
  at_each_call 'user add' 20
  unset typed
}
somebody_changes() {
  before() { afresh; }
  whole() {
    passwords_are_whole "$1" nobody
    is_told "$1" \
      "$(seen groups-out | grep -qx clerks,bob && echo 'who is in which group has changed')"
  }
  again() {
    told "$1: the same command" 0 'groups 1, members 2'
    members_are "$1: does all of it" clerks,bob clerks,carol
    nothing_else "$1"
  }
  words=(user change bob --add clerks --drop staff --room "$PWD/office.conf")
  at_each_call 'user change' 10
}
somebody_leaves() {
  before() { afresh; }
  whole() { passwords_are_whole "$1" bob; }
  again() {
    # Of the last reply nothing may be left to do.
    if [ "$status" = 1 ]; then
      told "$1: the same command, once all is done" 1 'nobody: bob has no password'
    else
      told "$1: the same command" 0 'left out 0'
    fi
    holds "$1: bob has no password" [ "$(grep -c '^bob:' "$passwords")" = 0 ]
    members_are "$1: and is in no group" clerks,carol
    holds "$1: what was his is given" \
      [ "$(seen dump | grep ' /his$')" = 'document alice staff 1 /his' ]
    nothing_else "$1"
  }
  words=(user remove bob --to alice --room "$PWD/office.conf")
  at_each_call 'user remove' 20
}

does_all() {
  make_room
  somebody_joins
  somebody_changes
  somebody_leaves
  unit stop
}
both_signals
