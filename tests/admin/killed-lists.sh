# list set, and members with a file, cut off at each of their calls of the system.

. "$here/lib/cut-people.sh"
can_cut_people 'a list and members, cut off' || return
mkdir TERM KILL
[ "$(id -u)" != 0 ] || chmod 755 "$work" .

root_sets_a_list() {
  printf '%s\n' list:ap "A:fd:alice:$ALL" A:fd:bob:rxtc >typed
  typed=$PWD/typed
  listed() { [ "$(at_socket alice GET dacl/given)" = 200 ] && cat "$work/body"; }
  afresh
  listed >list_before
  before() { afresh; }
  whole() {
    listed >got
    holds "$1: the list is one of both" eval 'cmp -s got list_before || cmp -s got typed'
    is_told "$1" "$(cmp -s got list_before || echo 'the list is set')"
  }
  again() {
    told "$1: the same command" 0
    listed >got
    same "$1: the list is the new one" got typed
    nothing_else "$1"
  }
  words=(list set /given --room "$PWD/office.conf")
  at_each_call 'list set' 10
  unset typed
}
a_file_of_members() {
  printf '%s\n' group,user clerks,bob clerks,carol >wanted.csv
  before() { afresh; }
  whole() { same "$1: no password changes" "$passwords" \
    root.kept/var/lib/rooms-passwords/rooms.htpasswd; }
  again() {
    told "$1: the same command" 0
    members_are "$1: does all of it" clerks,bob clerks,carol
    holds "$1: and the groups that there are" grep -q '"groups":{"clerks":\[\]}' "$web/people.json"
    nothing_else "$1"
  }
  words=(members "$PWD/wanted.csv" --room "$PWD/office.conf")
  at_each_call members 10
}

does_all() {
  make_room
  root_sets_a_list
  a_file_of_members
  unit stop
}
both_signals
