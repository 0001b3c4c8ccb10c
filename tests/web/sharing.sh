# Who has access, by the page of web behind nginx, in Chromium and in Firefox: a manager, a
# reader, and one with a document deep down; names that the front end has, places that were shared,
# and lists at random.

. "$here/lib/front.sh"
. "$here/lib/browsers.sh"
. "$here/lib/door.sh"
if [ -n "$lacking" ]; then
  skip 'sharing' "missing: $lacking"
  return
fi

printf '%s:{PLAIN}%s\n' alice a bob b dana d >rooms.htpasswd
printf "%s\n" group,user staff,{bob,carol,kim,lea,mo} sales,dana >groups.csv

# A room of its own for each browser, whose root lets alice do all and everybody with a name pass
# through, with what nginx serves beside it.
start_sharing() { # ROOM
  open_room "$1"
  gives "groups of $1" 0 'groups 2, members 6\n' '' groups "$1" groups.csv
  set_list "$1" / dacl list:a "A:fd:alice:$ALL" A::AUTHENTICATED@:xt
  start_room "$1" 100000 || return
  # What rooms-admin writes there at night, the play does.
  rm -rf names root
  mkdir -p root/var/lib/rooms-web/office/mine
  ln -s root/var/lib/rooms-web/office names
  start_front "$1" || return
  [ -n "${doors[*]}" ] || start_door office
}
end_sharing() { # ROOM
  stop_server
  stop_proxy
  gives "sound after $1" 0 'sound\n' '' verify "$1"
}

start_sharing C || return
play 'sharing in Chromium' sharing.py "$PWD" "$front" chromium
end_sharing C

if has firefox-esr || has firefox; then
  start_sharing M || return
  play 'sharing in Firefox' sharing.py "$PWD" "$front" firefox "$((front + 20))"
  end_sharing M
else
  skip 'sharing in Firefox' 'missing: firefox-esr'
fi

# Every right of every user, before and after, by the program's own review of a copy.
start_sharing K || return
play 'clicks at random' clicks.py "$PWD" "$front" "$rooms" "$PWD/K" "${PAGE_ROUNDS:-40}" \
  "${PAGE_SEED:-1}"
end_sharing K
