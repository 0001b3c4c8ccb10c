# A machine whose kernel allows no namespaces of users: what doesn't start there, that the check
# says so, and what the page of messages says to do. It has a namespace of its own, so the limit is
# that of nobody else.

top=$repo
version=none
. "$here/lib/machine.sh"
. "$here/lib/booted.sh"
boot_words=(--private-users=pick --private-users-ownership=chown)
boot_machine 'a machine without namespaces of users' || { leave_groups; return; }
does 'the package, and a room' 'dpkg -i rooms.deb
  runuser -u rooms -- rooms init /var/lib/rooms/office.rooms alice staff &&
  systemctl enable --now rooms@office && rooms-admin user add alice <<<"gravel under bridges" &&
  systemctl reload-or-restart nginx'
asks="curl -s -o /dev/null -w %{http_code} -u 'alice:gravel under bridges' http://127.0.0.1"
until_inside 'it is served' "[ \"\$($asks/can/?)\" = 200 ]"
inside 'rooms-admin check'
holds 'nothing is told of namespaces' eval '! grep -q namespaces "$work/out"'
allows() { nsenter -t "$first" -U sh -c 'echo "$0" >/proc/sys/user/max_user_namespaces' "$1"; }
allows 0
inside 'systemctl restart rooms@office'
none='this machine allows no namespaces of users, so these can'\''t start:'
inside 'rooms-admin check'
told 'without any' 2 \
  "$none rooms@office rooms-full@office rooms-door@office rooms-wait@office rooms-would@ \
rooms-picture@ rooms-own-password@ rooms-earlier: " \
  "rooms@office doesn't answer"
does 'systemd says' 'journalctl -u rooms@office --no-pager -o cat'
holds 'why, as the page has it' grep -q 'Failed to set up user namespacing: ' "$work/out"
is() { # NAME STATUS TARGET
  inside "$asks$3"
  holds "$1: $(cat "$work/out")" [ "$(cat "$work/out")" = "$2" ]
}
is 'the room is away' 502 '/can/?'
is 'an own password can be changed' 204 /password
own=/etc/systemd/system/rooms@office.service.d
does 'a server without one, as the page says' "mkdir -p $own &&
  printf '%s\n' '[Service]' PrivateUsers=no >$own/override.conf &&
  systemctl daemon-reload; systemctl reset-failed rooms@office; systemctl restart rooms@office"
until_inside 'is served' "[ \"\$($asks/can/?)\" = 200 ]"
inside 'rooms-admin check'
told 'the others are told' 2 \
  "$none rooms-full@office rooms-door@office rooms-wait@office rooms-would@ rooms-picture@ \
rooms-own-password@ rooms-earlier: sysctl"
does 'it goes' "rm -r $own; systemctl daemon-reload"
allows 100
does 'where there are some again' 'systemctl restart rooms@office'
until_inside 'all is as before' "[ \"\$($asks/earlier/nights)\" = 200 ]"
inside 'rooms-admin check'
holds 'nothing is told any more' eval '! grep -q namespaces "$work/out"'
stop_machine
leave_groups
