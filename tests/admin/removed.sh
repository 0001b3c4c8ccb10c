# A room that is taken away below a folder, while its nightly run is at work: who has the lock.

. "$here/lib/people.sh"
if ! plays_people || ! has flock; then
  skip 'a room that is taken away' 'no loopback, curl, setsid, flock or /usr/bin/python3'
  return
fi
room_of_alice
ln -s office.conf kept.conf
setting UNIT rooms@kept
watched_program

# While a nightly run is at work its room isn't removed, and a room that is being removed has no
# nightly run.
"$repo/deploy/install" --destdir "$PWD/machine" --program "$rooms" >"$work/out" 2>&1 </dev/null
verb add --destdir "$PWD/machine" kept
told 'a further room' 0 'file /etc/rooms/kept.conf'
settings=$(cksum machine/etc/rooms/kept.conf machine/etc/nginx/sites-available/rooms)
: >wait-verify
PATH=$stand/bin:$PATH "$repo/admin/rooms-admin" backup --room "$PWD/office.conf" >night.said 2>&1 \
  </dev/null &
running=$!
until [ -s reading ] || [ ! -d "/proc/$running" ]; do sleep 0.05; done
for word in '' --dry-run; do
  # shellcheck disable=SC2086
  verb remove $word --destdir "$PWD/machine" kept
  if [ -z "$word" ]; then
    told 'a room whose nightly run is at work' 2 \
      'busy: another verb of rooms-admin is at work with rooms@kept'
  else
    told 'which may be looked at' 0 'would: /etc/rooms/kept.conf is removed'
  fi
  holds 'stays' \
    [ "$(cksum machine/etc/rooms/kept.conf machine/etc/nginx/sites-available/rooms)" = "$settings" ]
done
: >seen
wait "$running"
status=$?
holds "the run doesn't notice: $(cat night.said)" \
  [ "$status" = 0 -a -s "$(echo backups/office/*/review.csv)" ]
rm wait-verify seen
printf '%s\n' 'flock -n "$ROOMS_RUN/.rooms-admin/rooms@kept" true || echo held >"$STAND/held"' \
  >"$stand/at-rm"
verb remove --destdir "$PWD/machine" kept
told 'then it is removed' 0 'file /etc/nginx/sites-available/rooms'
holds 'with its lock until its settings are gone' \
  [ "$(cat "$stand/held")" = held -a ! -e machine/etc/rooms/kept.conf ]
holds 'which is free then' flock -n run/.rooms-admin/rooms@kept true
verb remove --destdir "$PWD/machine" kept
told 'and once only' 2 'no room: /etc/rooms/kept.conf'
