# tools/dev-web: the page on a test room, each user at a port of their own, within ten seconds.

if ! has curl || [ "$loopback" = no ]; then
  skip 'the page without nginx' 'missing: curl, or a loopback'
  return
fi
port=$((port + 1))
TMPDIR=$work "$repo/tools/dev-web" --port "$port" "$rooms" >"$work/dev.out" 2>&1 </dev/null &
dev=$!
others+=("$dev")
for _ in {1..100}; do
  ! grep -q '^carol: ' "$work/dev.out" || break
  sleep 0.1
done
holds 'three users are served' grep -q '^carol: ' "$work/dev.out"
of() { curl -s "http://127.0.0.1:$((port + $1))$2" "${@:3}"; } # USER TARGET ..
status_of() { of "$1" "$2" -o "$work/body" -w '%{http_code}' "${@:3}"; }
holds 'the page' grep -q 'src="start.js"' <<<"$(of 0 /)"
holds 'a module, by its name' grep -q "from './api.js'" <<<"$(of 0 /folder.js)"
holds 'no other file' [ "$(status_of 0 /README.md)" = 404 ]
users=(alice bob carol)
for at in 0 1 2; do
  holds "${users[at]} is asked for" grep -q "Room-User: ${users[at]}" <<<"$(of "$at" /me -i)"
done
holds 'names' grep -q 'Alice Meyer' <<<"$(of 1 /people)"
holds 'what alice sees' grep -q personnel <<<"$(of 0 /folder/)"
holds 'what bob may not' [ "$(status_of 1 /folder/personnel)" = 403 ]
holds 'what bob may' [ "$(status_of 1 /doc/letters/new -X PUT --data-binary x)" = 201 ]
holds 'the door' grep -q '/policies/drafts/Draft 1.txt"' <<<"$(of 1 '/door/find/?draft%201')"
holds 'the program, before a change' grep -q '"rows":\[\["/","folder","alice"' \
  <<<"$(of 1 /door/would --data-binary $'folder alice staff /\nlist:a\nlook /')"
kill "$dev"
wait "$dev"
holds 'nothing is left' [ -z "$(find "$work" -maxdepth 1 -name 'rooms-dev-*')" ]
