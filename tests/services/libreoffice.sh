# LibreOffice at a document of a room: opened at its address, saved in place, and locked meanwhile.

. "$here/lib/front.sh"
. "$here/lib/door.sh"
soffice=$(command -v soffice)
uno=/usr/bin/python3
if [ -z "$soffice" ] || ! "$uno" -c 'import uno' 2>"$work/null" ||
  [ -z "$nginx" ] || ! has curl || [ "$loopback" = no ]; then
  skip 'LibreOffice' 'no loopback, or nginx, curl, libreoffice-writer or python3-uno is missing'
  return
fi
open_room F
set_list F / dacl list:a "A:fd:root:$ALL" A:fd:alice:rwxact A:fd:bob:rwxact A:fd:carol:rx
start_room F 1000000 || return
mkdir -p machine/etc/nginx
printf 'root:{PLAIN}r\nalice:{PLAIN}a\nbob:{PLAIN}b\ncarol:{PLAIN}c\n' >rooms.htpasswd
admin setup
sets office DRIVE yes
start_front 'LibreOffice' || return
start_door office --drive=yes

# Without windows LibreOffice asks for no password, so each user has a port that adds it.
at=$((port + 5))
for who in alice bob carol; do
  printf 'server { listen 127.0.0.1:%d; client_max_body_size 0;
    location / {
      proxy_pass http://127.0.0.1:%d; proxy_set_header Host $http_host;
      proxy_set_header Authorization "Basic %s"; } }\n' \
    "$at" "$front" "$(printf '%s:%s' "$who" "${who:0:1}" | base64)"
  declare "of_$who=http://127.0.0.1:$at/drive"
  at=$((at + 1))
done >sites-enabled/users
reloaded curl -s -o "$work/null" "$of_carol/"

# A suite of one user, with settings of its own.
suite() { # USER COMMAND ARGUMENT ..
  env -u PYTHONPATH HOME="$PWD" "$uno" -B "$here/services/office_suite.py" "$PWD/suite-$1" \
    "$soffice" "${@:2}" >said 2>&1
  status=$?
}
says() { [ "$status" = "$1" ] && printf '%s\n' "${@:2}" | cmp -s - said; }

suite alice make "$of_alice/letter.odt" 'Dear Bob,'
holds "a new document: $(cat said)" says 0 'Dear Bob,'
ask 'is hers' 200 '{"group":"staff","kind":"document","owner":"alice"}' root:r /attr/letter.odt
ask 'with a list of its own' 204 '' root:r /dacl/letter.odt -X PUT --data-binary "list:ap
A::root:$ALL
A::alice:rwact
A::bob:rwac
A::carol:r
"
answer root:r /dacl/letter.odt
cp "$work/body" list
suite bob save "$of_bob/letter.odt" ' thank you.'
holds "another user saves in place: $(cat said)" says 0 'Dear Bob, thank you.'
answer root:r /dacl/letter.odt
same 'its list is as it was' "$work/body" list
ask 'and its owner' 200 '{"group":"staff","kind":"document","owner":"alice"}' \
  root:r /attr/letter.odt
suite carol open "$of_carol/letter.odt"
holds "what was saved is read, and not written: $(cat said)" \
  says 0 'Dear Bob, thank you.' read-only

# A text with a scan of 20 MB in it, or as many as ROOMS_LARGE says, which lies there in parts.
large=${ROOMS_LARGE:-20}
python3 -B "$here/services/large_paper.py" scan.odt 'Dear Bob,' "${large}000000"
ask 'one with a scan' 201 '' alice:a /drive/scan.odt -T scan.odt
suite bob save "$of_bob/scan.odt" ' thank you.'
holds "is saved in place by another user: $(cat said)" says 0 'Dear Bob, thank you.'
suite carol open "$of_carol/scan.odt"
holds "and read: $(cat said)" says 0 'Dear Bob, thank you.' read-only
curl -s -u carol:c "http://127.0.0.1:$front/door/doc/scan.odt" >saved.odt
holds "with its scan: $(stat -c %s saved.odt)" \
  [ "$(stat -c %s saved.odt)" -gt "$((large * 950000))" ]
ask 'it is hers' 200 '{"group":"staff","kind":"document","owner":"alice"}' root:r /attr/scan.odt

# One user has it open; the other gets it read-only, and afterwards can write.
mkfifo ends
HOME="$PWD" "$uno" -B "$here/services/office_suite.py" "$PWD/suite-held" "$soffice" \
  hold "$of_alice/letter.odt" <ends >held 2>&1 &
others+=($!)
holding=$!
exec 7>ends
began=$SECONDS
until [ -s held ] || [ $((SECONDS - began)) -ge 60 ]; do sleep 0.1; done
holds 'alice has it open' grep -qx open held
answer bob:b /drive/letter.odt -X PROPFIND -H 'Depth: 0'
holds 'and locked' grep -qF '<D:activelock>' "$work/body"
suite bob open "$of_bob/letter.odt"
holds "meanwhile bob: $(cat said)" says 0 'Dear Bob, thank you.' read-only
exec 7>&-
wait "$holding"
suite bob open "$of_bob/letter.odt"
holds "afterwards: $(cat said)" says 0 'Dear Bob, thank you.' writable
gives_up() { # a room that refuses: nothing changes
  curl -s -u root:r "http://127.0.0.1:$front/doc/letter.odt" >now
  cmp -s was now
}
curl -s -u root:r "http://127.0.0.1:$front/doc/letter.odt" >was
suite carol save "$of_carol/letter.odt" ' no.'
holds "who may only read can't save: $(cat said)" [ "$status" = 1 ]
holds 'and nothing changed' gives_up
