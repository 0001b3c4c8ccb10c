# PDFs in the page: pictures of their pages, by the process that makes them.

. "$here/lib/front.sh"
. "$here/lib/browsers.sh"
. "$here/lib/door.sh"
has pdftoppm || lacking="$lacking poppler-utils"
if [ -n "$lacking" ]; then
  skip 'PDFs in the page' "missing: $lacking"
  return
fi

printf '%s:{PLAIN}%s\n' alice a bob b >rooms.htpasswd
open_room P
set_list P / dacl list:a "A:fd:alice:$ALL" A:fd:bob:rxtc
start_room P 100000 || return
mkdir -p root/var/lib/rooms-web/office/mine
ln -s root/var/lib/rooms-web/office names
adds setup
sets office LARGEST 20
start_front P || return
python3 -IB "$here/lib/inetd.py" "$PWD/pictures" 4 prlimit --cpu=2 "$repo/deploy/rooms-service" \
  picture &
others+=($!)
until [ -S pictures ]; do sleep 0.02; done
start_door office --pictures "$PWD/pictures"
mkdir pdfs
python3 -IB "$here/services/pdfs.py" pdfs >/dev/null
play 'PDFs in the page' pages.py "$PWD" "$front"
stop_server
stop_proxy
gives 'sound after P' 0 'sound\n' '' verify P
# Each page that was shown is a reading of the document, by whoever looked at it.
"$rooms" audit P >records 2>/dev/null </dev/null
looked() { grep -c ",bob,/papers/$1,r,$2," records; }
# (and he has downloaded it)
holds "bob's three pages: $(looked letter.pdf yes)" [ "$(looked letter.pdf yes)" = 4 ]
holds "what he was denied: $(looked closed.pdf no)" [ "$(looked closed.pdf no)" -ge 1 ]
