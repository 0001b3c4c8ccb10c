# The texts of the page: complete in each language, and nowhere else; and in Chromium the language
# that a browser has or that was chosen, with sharing on a telephone in each.

if has node &&
  node -e 'process.exit(Number(process.versions.node.split(".")[0]) < 18 ? 1 : 0)'; then
  "$repo/tools/bundle.py" "$PWD/page"
  echo '{"type":"module"}' >page/package.json
  timeout 120 node "$here/web/languages.mjs" "$repo/web" page >"$work/out" 2>"$work/err"
  if [ "$(tail -n 1 "$work/out")" = '0 told' ]; then
    pass
  else
    fail 'texts' "$(head -c 2500 "$work/out")$(head -c 600 "$work/err")"
  fi
else
  skip 'texts' 'missing: node (18 or newer)'
fi

. "$here/lib/front.sh"
. "$here/lib/browsers.sh"
. "$here/lib/door.sh"
if [ -n "$lacking" ]; then
  skip 'languages in Chromium' "missing: $lacking"
  return
fi
printf '%s:{PLAIN}%s\n' alice a bob b >rooms.htpasswd
printf "%s\n" group,user staff,{bob,carol,kim,lea,mo} sales,dana >groups.csv
open_room L
gives 'groups of L' 0 'groups 2, members 6\n' '' groups L groups.csv
set_list L / dacl list:a "A:fd:alice:$ALL" A::AUTHENTICATED@:xt
start_room L 100000 || return
mkdir -p root/var/lib/rooms-web/office/mine
ln -s root/var/lib/rooms-web/office names
start_front L || return
start_door office
play 'languages in Chromium' languages.py "$PWD" "$front"
stop_server
stop_proxy
gives 'sound after L' 0 'sound\n' '' verify L
