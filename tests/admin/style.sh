# rooms-admin and its package: types, style and the pure parts; what --help and the page for man say
# of each verb; and that the names of before lead to the same verbs.

admin=$repo/admin/rooms-admin
if ! has python3; then
  skip 'rooms-admin' 'python3 is missing'
  return
fi
printf '%s\n' '[mypy]' 'strict = True' "cache_dir = $PWD/mypy" '[mypy-ldap.*]' \
  'ignore_missing_imports = True' >mypy.ini
typed=("$here"/admin/test_{pure,backups,told,attacks,texts,limits,deputy,elsewhere,whole,night}.py)
if has mypy; then
  MYPYPATH=$repo/admin:$repo/services mypy --config-file mypy.ini "$repo/admin/rooms_admin" \
    "$repo"/services/rooms_services/{apart.py,picture.py,scgi.py,port.py,wait.py,own_password} \
    "${typed[@]}" >"$work/out" 2>&1
  status=$?
  holds "mypy --strict: $(tail -n 5 "$work/out")" [ "$status" = 0 ]
  for file in install rooms-table; do
    MYPYPATH=$repo/admin:$repo/tools mypy --config-file mypy.ini "$repo/deploy/$file" \
      >"$work/out" 2>&1
    status=$?
    holds "mypy --strict of $file: $(tail -n 5 "$work/out")" [ "$status" = 0 ]
  done
else
  skip 'types' 'mypy is missing'
fi
if has flake8; then
  flake8 --isolated --max-line-length 100 "$repo/admin/rooms_admin" "$repo/deploy/install" \
    "$repo"/services/rooms_services/{apart.py,picture.py,scgi.py,port.py,wait.py,own_password} \
    "$repo"/deploy/rooms-{service,table} "$repo/admin/rooms-admin" \
    "${typed[@]}" >"$work/out" 2>&1
  status=$?
  holds "flake8: $(head -n 5 "$work/out")" [ "$status" = 0 ]
  # (tools/kit.py may leave no byte code behind, so a line stands before the imports)
  mapfile -t tools < <(grep -lx '#!/usr/bin/env python3' "$here"/../tools/*)
  flake8 --isolated --max-line-length 100 \
    --extend-ignore E203,E402,E731 "${tools[@]}" "$here/../tools/"*.py >"$work/out" 2>&1
  status=$?
  holds "flake8 of tools: $(head -n 5 "$work/out")" [ "$status" = 0 ]
else
  skip 'style' 'flake8 is missing'
fi
for tested in test_pure test_backups test_told test_attacks test_texts test_limits test_keep \
  test_deputy test_spreadsheet test_elsewhere test_importing test_large_lists test_whole \
  test_night; do
  (cd "$here/admin" && PYTHONPATH=$repo/admin python3 -B -m unittest "$tested") >"$work/out" 2>&1
  status=$?
  holds "the pure parts, $tested: $(tail -n 20 "$work/out")" [ "$status" = 0 ]
done

# Each line that it says when something isn't as it should be stands on the page of messages.
for one in admin/rooms_admin services/rooms_services; do
  python3 "$here/admin/messages.py" "$repo/$one" "$here/../docs/messages.md"
done >found 2>&1
same 'each message stands on its page' found /dev/null
mkdir made
echo 'raise Stop("a line of nobody")' >made/one.py
python3 "$here/admin/messages.py" made "$here/../docs/messages.md" >found 2>&1
echo 'one.py:1: a line of nobody' >wanted
same 'another one is found' found wanted

# Each verb says its usage and all of its options, and so does the page for man.
run_admin() {
  "$admin" "$@" >"$work/out" 2>"$work/err" </dev/null
  status=$?
}
options() { grep -oE -e '--[a-z]+(-[a-z]+)*' | sort -u; }
run_admin --help
holds 'help' [ "$status" = 0 -a ! -s "$work/err" ]
cp "$work/out" help
run_admin
holds 'no verb' [ "$status" = 2 ]
cmp -s "$work/out" help
holds 'no verb, and what there is' [ "$?" = 0 ]
run_admin --manual
cp "$work/out" page
holds 'the page is for man' \
  [ "$(head -n 1 page)" = '.TH ROOMS\-ADMIN 8 "" "rooms" "System Administration"' ]
if has groff; then
  groff -man -Tutf8 -ww page >/dev/null 2>found
  same 'troff has no complaint' found /dev/null
fi
run_admin --words
grep -v -e '^--' -e '^help$' "$work/out" >verbs
holds 'there are verbs' [ "$(wc -l <verbs)" -ge 9 ]
while IFS= read -r verb; do
  holds "help names $verb" grep -q "^  $verb  *[a-z]" help
  run_admin --words "$verb"
  if grep -v '^-' "$work/out" >parts; then
    run_admin "$verb" --help
    cp "$work/out" whole
    while IFS= read -r one; do
      holds "$verb --help has $one" grep -q "^$one: " whole
      echo "$verb $one" >>forms
    done <parts
  else
    echo "$verb" >>forms
  fi
done <verbs
holds 'a verb has parts' grep -qx 'user remove' forms
# What a new administrator looks for in them.
while IFS=: read -r verb text; do
  # shellcheck disable=SC2086
  run_admin $verb --help
  tr -s '\n ' ' ' <"$work/out" >flat
  holds "help of $verb says: $text" grep -qF "$text" flat
done <<'END'
user:takes the first line of standard input
user:and prints what else names them
user add:which is asked for at the terminal, or by standard input
user remove:what else names them is printed, and stays
user:HEIR, who needs the rights t and o on each object
members:Without FILE it prints who is in which group
members:With FILE it has the room's groups be what such a file says
groups:users of the last backup whom the directory writes in other capitals, and change nothing
people:Writes the file of names
mine:Writes what each user was given further down
until:by last night's lists
check:A room on another machine is asked there
setup:Makes the users, the folders
END
while read -r -a verb; do
  run_admin "${verb[@]}" --help
  holds "${verb[*]} --help" [ "$status" = 0 -a ! -s "$work/err" ]
  holds "${verb[*]}: usage" grep -q "^Usage: rooms-admin ${verb[*]}" "$work/out"
  holds "${verb[*]}: status" grep -q '^Status: 0 ' "$work/out"
  sed -n '/^Usage:/,/^$/p' "$work/out" | options >used
  sed -n 's/^  \(--[a-z-]*\).*/\1/p' "$work/out" | sort -u >described
  run_admin --words "${verb[@]}"
  grep -vx -e --help "$work/out" | sort >taken
  comm -23 taken described >found
  same "${verb[*]}: each option is described" found /dev/null
  same "${verb[*]}: and is in its usage" used taken
  sed 's,\\f[A-Z],,g' page | tr -d '\\' | options | comm -13 - taken >found
  same "${verb[*]}: and on the page" found /dev/null
  run_admin "${verb[@]}" --no-such-option
  told "${verb[*]}: another option" 2 'bad arguments: no such option: --no-such-option'
done <forms
run_admin no-such-verb
told 'no such verb' 2 "bad arguments: there is no verb 'no-such-verb'; rooms-admin --help"
# What units call isn't shown, and is there.
for verb in await tell; do
  holds "$verb isn't in help" [ "$(grep -c "^  $verb " help)$(grep -cx "$verb" verbs)" = 00 ]
  run_admin "$verb" --help
  holds "$verb says what it is" grep -q "^Usage: rooms-admin $verb" "$work/out"
done
# Help by its own word; what somebody may have meant; options before the verb.
run_admin help
same 'help as a word' "$work/out" help
for words in backups 'user add'; do
  # shellcheck disable=SC2086
  run_admin $words --help
  cp "$work/out" wanted
  # shellcheck disable=SC2086
  run_admin help $words
  same "help of $words" "$work/out" wanted
done
for typed in 'usr list;there is no verb '"'usr'"'; did you mean user?' \
  'hlep;did you mean help?' 'backups --jsn;no such option: --jsn; did you mean --json?' \
  'user add eve --gruops a;no such option: --gruops; did you mean --groups?'; do
  read -r -a words <<<"${typed%%;*}"
  run_admin "${words[@]}"
  told "mistyped: ${typed%%;*}" 2 "${typed#*;}"
done
run_admin backups --json --room none
cp "$work/err" wanted
for typed in '--room none --json backups' '-r none backups --json' '--json -r none backups' \
  '--json backups --room none'; do
  read -r -a words <<<"$typed"
  run_admin "${words[@]}"
  same "the verb behind options: $typed" "$work/err" wanted
done
# Whoever reads the first lines alone ends nothing, and the status is the verb's own.
status_of() { # WORD ..: of a run that nobody reads
  { sleep 0.3; "$admin" "$@" </dev/null 2>&1; echo "$?" >status; } | true
  cat status
}
holds 'output that nobody reads' [ "$(status_of --manual)" = 0 ]
holds 'a refusal that nobody reads' [ "$(status_of no-such-verb)" = 2 ]
"$admin" --help >/dev/full 2>"$work/err"
holds 'a full disk is a fault' [ "$?" = 1 ]

# The version, and the rooms of a machine: two served here, one elsewhere.
mkdir -p rooms-of bin
printf '%s\n' '#!/bin/sh' '[ "$*" = "is-active rooms@invoices" ] || { echo inactive; exit 3; }' \
  'echo active' >bin/systemctl
chmod 755 bin/systemctl
echo FILE=/var/lib/rooms/office.rooms >rooms-of/office.conf
printf '%s\n' FILE=/srv/invoices.rooms PORT=8790 'TITLE=All invoices' >rooms-of/invoices.conf
echo ON=b.example >rooms-of/sales.on
ROOMS_SETTINGS=$PWD/rooms-of PATH=$PWD/bin:$PATH run_admin rooms
printf '%s\n' 'invoices  All invoices  active  /run/rooms/invoices/socket  /srv/invoices.rooms' \
  'office  inactive  /run/rooms/office/socket  /var/lib/rooms/office.rooms' \
  'sales  elsewhere  on b.example' >wanted
same 'the rooms of a machine' "$work/out" wanted
ROOMS_SETTINGS=$PWD/rooms-of PATH=$PWD/bin:$PATH run_admin rooms --json
holds 'and for a program' [ "$(python3 -c 'import json, sys
for one in json.load(sys.stdin): print((one["name"], one["state"], one["title"]), end=" ")
' <"$work/out")" = \
  "('invoices', 'active', 'All invoices') ('office', 'inactive', '') ('sales', 'elsewhere', '') " ]
# Settings are named from where one stands, also where a verb goes elsewhere before it reads them.
mkdir here
top=$PWD
printf '%s\n' "FILE=$PWD/here/F" SOCKET=yes "BACKUPS=$PWD/here" PROGRAM=/bin/true >here/hr.conf
ran_in() { # FOLDER CONF WORD ..
  (cd "$1" && PATH=$top/bin:$PATH ROOMS_RUN=$top/run timeout 20 "$admin" "${@:3}" --room "$2") \
    </dev/null 2>&1 | sed 's/20[-.:0-9TZ]*/DATE/g'
  echo "status ${PIPESTATUS[0]}"
}
for verb in people groups until mine 'user list' backup standby backups latest records doctor \
  'get latest /f' 'restore latest' 'lists /'; do
  read -r -a words <<<"$verb"
  ran_in / "$PWD/here/hr.conf" "${words[@]}" >wanted
  ran_in here ./hr.conf "${words[@]}" >got
  same "$verb of a file here" got wanted
  ran_in . here/hr.conf "${words[@]}" >got
  same "$verb of a file below" got wanted
  holds "$verb finds its settings: $(head -n 1 got)" test -z "$(grep 'hr.conf can.t be read' got)"
done
ROOMS_SETTINGS=$PWD/rooms-of run_admin rooms office
told 'a word' 2 "bad arguments: a word too many: 'office'"

# The names of before are links that the installation makes: the same words, standard output as it
# was, and the new name on standard error.
for pair in export:export import:import handover:handover get:get nightly:backup restore:restore \
  standby:standby directory:groups full:full doctor:doctor; do
  old=rooms-${pair%:*} verb=${pair#*:}
  ln -s "$admin" "$old"
  "./$old" --help >"$work/out" 2>"$work/err" </dev/null
  holds "$old --help" [ "$?" = 0 ]
  cp "$work/out" got
  echo "$old: its name is now rooms-admin $verb" >wanted
  same "$old names the new one" "$work/err" wanted
  run_admin "$verb" --help
  same "$old is $verb" got "$work/out"
done

# Below a prefix the package is where the launcher looks, and the program is that prefix's.
for prefix in usr usr/local; do
  mkdir -p "tree/$prefix/sbin" "tree/$prefix/share/rooms/rooms_admin" "tree/$prefix/bin"
  cp "$admin" "tree/$prefix/sbin/"
  ln -s ../sbin/rooms-admin "tree/$prefix/bin/rooms-export"
  cp -r "$repo/admin/rooms_admin" "$repo/web/tables" "tree/$prefix/share/rooms/"
  find tree -name __pycache__ -prune -exec rm -r {} +
  "tree/$prefix/sbin/rooms-admin" --help >got 2>&1
  same "below /$prefix" got help
  "tree/$prefix/bin/rooms-export" --help >got 2>/dev/null
  holds "a name of before below /$prefix" grep -q '^Usage: rooms-admin export' got
  printf 'FILE=%s/F\nBACKUPS=%s\n' "$PWD" "$PWD" >conf
  "tree/$prefix/sbin/rooms-admin" full --look --room "$PWD/conf" >got 2>&1
  holds "the program of /$prefix" grep -qF "no program: $PWD/tree/$prefix/bin/rooms" got
  holds "no other file is made below /$prefix" [ -z "$(find "tree/$prefix" -name __pycache__)" ]
done

# What an account has set whose terminal root uses ('su' without '-') runs nothing, and says nothing
# to a tool or a library that runs as root.
if [ "$(id -u)" = 0 ]; then
  mkdir set told told/sbin told/share told/share/rooms told/share/rooms/rooms_admin
  printf '#!/bin/sh\necho "${0##*/}" >>%s/ran\n' "$PWD" | tee set/systemctl set/openssl >set/stat
  chmod 755 set/*
  : >ran
  printf 'FILE=%s/F\nBACKUPS=%s\nPROGRAM=%s\n' "$PWD" "$PWD" "$rooms" >conf
  PATH=$PWD/set:$PATH tree/usr/sbin/rooms-admin check --room "$PWD/conf" >got 2>&1
  same "a check runs none of its caller's tools" ran /dev/null
  cp "$admin" told/sbin/
  printf '%s\n' 'import os' 'def main():' \
    '    print("\n".join(sorted(f"{one}={os.environ[one]}" for one in os.environ)))' \
    >told/share/rooms/rooms_admin/__main__.py
  env -i PATH="$PWD/set" HOME="$PWD" TMPDIR="$PWD" OPENSSL_CONF="$PWD/x" ROOMS_ROOT="$PWD" \
    ROOMS_SETTINGS="$PWD" LD_LIBRARY_PATH="$PWD" LC_ALL=C TERM=dumb ROOMS_UNIT=u PORT=8780 \
    MONITOR_UNIT=m MAINPID=7 SUDO_USER=carol \
    SUDO_UID=1000 SUDO_COMMAND=x told/sbin/rooms-admin >got 2>&1
  printf '%s\n' HOME=/root LC_ALL=C MAINPID=7 MONITOR_UNIT=m \
    PATH=/usr/local/sbin:/usr/local/bin:/usr/sbin:/usr/bin:/sbin:/bin ROOMS_UNIT=u \
    SUDO_USER=carol TERM=dumb >wanted
  same 'root is handed on nothing but these' got wanted
else
  skip 'what root is handed on' 'not root'
fi

# A directory whose name only begins as an address of this machine gets nothing in clear.
needs_starttls() { # URI
  PYTHONPATH=$repo/admin /usr/bin/python3 -c 'import sys
from rooms_admin.room.settings import Directory
sys.exit(not Directory(uri=sys.argv[1]).needs_starttls)' "$1"
}
for uri in ldap://127.a.b.c.example ldap://127.0.0.1.example ldap://localhost.example \
  ldap://dc.example:389; do
  needs_starttls "$uri"
  holds "$uri needs TLS for passwords" [ "$?" = 0 ]
done
for uri in ldaps://dc.example ldap://127.0.0.1 ldap://127.0.0.1:389/ ldap://localhost/ \
  'ldap://[::1]:389'; do
  needs_starttls "$uri"
  holds "$uri doesn't" [ "$?" = 1 ]
done
