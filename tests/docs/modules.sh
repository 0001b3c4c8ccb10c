# What stands round the program: each module is where modules.txt says what is, imports go one way,
# and what is to know nothing of a page or of a room doesn't.

if ! has python3; then
  skip 'the modules' 'python3 is missing'
  return
fi
"$repo/tools/modules" --check >found
same 'the modules, and their lists' found /dev/null

# Lists are judged without a request and without a page; requests are made without a page.
(cd "$repo" && grep -nE '\b(document|window|fetch|XMLHttpRequest)\b[.(]' web/acl/*.js) >found
same 'web/acl asks nothing and draws nothing' found /dev/null
(cd "$repo" && grep -nE '\bdocument\.' web/net/*.js web/text/*.js) >found
same 'web/net and web/text draw nothing' found /dev/null

# What only one module knows or does: no line of another one looks like it. Whoever needs it calls
# that one.
only() { # WHAT PATTERN MODULE, of admin/rooms_admin
  (cd "$repo" && grep -nE "$2" admin/rooms_admin/{,*/}*.py deploy/install \
    services/rooms_services/{,*/,*/*/}*.py |
    grep -v "^admin/rooms_admin/$3[.]py:") >found
  same "$1 by $3 alone" found /dev/null
  (cd "$repo" && grep -qE "$2" "admin/rooms_admin/$3.py")
  status=$?
  holds "$1 by $3" [ "$status" = 0 ]
}
only 'a command is run' '\bsubprocess\b|\bos[.](exec|spawn|popen|posix_spawn|system\b)' \
  host/commands
only 'a child is tied to its parent' '[.]prctl\(' host/processes
only 'a lock is taken' '\bflock\(' host/locks
only 'HTTP goes to a socket in the file system' '\(http[.]client[.]HTTPConnection\):' host/at_socket
only 'the number of a run is read' '"number \(|DATED = ' backup/backups
only 'a file of passwords is named' '[.]htpasswd' passwords/passwords
only 'which hashes may be tried is said' 'apr1|[$]2|/A-Za-z0-9\]' passwords/passwords
only 'what can be a password is said' 'normalize\("NFC", password|LONGEST = 72' \
  passwords/password_rules
only 'the texts of a backup are named' '[/"-](records|review)[.]csv"|"lists[.]txt"' backup/texts
only "members' rows are written and read" 'group,user' people/members
only 'the members of a room are changed' '\bmembers[.]change\(' people/known
only 'what was known of them is kept' 'members[.]csv' people/known
only 'a file of a spreadsheet is read' 'open[(].*"utf-8-sig"|csv[.]reader[(]io' people/spreadsheet
only 'it is said who owns something or is in a group' 'owner if isinstance' lists/dump
only 'a server is stopped' 'systemctl\("stop"' room/server
only 'a server is started' 'systemctl\("start", [a-z.]*unit' room/server
only 'it is said how long a room may take' '\bANSWER(_SECONDS)? = |_timeout [0-9]+s' room/waits
only 'a setting has its form' 'setting\("[A-Z_]+",|yes\("[A-Z_]+"\)' room/settings
only 'what a terminal would obey is written in another way' \
  'ascii\(one\)\[' cli/report
only 'it is seen whether a stream is closed' 'sys[.]std[a-z]+ is (not )?None' cli/output
only 'what of a name is seen is said' 'isprintable\(\) (else|or|and)|table\("invisible' cli/signs
only "a backup's name is read as a moment" '\bmktime\(|%Y-%m-%d[.]%H%M%S"' backup/backups
only "a room's name is that of its settings" 'removesuffix\("[.]conf"\)' room/settings
only 'the unit of a nightly run is named' '"rooms-nightly(@\{|" *\+|"$)' room/settings
only 'a line of settings is read' 'startswith\(f?"[A-Z_{}a-z]+=' room/settings
# The same of folders of Python and of JavaScript: PLACE is the one file that may have it. A FILE
# may be a pattern, which is for the repository.
alone() { # WHAT PATTERN PLACE FILE ..
  # shellcheck disable=SC2068
  (cd "$repo" && grep -nE "$2" ${@:4} 2>&1 | grep -v "^$3:") >found
  same "$1 in $3 alone" found /dev/null
  (cd "$repo" && grep -qE "$2" "$3")
  status=$?
  holds "$1 in $3" [ "$status" = 0 ]
}
mapfile -t of_admin < <(cd "$repo" && printf '%s\n' admin/rooms_admin/{,*/}*.py)
alone 'the routes of a room' 'folder[|]object|"object", "move"' admin/rooms_admin/site/template.py \
  'deploy/nginx/*' "${of_admin[@]}"
alone 'what a level is' '"rwaxDtc"' web/tables/level_forms.js "${of_admin[@]}" \
  'web/acl/*.js' 'web/tables/*.js'
mapfile -t of_services < <(cd "$repo" && printf '%s\n' services/rooms_services/{,*/,*/*/}*.py)
alone 'what ends a request, and what answers it' 'class (Answer|Stop)\b' \
  services/rooms_services/room/answers.py "${of_services[@]}"
alone 'a room is asked by services' 'HTTP/1[.]1 \(|Room-User: |GET /can' \
  services/rooms_services/room/room.py "${of_services[@]}"
mapfile -t of_door < <(cd "$repo" && printf '%s\n' services/rooms_services/{room/,door/{,*/}}*.py)
alone 'a list is read at the door' '[.]split\(b?":"|removeprefix\(b?"list:' \
  services/rooms_services/room/lists.py "${of_door[@]}"
alone 'a tag is made' 'sha256\(|\btag_in\(' services/rooms_services/room/tags.py "${of_door[@]}"
alone 'who could have changed it is said' 'def holders|changersBy|inForce\([^)]*'"'[wa]*C'" \
  services/rooms_services/door/folders/holders.py "${of_door[@]}" 'web/net/*.js' 'web/share/*.js'
# What a list grants is asked of the program. Only these know of a part of it how it decides: by
# which entry somebody has a right, and who may remove what, by what the room rules of three rights.
# Tests compare each with the program.
alone 'which entry rules a right' \
  '[.](intersection|isdisjoint)\([a-z_.]*mask\)|in (it|one|entry|found)[.]mask\b' \
  admin/rooms_admin/lists/reasons.py "${of_admin[@]}" "${of_services[@]}"
alone 'who may remove it' '"[dDw]", "(allowed|denied)"' \
  services/rooms_services/door/folders/goes.py "${of_admin[@]}" "${of_services[@]}"
alone 'who may remove it, by the page' "[dDw] === '[AD]' (\\|\\||\\?)" web/acl/decide.js \
  'web/*/*.js'
alone 'an entry rules a right, by the page' \
  '(isRuling|isGranted|mayPass|mayDelete|isMember|isOwner|matchOf|bitsOf)\(' web/acl/decide.js \
  'web/*/*.js'
alone 'which day it is' 'toISOString\(\)[.]slice\(0, 10\)|getDate\(\)|T23:59' web/net/clock.js \
  'web/*/*.js'
alone 'which signs are invisible' 'u3164|u2800|u200[bef]|u202[ae]' web/tables/invisible_signs.js \
  'web/*.js' 'web/*/*.js' "${of_admin[@]}" "${of_services[@]}"
alone "an entry's text is read" '\[ADUL\]|[.]split\(b?":"' admin/rooms_admin/lists/entries.py \
  "${of_admin[@]}"
echo 'import subprocess' >two.py
grep -cE '\bsubprocess\b' two.py >found
echo 1 >wanted
same 'a second one is found' found wanted

# What goes the wrong way is found.
mkdir -p house/{tools,low/a,low/b,low/c}
cp "$repo/tools/modules" house/tools/
printf '## low: a part\nlow/a: the first\nlow/b: the second\n' >house/modules.txt
printf '<!-- modules -->\n<!-- /modules -->\n' >house/low/README.md
echo "import { two } from '../b/two.js';" >house/low/a/one.js
printf '%s\n' "import {" "  three," "} from './three.js';" >house/low/b/two.js
echo "const later = () => import('./two.js');" >house/low/b/three.js
echo 'from . import four' >house/low/c/five.py
echo 'from ..b import six' >house/low/a/verb_of_all.py
echo 'from ..a import verb_of_all' >house/low/b/seven.py
touch house/low/b/six.py
house/tools/modules --write
house/tools/modules --check >found
status=$?
holds 'the status of what is wrong' [ "$status" = 1 ]
printf '%s\n' 'modules.txt has no line for low/c' \
  "low/a/one.js names low/b/two.js, which stands behind it in modules.txt" \
  "low/b/seven.py names low/a/verb_of_all.py, which stands behind it in modules.txt" >wanted
grep -v '^these name one another: ' found | cmp -s - wanted
status=$?
holds "a folder without a line, and an import that goes up: $(cat found)" [ "$status" = 0 ]
holds 'a circle' grep -q '^these name one another: low/b/t[a-z]*.js low/b/t' found
echo '## low: a part' >house/modules.txt
house/tools/modules --check >found
holds 'another list' grep -q 'low/README.md has another list' found

# The budgets that the page tells are the units'.
python3 "$here/docs/budgets.py" "$repo/docs/security.md" "$repo/deploy/systemd" >found 2>&1
same 'budgets are what units say' found /dev/null
mkdir units
cp "$repo"/deploy/systemd/rooms-{earlier,port@,scan@,texts,would@}.service \
  "$repo"/deploy/systemd/rooms-{scan,would}.socket units/
sed -i 's/^MemoryMax=.*/MemoryMax=300M/' units/rooms-earlier.service
sed -i '/^TasksMax=/d' units/rooms-port@.service
sed -i 's/^MaxConnections=.*/MaxConnections=3/' units/rooms-scan.socket
grep -v '`rooms-texts`' "$repo/docs/security.md" >page.md
python3 "$here/docs/budgets.py" page.md units | sort >found
printf '%s\n' 'rooms-earlier: MemoryMax 512M by the page, 300M' \
  'rooms-port@: TasksMax 160 by the page, None' \
  'rooms-scan@: MaxConnections 2 by the page, 3' 'rooms-texts has no row' >wanted
same 'others are found' found wanted

# Each file has parts that try it, and each part is one that some file has.
. "$here/lib/parts.sh"
(cd "$repo" &&
  find web admin deploy services tools docs -type f ! -name '*.pyc' ! -name '*.png') | sort |
  while IFS= read -r file; do
    [ -n "$(parts_for "$repo/$file")" ] || echo "$file"
  done >found
same 'each file has its parts' found /dev/null
sed -n '/^[^#]/s/^[^:]*: //p' "$here/parts.txt" | tr ' ' '\n' | sort -u >named
all_parts | sort >there
same 'each part is named, and is there' named there
parts_for "$repo/web/acl/entries.js" >got
echo ' web/judged web/levels web/style web/page web/sharing docs/modules docs/scripts' >wanted
same 'the parts of a module' got wanted
