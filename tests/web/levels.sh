# The levels of web, and who gains and loses by a change, by node: the lists of docs/lists.md there
# and back, lists at random, and what is asked of the program.

if ! has node ||
  ! node -e 'process.exit(Number(process.versions.node.split(".")[0]) < 18 ? 1 : 0)'; then
  skip 'the levels of the page' 'missing: node (18 or newer)'
  return
fi
"$repo/tools/bundle.py" "$PWD/page"
# So that node takes them as modules, as a browser does.
echo '{"type":"module"}' >page/package.json

node_says() { # NAME LAST-LINE ARGUMENT ..
  local name=$1 wanted=$2
  shift 2
  TMPDIR=$work timeout 900 node "$@" >"$work/out" 2>"$work/err"
  if [ "$(tail -n 1 "$work/out")" = "$wanted" ]; then
    pass
  else
    fail "$name" "$(head -c 1500 "$work/out")$(head -c 600 "$work/err")"
  fi
}

node_says 'levels, over the lists of the page and at random' '0 told' "$here/web/node.mjs" \
  "$here/web/levels.js" page "$here/../docs/lists.md" 5000
# Whether a last day is over is the machine's to say, wherever the browser is.
for zone in UTC America/New_York Asia/Tokyo; do
  TZ=$zone node "$here/web/clock.mjs" page >got 2>&1
  same "the machine's day, in a browser at $zone" got /dev/null
done
# The night takes back what the page says it will, on the day that it says, and nothing else.
if [ -x /usr/bin/python3 ]; then
  for seed in 1 2; do
    node "$here/web/ends.mjs" page 10000 "$seed" 2>"$work/err" |
      PYTHONPATH=$repo/admin /usr/bin/python3 -B "$here/web/ends.py" >"$work/out" 2>>"$work/err"
    holds "accesses that end: $(head -c 1500 "$work/out")$(head -c 600 "$work/err")" \
      [ "$(tail -n 1 "$work/out")" = '10000 lists, some taken back, 0 differ' ]
  done
  # What the page marks in a name, root's terminal doesn't show as it is either, nor has a ZIP it.
  node --input-type=module -e 'const { marked } = await import(process.argv[1]);
    for (let code = 1; code < 0x110000; code += 1) {
      if (code >= 0xd800 && code < 0xe000) continue;
      const name = `a${String.fromCodePoint(code)}b`;
      if (marked(name) !== name) console.log(code);
    }' "$PWD/page/invisible.js" >codes 2>"$work/err"
  PYTHONPATH=$repo/admin:$repo/services /usr/bin/python3 -B -c 'import sys, unicodedata
from rooms_admin.cli import signs
from rooms_services.door.folders.archive import safe_name
codes = [int(line) for line in sys.stdin]
# (node may know signs that this Python has no category for)
known = [one for one in codes if unicodedata.category(chr(one)) != "Cn"]
print(len(known) > 200, [hex(one) for one in codes if signs.is_seen(chr(one))],
      [hex(one) for one in known if safe_name(f"a{chr(one)}b") not in ("a_b", "a b")])' <codes \
    >got 2>>"$work/err"
  echo 'True [] []' >wanted
  same "signs that aren't seen$(head -c 600 "$work/err")" got wanted
else
  skip 'accesses that end' 'missing: /usr/bin/python3'
fi
node_says 'what is said before a list is sent' '89 tried, 0 faults' "$here/web/warning.mjs" page
node_says 'and with the program' '89 tried, 0 faults' "$here/web/warning.mjs" page "$rooms"
node_says 'for whom a change is asked about' '50 tried, 0 faults' "$here/web/callers.mjs" page
node_says 'what is asked and answered about a change' '2000 tried, 0 faults' \
  "$here/web/asking.mjs" page 2000
node_says 'and what the program says of it' '150 tried, 0 faults' \
  "$here/web/asking.mjs" page 150 "$rooms"
for members in known unknown; do
  node_says "what is said of a move, members $members" '500 tried, 0 faults' \
    "$here/web/going.mjs" page 500 "$members"
  node_says "the same with the program, members $members" '100 tried, 0 faults' \
    "$here/web/going.mjs" page 100 "$members" 12 "$rooms"
done
node_says 'what the panel says of one click, in rooms at random' '1500 tried, 0 faults' \
  "$here/web/unsaid.mjs" page 1500
node_says 'what the panel says by the program' '100 tried, 0 faults' \
  "$here/web/unsaid.mjs" page 100 6 "$rooms"
node_says 'what was seen further down, after changes' '300 tried, 0 faults' \
  "$here/web/crawling.mjs" page 300
node_says 'what may not be read, and a room that is away' '42 tried, 0 faults' \
  "$here/web/away.mjs" page
node_says 'where an address leads' '73 tried, 0 faults' "$here/web/addresses.mjs" page
node_says 'how many requests are sent at once' '6 tried, 0 faults' "$here/web/paced.mjs" page
node_says 'large documents over a line that fails' '73 tried, 0 faults' \
  "$here/web/in_pieces.mjs" page
same_folded() {
  python3 -IB "$here/web/searched.py" page "$repo/services" >"$work/out" 2>"$work/err"
  grep -qx '[0-9]* folded, 0 differ' "$work/out"
}
holds "which names fit a search, by the page and by the door: $(same_folded && echo yes ||
  head -c 600 "$work/out" "$work/err")" grep -q ' 0 differ$' "$work/out"
# Every case of who may remove what.
if has python3; then
  python3 -B "$here/model/removing.py" "$rooms" >cases 2>"$work/err"
  node "$here/web/removals.mjs" page <cases >"$work/out" 2>>"$work/err"
  holds "who may remove what: $(tail -n 3 "$work/out" "$work/err")" \
    grep -qx '864 cases, 512 may, 0 differ' "$work/out"
else
  skip 'who may remove what' 'missing: python3'
fi
node_says 'lists after changes and moves, as the program has them' '0 differ' \
  "$here/web/compared.mjs" page "$rooms" "$PWD/compared" 6
