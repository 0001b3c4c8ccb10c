# Dialogs of the page, played by node over a room that is served with its door, against what 'rooms
# review' says of everybody before and after. Of 100 lists 25 are written by hand. More is played by
# hand, with JUDGED_TREES, JUDGED_SEED, JUDGED_BY_HAND and JUDGED_DIALOGS; then the figures are
# printed. JUDGED_FROM is the number of the first tree: with JUDGED_TREES=1 one is played alone.

. "$here/lib/door.sh"
if ! has node || ! has python3 ||
  ! node -e 'process.exit(Number(process.versions.node.split(".")[0]) < 18 ? 1 : 0)'; then
  skip 'dialogs over rooms at random' 'missing: node (18 or newer), python3'
  return
fi
trees=${JUDGED_TREES:-200}
first=${JUDGED_FROM:-0}
# So many trees of each dialog are in one room.
readonly MOST_TREES=200
top=$PWD
# A disk would take longer to sync each request than all else takes.
judged_room=/dev/shm/room
[ "$ROOMS_APART" = yes ] || judged_room=$top/room

# Plays each dialog over some trees, in a room of their own, and adds what was found to the figures.
play_room() { # FROM TREES
  gives 'a room' 0 'ready\n' '' init F root office
  gives 'groups of F' 0 'groups 3, members 8\n' '' groups F "$top/groups.csv"
  mkdir -p run/rooms/office
  start_at_socket F "$PWD/run/rooms/office/socket" 1000000 || return
  start_door office
  # shellcheck disable=SC2086
  timeout 7200 node "$here/web/judged.mjs" "$top/page" "$rooms" "$PWD" "$1" "$2" \
    "${JUDGED_SEED:-1}" "${JUDGED_BY_HAND:-25}" ${JUDGED_DIALOGS:-} >judged 2>"$work/err"
  [ "$(tail -n 1 judged)" = '0 faults' ] ||
    fail "dialogs over $2 trees" "$(tail -n 60 judged)$(head -c 600 "$work/err")"
  cat judged >>"$top/figures"
  stop_server
  stop_others
  gives 'sound after all of them' 0 'sound\n' '' verify F
}
# The figures of all rooms, by dialog.
summed() {
  awk -F, -v OFS=, '
    NR == 1 { print }
    /^[a-z]+(,[0-9]+)+$/ {
      if (!($1 in seen)) order[++count] = $1
      seen[$1]
      for (at = 2; at <= NF; at++) sum[$1, at] += $at
      most = NF
    }
    END {
      for (one = 1; one <= count; one++) {
        line = order[one]
        for (at = 2; at <= most; at++) line = line OFS sum[order[one], at]
        print line
      }
    }' figures
}

"$repo/tools/bundle.py" "$PWD/page"
# So that node takes them as modules, as a browser does.
echo '{"type":"module"}' >page/package.json
printf '%s\n' group,user staff,{bob,carol,kim} sales,{carol,dana} board,{carol,dana,kim} >groups.csv
end=$((first + trees))
for ((from = first; from < end; from += MOST_TREES)); do
  mkdir "$judged_room"
  cd "$judged_room" || return
  play_room "$from" $((end - from < MOST_TREES ? end - from : MOST_TREES))
  cd "$top" && rm -rf "$judged_room"
done
if [ "$(grep -c '^0 faults$' figures)" = $(((trees + MOST_TREES - 1) / MOST_TREES)) ]; then
  pass "dialogs over $trees trees"
fi
[ -z "${JUDGED_TREES:-}" ] || summed
