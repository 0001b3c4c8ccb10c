# Rooms whose stored rows are damaged: what is granted, shown, changed and left in them, request by
# request.

if [ "$loopback" = no ] || ! has python3 || ! has_sqlite ||
  ! python3 \
    -c 'import sqlite3; sqlite3.connect(":memory:").execute("CREATE TABLE t (a INTEGER) STRICT")' \
    2>/dev/null; then
  skip 'damaged rows' 'no loopback, python3, or sqlite3, or one that is too old'
  return
fi
# Thousands of commits wait for a disk, where no test is about the disk.
folder=$(mktemp -d /dev/shm/rooms-damage.XXXXXX 2>/dev/null) || folder=$PWD
python3 -B "$here/program/damage.py" "$rooms" "$folder" "$((port + 1))" "$patience" >said 2>errors
[ "$folder" = "$PWD" ] || rm -rf "$folder"
port=$((port + 200))
if [[ $(tail -n 1 said) =~ ^([0-9]+)\ held,\ ([0-9]+)\ broken$ ]]; then
  passes 'damaged rows' "${BASH_REMATCH[1]}"
  sed -n 's/^FAILED //p' said >broken
  while IFS= read -r line; do fail 'damaged rows' "$line"; done <broken
else
  fail 'damaged rows' "they aren't played to the end: $(tail -n 3 said errors)"
fi

# A parent that is not there at all breaks what the tables themselves demand, and such a file isn't
# served.
new_room F
sqlite3 F "PRAGMA foreign_keys=off; UPDATE nodes SET parent = 999"
gives 'a file that is not served' 3 '' 'fault: database\n' serve F --port "$port"
