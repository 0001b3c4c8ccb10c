# `verify` and `migrate`. Files of schema 1 are kept beside the tests; rows that are unsound are
# made by sqlite3.

# The room of `protect-and-rejoin` at its end, and of `move-out-and-back` after its first step, as
# schema 2.
finished() { # NAME: writes the dump that is wanted
  cat "$data/$1.dump"
}

take "rejoined.1.db" F
gives 'migrate-then-same-dump: old' 2 'refused: schema 1 is old\n' '' dump F
gives 'verify of the older schema' 2 'refused: schema 1 is old\n' '' verify F
gives 'serve of the older schema' 2 'refused: schema 1 is old\n' '' serve F --port "$((port + 1))"
gives 'migrate' 0 'migrated\n' '' migrate F
run dump F
finished rejoined >wanted
wants_file 'the finished lists' 0 wanted
gives 'sound' 0 'sound\n' '' verify F
gives 'once more' 2 'refused: schema 2 is new\n' '' migrate F

take "moved.1.db" G
gives 'migrate-keeps-kept-entries' 0 'migrated\n' '' migrate G
run dump G
finished moved >wanted
wants_file 'the kept entries' 0 wanted
gives 'sound' 0 'sound\n' '' verify G

take "unsound.1.db" H
cp H before
gives 'migrate-unsound' 1 'fault /a/b/c V3 broken-law\n' '' migrate H
gives 'it is still old' 2 'refused: schema 1 is old\n' '' dump H
gives 'and again' 1 'fault /a/b/c V3 broken-law\n' '' migrate H

if ! has_sqlite; then
  skip 'unsound rows' 'no sqlite3, or one that is too old'
  return
fi

# What sqlite3 finds in a file of the program, and what the program finds in one of sqlite3.
holds 'sqlite3 finds the file sound' \
  [ "$(sqlite3 F 'PRAGMA integrity_check; PRAGMA foreign_key_check;')" = ok ]
holds 'a column for an auditor' \
  [ "$(sqlite3 F "SELECT dacl_inh FROM nodes WHERE name = 'c'")" = "A:fdI:bob:r
A:fdI:root:$ALL" ]
gives 'sound after a reader' 0 'sound\n' '' verify F

made_unsound() { # NAME SQL FAULT; a number stands for N in FAULT
  cp F U
  rm -f U-wal
  sqlite3 U "PRAGMA foreign_keys=off; $2" >/dev/null || fail "$1" 'sqlite3'
  local number
  number=$(sqlite3 U "SELECT id FROM nodes WHERE name = 'a'")
  gives "$1" 1 "fault ${3//N/$number}\n" '' verify U
}
made_unsound verify-broken-law "UPDATE nodes SET dacl_inh = '' WHERE name = 'c'" \
  '/a/b/c V3 broken-law'
made_unsound verify-bad-list-text "UPDATE nodes SET dacl_own = 'A::alice' WHERE name = 'a'" \
  '?N V2 bad-list'
made_unsound 'an entry that is not valid' \
  "UPDATE nodes SET dacl_own = 'A:i:alice:r' || char(10) WHERE name = 'a'" '?N V2 bad-list'
made_unsound verify-two-roots "UPDATE nodes SET parent = NULL WHERE name = 'a'" '?N V4 bad-root'
made_unsound 'no folder as root' "UPDATE nodes SET kind = 0, dacl_own = '' WHERE parent IS NULL" \
  '?1 V4 bad-root'
made_unsound 'a parent that is no folder' \
  "INSERT INTO nodes VALUES (900, 1, 'q', 0, 'root', 'staff', 1, 1, '', '', '', '');
  UPDATE nodes SET parent = 900 WHERE name = 'a'" '?N V5 bad-parent'
made_unsound 'verify-loop' \
  "UPDATE nodes SET parent = (SELECT id FROM nodes WHERE name = 'c') WHERE name = 'a'" '?N V1 loop'
made_unsound verify-bad-name "UPDATE nodes SET name = 'x/y' WHERE name = 'c'" '/a/b/x/y V6 bad-name'
made_unsound 'a folder with bytes' \
  "INSERT INTO bodies VALUES ((SELECT id FROM nodes WHERE name = 'c'), x'00')" '/a/b/c V7 bad-body'

# A parent that is not there breaks what the tables themselves demand, and such a file is not
# opened.
cp F U
rm -f U-wal
sqlite3 U "PRAGMA foreign_keys=off; UPDATE nodes SET parent = 999 WHERE name = 'a'" >/dev/null
gives 'a parent that is not there' 3 '' 'fault: database\n' verify U

# What a row that can't be read does to the others.
cp F U
rm -f U-wal
sqlite3 U "UPDATE nodes SET dacl_own = 'A::alice' WHERE name = 'a'"
gives 'dump of a damaged row' 3 '' 'fault: database\n' dump U
if start_server U 1; then
  asks 'a request through a damaged row' "json '500 Internal Server Error' '{\"why\":\"store\"}'" \
    GET /folder/a/b root
  server_ends 'the server goes on' 0 ''
fi
cp F U
sqlite3 U \
  "INSERT INTO audits (at, user, path, bits, granted, entry) VALUES (1, 'alice', '/', 1, 7, 1)"
gives 'audit of a damaged row' 3 '' 'fault: database\n' audit U
gives 'which is no fault of the rows' 0 'sound\n' '' verify U
cp F U
sqlite3 U "INSERT INTO members (grp, user) VALUES ('bad name', 'alice')"
gives 'a pair that is none is left out' 0 'group,user\n' '' groups-out U

# Other tables than those of a room, or one more, or an index, a view or a trigger: that is a fault
# of the database, and nothing in it changes. Once that is gone, it is the room again.
other_tables() { # NAME SQL [BACK]
  cp F U
  rm -f U-wal
  sqlite3 U "$2" 2>/dev/null || { skip "$1" 'this sqlite3 makes none'; return; }
  local before
  before=$(cksum <U)
  gives "$1: verify" 3 '' 'fault: database\n' verify U
  gives "$1: dump" 3 '' 'fault: database\n' dump U
  gives "$1: serve" 3 '' 'fault: database\n' serve U --port "$((port + 1))"
  from_lines list:a
  gives "$1: reset" 3 '' 'fault: database\n' reset U /a dacl
  input=/dev/null
  gives "$1: it is of this version" 2 'refused: schema 2 is new\n' '' migrate U
  holds "$1: nothing is changed" [ "$before" = "$(cksum <U)" ]
  if [ -n "${3-}" ]; then
    sqlite3 U "$3"
    gives "$1: and back" 0 'sound\n' '' verify U
  fi
}
other_tables 'a column that is gone' 'ALTER TABLE nodes DROP COLUMN sacl_inh'
other_tables 'a table more' 'CREATE TABLE notes (x)' 'DROP TABLE notes'
other_tables 'an index' 'CREATE INDEX owners ON nodes (owner)' 'DROP INDEX owners'
other_tables 'a view' 'CREATE VIEW names AS SELECT name FROM nodes' 'DROP VIEW names'
other_tables 'what ANALYZE leaves' 'ANALYZE' 'DROP TABLE sqlite_stat1'
other_tables 'a table without its rules' \
  'DROP TABLE members; CREATE TABLE members (grp TEXT NOT NULL, user TEXT NOT NULL)'
# One with a trigger the database library doesn't open at all.
cp F U
rm -f U-wal
sqlite3 U 'CREATE TRIGGER gone AFTER DELETE ON nodes BEGIN DELETE FROM audits; END'
gives 'a trigger' 3 '' 'fault: database\n' verify U
sqlite3 U 'DROP TRIGGER gone'
gives 'and back without it' 0 'sound\n' '' verify U
take "rejoined.1.db" H
sqlite3 H 'CREATE TABLE notes (x)'
gives 'an older room with a table more' 3 '' 'fault: database\n' migrate H
gives 'which is as it was' 2 'refused: schema 1 is old\n' '' verify H
sqlite3 H 'DROP TABLE notes'
gives 'and is upgraded without it' 0 'migrated\n' '' migrate H

# What sqlite3 makes of a room without changing its tables is the room.
cp F U
rm -f U-wal
sqlite3 U 'VACUUM; REINDEX;'
gives 'a room after VACUUM' 0 'sound\n' '' verify U
rm -f U
sqlite3 F .dump | sqlite3 U 2>/dev/null
gives 'a room that sqlite3 wrote from its text' 0 'sound\n' '' verify U

# The counter of records at its end: the rows are sound, and no record can be added.
cp F U
rm -f U-wal
from_lines list:a U:S:EVERYONE@:r
gives 'a list that asks for records' 0 'done\n' '' reset U / sacl
input=/dev/null
sqlite3 U "DELETE FROM sqlite_sequence;
  INSERT INTO sqlite_sequence VALUES ('audits', 9223372036854775807)"
gives 'no number is left' 1 'fault ? V8 no-numbers\n' '' verify U
if start_server U 2; then
  asks 'a request that is recorded' "json '500 Internal Server Error' '{\"why\":\"store\"}'" \
    GET /folder/ root
  asks 'one that is not' "json '200 OK' '{}'" GET '/can/?' root
  server_ends 'the server goes on without numbers' 0 ''
fi
# As messages.md says.
sqlite3 U "UPDATE sqlite_sequence
  SET seq = (SELECT coalesce(max(seq), 0) FROM audits) WHERE name = 'audits';"
gives 'the counter is set back' 0 'sound\n' '' verify U
if start_server U 1; then
  asks 'it is recorded' \
    "json '200 OK' '[{\"kind\":\"folder\",\"name\":\"a\"}]'" GET /folder/ root
  server_ends 'the server ends' 0 ''
fi
