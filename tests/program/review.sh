# `review`: who has rows, what they say, which are left out, and what is refused. In a room made at
# random, each row is compared with what the running server answers to that caller.

HEADER='path,kind,user,rights,remove\n'
reviews() { # NAME ROWS ARGUMENT ..
  local name=$1 rows=$2
  shift 2
  gives "$name" 0 "$HEADER$rows" '' review "$@"
}
longest=$(printf 'a%.0s' {1..64})@$(printf 'b%.0s' {1..64})

new_room F
reviews 'a new room' "/,folder,root,$ALL,no\n/,folder,*,,no\n/,folder,ANONYMOUS@,,no\n" F /
open_room F
everybody="/,folder,root,$ALL,no\n/,folder,*,x,no\n/,folder,ANONYMOUS@,x,no\n"
reviews 'an open room' "$everybody" F /
reviews 'the whole of it' "$everybody" F / --all
reviews 'one name' "/,folder,root,$ALL,no\n" F / --user root
reviews 'a name that stands nowhere' '/,folder,nobody,x,no\n' --user nobody F / --all
reviews 'the longest name' "/,folder,$longest,x,no\n" F / "--user=$longest"
reviews 'the group is no user' '/,folder,staff,x,no\n' F / --user staff

# A list names users by entries without `g`; a sacl gives nobody a row, and neither does a group
# without members.
set_list F / dacl list:a A::EVERYONE@:x "A:fd:root:$ALL" A:g:ghosts:r D::bob:w A:fi:carol:r A::dave:
set_list F / sacl list:a U:S:eve:r
printf 'group,user\nghosts,zoe\n' >members.csv
reviews 'who is named' "/,folder,bob,x,no\n/,folder,carol,x,no\n/,folder,dave,x,no\n$everybody" F /
gives 'a pair' 0 'groups 1, members 1\n' '' groups F members.csv
reviews 'who is in a pair' \
  "/,folder,bob,x,no\n/,folder,carol,x,no\n/,folder,dave,x,no\n/,folder,root,$ALL,no\n/,folder,zoe,rx,no\n/,folder,*,x,no\n/,folder,ANONYMOUS@,x,no\n" F /
reviews 'one of the group' '/,folder,zoe,rx,no\n' F / --user zoe

# What is refused, and in which order: NAME, then PATH, then the file.
refuses() { # NAME OUT ARGUMENT ..
  local name=$1 out=$2
  shift 2
  gives "$name" 2 "refused: $out\n" '' review "$@"
}
for name in '' 'bad name' '*' ANONYMOUS@ EVERYONE@ "${longest}b" 'a@' 'é'; do
  refuses "no name: '$name'" 'A3 bad who' F / "--user=$name"
done
refuses_bad_paths
refuses 'nothing there' 'N1 no-such at /q' F /q
refuses 'nothing far below' 'N1 no-such at /q' F /q/r/s --all
refuses 'nothing there for a name' 'N1 no-such at /q' F /q --user root
refuses 'escapes stand as they are' 'N1 no-such at /%71' F /%71
refuses 'the name comes before the path' 'A3 bad who' F q --user 'bad name'
refuses 'the name comes before the file' 'A3 bad who' missing / --user 'bad name'
refuses 'the path comes before the file' 'P1 bad object name' missing q
gives 'a file that is missing' 3 '' 'fault: file\n' review missing /
for words in '' '/ more' '/ --user' '/ --user a --user b' '/ --all --all' '/ --all=yes' \
  '/ --group staff'; do
  run review F $words
  holds "review F $words" [ "$status" = 2 ]
  holds "review F $words (standard output)" [ ! -s "$work/out" ]
  holds "review F $words (standard error)" [ -s "$work/err" ]
done

# A tree of two thousand folders, whose last one has a list of its own; and rows that can't be read.
if has_sqlite; then
  open_room D
  sqlite3 D "WITH RECURSIVE deep (n) AS (SELECT 1 UNION ALL SELECT n + 1 FROM deep WHERE n < 2000)
    INSERT INTO nodes (id, parent, name, kind, owner, grp, dacl_flags, sacl_flags, dacl_own,
      dacl_inh, sacl_own, sacl_inh)
    SELECT n + 1, n, 'a', 1, 'root', 'staff', 1, 1, iif(n = 2000, 'A::bob:r' || char(10), ''),
      'A:fdI:root:$ALL' || char(10), '', ''
    FROM deep"
  gives 'a deep tree' 0 'sound\n' '' verify D
  last=$(printf '/a%.0s' {1..2000})
  reviews 'what differs in a deep tree' \
    "/,folder,bob,x,no\n$everybody/a,folder,bob,,no\n/a,folder,root,$ALL,yes\n/a,folder,*,,no\n/a,folder,ANONYMOUS@,,no\n" D /
  run review D / --all
  holds 'all of a deep tree' [ "$(wc -l <"$work/out")" = 8005 ]
  reviews 'its last folder' "$last,folder,bob,,no\n$last,folder,root,$ALL,yes\n$last,folder,*,,no\n$last,folder,ANONYMOUS@,,no\n" D "$last"
  set_list D / dacl list:a "A:fd:root:$ALL" A:d:EVERYONE@:x
  reviews 'its last folder, with the way open' "$last,folder,bob,rx,no\n" D "$last" --user bob
  reviews 'what differs then' "/,folder,bob,x,no\n$last,folder,bob,rx,no\n" D / --user bob

  damaged() { # NAME SQL ARGUMENT ..
    local name=$1 sql=$2
    shift 2
    cp D U
    rm -f U-wal
    sqlite3 U "PRAGMA foreign_keys=off; $sql" >/dev/null || fail "$name" 'sqlite3'
    gives "$name" 3 '' 'fault: database\n' review U "$@"
  }
  damaged 'a row below' "UPDATE nodes SET dacl_own = 'A::alice' WHERE id = 1000" /
  damaged 'the last row' "UPDATE nodes SET kind = 7 WHERE id = 2001" / --all
  damaged 'a row on the way' "UPDATE nodes SET owner = 'bad name' WHERE id = 1000" "$last"
  damaged 'the row of the path' "UPDATE nodes SET dacl_inh = 'A:' WHERE id = 2001" "$last" \
    --user bob
  damaged 'the root' "UPDATE nodes SET dacl_flags = 9 WHERE id = 1" /a
  cp F U
  rm -f U-wal
  sqlite3 U "INSERT INTO members (grp, user) VALUES ('bad name', 'yan'), ('sales', 'yen')"
  reviews 'a pair that is none is left out' "/,folder,bob,x,no
/,folder,carol,x,no
/,folder,dave,x,no
/,folder,root,$ALL,no
/,folder,yen,x,no
/,folder,zoe,rx,no
/,folder,*,x,no
/,folder,ANONYMOUS@,x,no
" U / --all
else
  skip 'a deep tree, and damaged rows' 'no sqlite3, or one that is too old'
fi

[ "$loopback" = yes ] || { skip 'rows and answers' 'this machine has no loopback'; return; }

# Names that have to be quoted, a document, and ways that are closed: each row by hand.
open_room G
if start_server G 10; then
  asks 'a folder with a comma' made POST /folder/a%2Cb root
  asks 'a document with a quote' made PUT /doc/a%2Cb/say%20%22x%22 root hello
  asks 'a folder beside it' made POST /folder/a root
  asks 'a document in that' made PUT /doc/a/x root hello
  asks 'its list' done_reply PUT /dacl/a/x root $'list:a\nA::bob:rd\n'
  asks 'its owner' done_reply PUT /attr/a/x root '{"owner":"carol","group":"staff"}'
  asks 'the list of its folder' done_reply \
    PUT /dacl/a root $'list:ap\nD::dave:x\nA::EVERYONE@:x\nA::OWNER@:D\nA:f:OWNER@:r\n'
  asks 'the list of the other' done_reply \
    PUT /dacl/a%2Cb root $'list:a\nA:fi:ANONYMOUS@:r\nA::AUTHENTICATED@:x\n'
  asks 'nothing far below' "json '404 Not Found' '{\"at\":\"/a/q\",\"why\":\"no-such\"}'" \
    GET /can/a/q?r root
  asks 'nothing below a document' "json '409 Conflict' '{\"at\":\"/a/x\",\"why\":\"not-folder\"}'" \
    GET /can/a/x/q?r carol
  server_ends 'the server ends' 0 ''
fi
quoted='"/a,b/say ""x"""'
reviews 'each row' "/,folder,bob,x,no
/,folder,carol,x,no
/,folder,dave,x,no
/,folder,root,$ALL,no
/,folder,*,x,no
/,folder,ANONYMOUS@,x,no
/a,folder,dave,,no
/a,folder,root,rxD,yes
/a/x,document,bob,rd,yes
/a/x,document,carol,r,no
/a/x,document,root,,yes
/a/x,document,*,,no
/a/x,document,ANONYMOUS@,,no
\"/a,b\",folder,root,$ALL,yes
\"/a,b\",folder,ANONYMOUS@,,no
$quoted,document,bob,,no
$quoted,document,carol,,no
$quoted,document,dave,,no
$quoted,document,*,,no
" G /
reviews 'a document alone' \
  "$quoted,document,root,$ALL,yes\n$quoted,document,*,,no\n$quoted,document,ANONYMOUS@,,no\n" \
  G '/a,b/say "x"'
reviews 'a folder and a name' '/a,folder,dave,,no\n' G /a --user dave
reviews 'the same, whole' '/a,folder,dave,,no\n/a/x,document,dave,,no\n' G /a --user dave --all
refuses 'through a document' 'N2 not-folder at /a/x' G /a/x/q
refuses 'far through a document' 'N2 not-folder at /a/x' G /a/x/q/r --user bob
refuses 'nothing in the folder' 'N1 no-such at /a/q' G /a/q --all

# What the parts below share: a number below another one by a fixed seed, and messages.
making='
  BEGIN { for (at = 1; at < 256; at++) code[sprintf("%c", at)] = at; seed = 20261126 }
  function below(bound) { seed = seed * 16807 % 2147483647; return int(seed / 2147483647 * bound) }
  function encoded(path,  text, at, letter) {
    for (at = 1; at <= length(path); at++) {
      letter = substr(path, at, 1)
      text = text (letter ~ /[A-Za-z0-9._~\/-]/ ? letter : sprintf("%%%02X", code[letter]))
    }
    return text
  }
  function send(method, target, user, body) {
    printf "%s %s HTTP/1.1\r\n", method, target
    if (user != "-") printf "Room-User: %s\r\n", user
    if (body != "") printf "Content-Length: %d\r\n", length(body)
    printf "\r\n%s", body
  }'

# Thirty users. The last six have no rows: one stands in a sacl alone, and two have the name of a
# group.
users='alice Alice a.lice a-lice a+lice a_lice alice@example.org alice@a bob Bob bob9 9bob $carol
  car\ol carol dave dave.d d eve eve@x.y frank fred gina Gina hanna ian jo kim leo mia'
groups='staff sales a.team clerks kim leo ghosts'
printf '%s\n' $users >users
printf '%s\n' $groups >groups

# Three hundred objects: the requests that make them go to standard output, PATH and kind of each to
# the file objects, and the members to members.csv. Lists come last, those below before those above,
# so that root gets everywhere until then.
make_room() {
  awk -v all="$ALL" "$making"'
    function mask(  at, text) {
      for (at = 1; at <= length(all); at++) if (below(3) == 0) text = text substr(all, at, 1)
      return text
    }
    function entry(is_folder, kept,  kind, flags, who) {
      kind = below(20)
      if (kind < 9) who = users[below(23) + 1]
      else if (kind < 13) { who = groups[below(7) + 1]; flags = "g" }
      else who = substr("OWNER@        GROUP@        EVERYONE@     ANONYMOUS@    " \
        "AUTHENTICATED@OWNER@        AUTHENTICATED@", (kind - 13) * 14 + 1, 14)
      sub(/ +$/, "", who)
      if (is_folder) {
        kind = below(6)
        if (kind < 5)
          flags = (kind < 3 ? "fd" : kind < 4 ? "f" : "d") (below(5) ? "" : "n") \
            (below(5) ? "" : "i") flags
      }
      return (below(10) < 3 ? "D" : "A") ":" flags (kept && below(2) ? "I" : "") ":" who ":" \
        mask() "\n"
    }
    function list(is_folder,  flags, text, left) {
      flags = below(10)
      flags = flags < 8 ? "a" : flags < 9 ? "ap" : ""
      text = "list:" flags "\n"
      for (left = below(5); left >= 0; left--) text = text entry(is_folder, flags == "ap")
      return text (is_folder && below(4) ? "A:" (below(2) ? "d" : "") ":EVERYONE@:x\n" : "")
    }
    function new_name(parent,  kind) {
      kind = below(12)
      if (kind < 2 && last[parent] != "") return last[parent] (kind ? " (copy)" : "-2")
      return substr("a,b   say   it\047s  \303\251    \"     *     #     10%   " \
        "A     z     .     -     ", kind * 6 + 1, 6)
    }
    FNR == 1 { file++ }
    file == 1 { users[FNR] = $0; next }
    { groups[FNR] = $0 }
    END {
      print "group,user" >"members.csv"
      for (at = 1; at < 7; at++) for (user = 1; user < 20; user++)
        if (below(5) == 0) print groups[at] "," users[user] >"members.csv"
      print "/\tfolder" >"objects"
      path[0] = "/"; folders = 1; folder[0] = 0
      for (number = 1; number <= 300; number++) {
        do { parent = below(4) ? folder[below(folders)] : 0 } while (depth[parent] > 6)
        do {
          name = new_name(parent)
          sub(/ +$/, "", name)
          if (name !~ /copy|-2/) name = name below(1000)
          path[number] = (parent ? path[parent] : "") "/" name
        } while (path[number] in taken)
        taken[path[number]] = 1
        depth[number] = depth[parent] + 1
        is_folder[number] = below(5) < 2
        if (is_folder[number]) {
          folder[folders++] = number; last[parent] = name
          send("POST", "/folder" encoded(path[number]), "root")
        }
        else send("PUT", "/doc" encoded(path[number]), "root", "x")
        print path[number] "\t" (is_folder[number] ? "folder" : "document") >"objects"
      }
      for (number = 0; number <= 300; number++) if (below(5) < 2)
        send("PUT", "/attr" encoded(path[number]), "root",
          "{\"owner\":\"" users[below(12) + 1] "\",\"group\":\"" groups[below(6) + 1] "\"}")
      for (number = 300; number > 0; number--) if (below(100) < (is_folder[number] ? 50 : 25))
        send("PUT", "/dacl" encoded(path[number]), "root", list(is_folder[number]))
      send("PUT", "/sacl/", "root", "list:a\nU:fd:ian:rwx\n")
      send("PUT", "/dacl/", "root", "list:a\nD:fdn:$carol:x\nA:fdig:a.team:r\nA:fd:frank:xrD\n" \
        "A:fdg:sales:rxt\nA::EVERYONE@:x\nA:fi:gina:rw\nA::Gina:\n")
    }' users groups
}

# The answers of a connection, a line each: the status, and the JSON behind it. The last one ends
# the connection.
answers() { tr -d '\r' <"$work/reply" | sed 's/HTTP\/1\.1 /\n&/g' | awk '
  /^HTTP\/1\.1 / { if (said != "") print said; said = $2; next }
  /^[{]/ { said = said " " $0 }'; }

# A line for each object: the letters that `can` calls allowed, and none where it is denied.
ask_rights() { # USER FILE
  who=$1 awk -F'\t' -v all="$ALL" \
    "$making"'{ send("GET", "/can" encoded($1) "?" all, ENVIRON["who"]) }' objects >"$work/sent"
  converse
  answers | awk -v all="$ALL" '
    $1 == 403 { print ""; next }
    $1 != 200 { print "status " $1; next }
    { text = ""
      for (at = 1; at <= length(all); at++)
        if (index($0, "\"" substr(all, at, 1) "\":\"allowed ")) text = text substr(all, at, 1)
      print text }' >"$2"
}

# A line for each object: whether a copy of the room lets the user remove it, after all that is in
# it was tried.
try_removals() { # USER FILE
  cp F copy
  rm -f copy-wal
  start_server copy 1 || return
  who=$1 awk -F'\t' "$making"'{ path[NR] = $1 }
    END {
      for (at = NR; at > 0; at--) send("DELETE", "/object" encoded(path[at]), ENVIRON["who"])
    }' objects >"$work/sent"
  converse
  wait_for "$server" || fail "removals by $1" "the server doesn't end"
  stop_server
  answers | awk '
    { said[NR] = $1 == 204 || $1 == 409 && /"why":"not-empty"/ ? "yes" : \
        $1 == 403 || $1 == 409 && /"why":"root"/ ? "no" : "status " $1 }
    END { for (at = NR; at > 0; at--) print said[at] }' >"$2"
}

# The users that have rows of their own, from a dump: those of pairs, and at the objects on the way,
# at the path and below it the owners and whom a dacl names.
known_at() { # PATH
  path=$1 awk -F'[ :]' '
    BEGIN { path = ENVIRON["path"]; under = path == "/" ? path : path "/" }
    /^(folder|document) / {
      at = $0; sub(/^[^\/]*/, "", at)
      counts = at == "/" || at == path || index(at, under) == 1 || index(path, at "/") == 1
      if (counts) print $2
      next
    }
    /^member / { print $3; next }
    /^[ds]acl$/ { decides = /^d/; next }
    counts && decides && /^[AD]:/ && $2 !~ /g/ && $3 !~ /@$/ { print $3 }' dumped | sort -u
}

# Of a whole table: the rows of the path and of what is below it, for these users, for `*` and for a
# caller without a name.
rows_at() { # PATH NAMES <TABLE
  path=$1 awk -F, '
    BEGIN {
      path = ENVIRON["path"]; under = path == "/" ? path : path "/"
      named["*"]; named["ANONYMOUS@"]
    }
    FILENAME != "-" { named[$0]; next }
    FNR == 1 { print; next }
    { at = $0; sub(/,(folder|document),[^,]*,[^,]*,[a-z]*$/, "", at)
      if (at ~ /^"/) { at = substr(at, 2, length(at) - 2); gsub(/""/, "\"", at) } }
    (at == path || index(at, under) == 1) && ($(NF - 2) in named)' "$2" -
}

# Of a whole table: the rows of the path, and those that differ from the same user at the folder
# above.
left_at() { # PATH <TABLE
  path=$1 awk -F, '
    NR == 1 { print; next }
    { at = $0; sub(/,(folder|document),[^,]*,[^,]*,[a-z]*$/, "", at)
      if (at ~ /^"/) { at = substr(at, 2, length(at) - 2); gsub(/""/, "\"", at) }
      above = at; sub(/\/[^\/]*$/, "", above); if (above == "") above = "/"
      said[at, $(NF - 2)] = $(NF - 1) "," $NF }
    at == ENVIRON["path"] || said[at, $(NF - 2)] != said[above, $(NF - 2)]' -
}

rm -f F F-wal
open_room F
make_room >"$work/sent"
gives 'the members' 0 \
  "groups $(sed 1d members.csv | cut -d, -f1 | sort -u | wc -l), members $(
    sed 1d members.csv | wc -l
  )\n" '' groups F members.csv
start_server F 40 || return
converse
holds 'the room is made' [ "$(grep -cv '^20[14]$' "$work/statuses")" = 0 ]
# The objects in the order of the table: by their names, one level after the other.
tr '/' '\001' <objects | sort -t $'\t' -k 1,1 | tr '\001' '/' >sorted
mv sorted objects
{ cat users; printf '%s\n' root stranger -; } >callers
number=0
while IFS= read -r user; do
  number=$((number + 1))
  ask_rights "$user" "rights.$number"
done <callers
stop_server
gives 'the room is sound' 0 'sound\n' '' verify F
run dump F
cp "$work/out" dumped
before=$(cksum <F)
number=0
while IFS= read -r user; do
  number=$((number + 1))
  try_removals "$user" "removals.$number"
  paste objects "rights.$number" "removals.$number" >"answers.$number"
done <callers

# The whole table as the server answers it: who has rows, in order of bytes, then the stranger, then
# nobody.
known_at / >known
holds 'who has rows was asked' [ -z "$(grep -vxF -f callers known)" ]
printf '%s\n' hanna ian jo kim leo mia >wanted
grep -vxF -f known users | sort >got
same 'users without a row' got wanted
number_of() { grep -nxF -e "$1" callers | cut -d: -f1; } # USER
table() { # NAME ..: the rows of these callers, where the last two are written as `*` and ANONYMOUS@
  local name files=()
  for name in "$@"; do files+=("answers.$(number_of "$name")"); done
  printf '%b' "$HEADER"
  printf '%s\n' "${@:1:$#-2}" '*' ANONYMOUS@ | awk -F'\t' '
    FILENAME == "-" { caller[++callers] = $0; next }
    FNR == 1 { file++ }
    { row[FNR, file] = $2 "," caller[file] "," $3 "," $4; path[FNR] = $1; rows = FNR }
    END { for (at = 1; at <= rows; at++) {
      text = path[at]; if (text ~ /[",]/) { gsub(/"/, "\"\"", text); text = "\"" text "\"" }
      for (file = 1; file <= callers; file++) print text "," row[at, file]
    } }' - "${files[@]}"
}
mapfile -t names <known
table "${names[@]}" stranger - >all
holds 'the room has rows of each kind' \
  [ "$(cut -d, -f4- all | grep -o '[a-zA-Z]*,\(yes\|no\)$' | sort -u | wc -l)" -gt 300 ]
run review F / --all
wants_file 'each row is what the server answers' 0 all
for user in $(grep -vxF -f known users); do
  same "$user gets what a stranger gets" "answers.$(number_of "$user")" \
    "answers.$(number_of stranger)"
done
left_at / <all >left
holds 'rows that follow their folder' [ "$(wc -l <left)" -lt $((($(wc -l <all) * 3) / 4)) ]
run review F /
wants_file 'without rows that follow their folder' 0 left

# Other paths: who has rows there, which objects, and which rows stay.
for number in 2 40 77 111 150 199 230 270 301; do
  path=$(sed -n "${number}p" objects | cut -f1)
  known_at "$path" >here
  rows_at "$path" here <all >wanted
  run review F "$path" --all
  wants_file "all of $path" 0 wanted
  left_at "$path" <wanted >left
  run review F "$path"
  wants_file "what differs below $path" 0 left
done

# One name: with rows of its own, or with those of a stranger.
for user in alice 'car\ol' root frank ian jo mia stranger; do
  printf '%b' "$HEADER" >wanted
  who=$user shown=$(grep -qxF -e "$user" known && echo "$user" || echo '*') awk -F, -v OFS=, '
    $(NF - 2) == ENVIRON["shown"] {
      at = $0; sub(/,[^,]*,[^,]*,[^,]*$/, "", at); print at, ENVIRON["who"], $(NF - 1), $NF
    }' all >>wanted
  run review F / --user "$user" --all
  wants_file "all rows of $user" 0 wanted
  left_at / <wanted >left
  run review --user "$user" F /
  wants_file "the rows of $user" 0 left
done

holds 'the file stays as it was' [ "$before" = "$(cksum <F)" ]
gives 'no records are made' 0 'at,user,path,bits,granted,entry,kind\n' '' audit F
run dump F
wants_file 'the room stays as it was' 0 dumped
