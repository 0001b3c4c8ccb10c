# Behind a barred folder: the lists and the answers of requests.md, as the page has them, and what
# the flag `p` changes.

page=$here/../docs/requests.md
section() { sed -n '/^## Behind a barred folder/,/^## Who changes rights/p' "$page"; }

# The lists of the page, as PATH FIRST-LINE ENTRY ..; and the rows of its table, as WHO|METHOD
# TARGET|BODY|STATUS|ANSWER.
section | awk '/^```text/ { inside = 1; next } /^```/ { inside = 0 } inside' >lists
section | awk -F ' [|] ' '/^\| (eve|alice) / {
  who = $1; sub(/^\| /, "", who)
  n = split($2, asked, "`"); m = split($3, told, "`")
  print who "|" asked[2] "|" (n > 3 ? asked[4] : "") "|" substr($3, 1, 3) "|" (m > 1 ? told[2] : "")
}' >rows
holds 'the page has lists' [ "$(grep -c . lists)" = 3 ]
holds 'the page has rows' [ "$(grep -c . rows)" = 8 ]
last=$(section | tr '\n' ' ' | sed -n 's/.*the last answer is \([0-9]*\) `\([^`]*\)`.*/\1|\2/p')
holds 'the page says what p changes' [ "${last%%|*}" = 403 ]

# The room of the page: a document behind the folder, and a memo.
make_room() { # FILE
  local path words
  new_room "$1"
  while read -r path words; do
    [ "$path" = / ] && set_list "$1" / dacl $words
  done <lists
  start_server "$1" 6 || return 1
  asks "$1: plans" made POST /folder/plans alice
  asks "$1: the offer" made PUT /doc/plans/offer alice secret
  asks "$1: the memo" made PUT /doc/memo alice memo
  asks "$1: eve's folder" made POST /folder/eve alice
  while read -r path words; do
    [ "$path" = / ] ||
      asks "$1: the list of $path" done_reply PUT "/dacl$path" alice "$(printf '%s\n' $words)"
  done <lists
  server_ends "$1 is made" 0 ''
}

# The status and the body of an answer, as STATUS|BODY.
answer() { # WHO ASKED BODY
  last_message ${2% *} "${2#* }" "$1" "$3" >"$work/sent"
  exchange
  printf '%s|%s' "$(head -n 1 "$work/reply" | cut -d' ' -f2)" "$(sed '1,/^\r$/d' "$work/reply")"
}

# Plays the rows; LAST, if it is given, is what the last one gets instead.
play() { # FILE [LAST]
  local who asked body status text wanted left
  left=$(grep -c . rows)
  while IFS='|' read -r who asked body status text; do
    left=$((left - 1))
    wanted="$status|$text"
    [ $left = 0 ] && wanted=${2-$wanted}
    printf '%s' "$wanted" >wanted
    answer "$who" "$asked" "$body" >got
    same "$1: $who $asked" got wanted
  done <rows
}

make_room F || return
start_server F 8 || return
play F
server_ends 'the rows are played' 0 ''

# With the flag p in the folder's list, the same but for the last answer.
sed -i 's|^/plans  list:a |/plans  list:ap |' lists
holds 'the list of plans is protected' grep -q '^/plans  list:ap ' lists
make_room P || return
start_server P 8 || return
play P "$last"
server_ends 'the rows are played with p' 0 ''
