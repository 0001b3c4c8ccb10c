# The lists that the pages recommend: each is set as it is pasted, and what the page says of it is
# compared with what the room answers to a user of each kind, right by right, and with the records
# that it makes.

if [ "$loopback" = no ]; then
  skip 'recommended lists' 'this machine has no loopback'
  return
fi
# The list at the root, and those of folders.
operating=$PWD/operating.md
cat "$here"/../docs/{operating,lists}.md >"$operating"

# The members of groups. pat is the other user, to whom belongs what others have added; fred was a
# member of staff, and zoe is in no group.
cat >groups.csv <<'END'
group,user
staff,alice
staff,bob
staff,pat
staff,ella
staff,clara
staff,ivan
editors,erin
editors,ella
clerks,clara
interns,ivan
board,bea
sales,carol
personnel,petra
personnel,ella
END
users='alice bob erin ella clara ivan bea carol petra zoe fred -'
. "$here/lib/lists.sh"

mkdir bin
ln -s "$rooms" bin/rooms
take_lists "$operating" lists >index
holds 'the lists of operating.md and lists.md' \
  [ "$(cut -d' ' -f3 index | sort | uniq -c | tr -s ' \n' ' ')" = ' 9 dacl 2 sacl ' ]
private=$(list_of /bob | grep -v bob)

make_folders() {
  local name
  for name in $(sed -n 's/^for name in \(.*\); do$/\1/p' "$operating") plain; do
    prepares POST "/folder/$name"
  done
  prepares POST /folder/elsewhere
  prepares PUT /dacl/elsewhere "$(printf '%s\n' list:ap "A:fd:EVERYONE@:$ALL")"
  prepares PUT /doc/elsewhere/sample x
  prepares POST /folder/elsewhere/tray
}

gives 'a room' 0 'ready\n' '' init office.rooms alice staff
gives 'its members' 0 'groups 7, members 14\n' '' groups office.rooms groups.csv
paste_lines 'the first list' "lists/$(number_of /).sh" 0 'done\n'
start_server office.rooms 1 || return
play 'the folders' make_folders
server_ends 'the server ends' 0 ''
while read -r number path which; do
  [ "$which" = sacl ] || paste_lines "the list of $path" "lists/$number.sh" 0 'done\n'
done <index

start_server office.rooms 1000 || return
make_below() { prepares POST "/folder$path/below"; }
while read -r number path which; do
  [ "$which" = dacl ] || continue
  if [ ! -s "lists/$number.table" ]; then
    fail "the list of $path" 'it has no table'
  elif [ "$path" = / ]; then
    play_table 'the list of /' "lists/$number.table" "$(list_of /)" /
  else
    play "the list of $path" make_below
    play_table "the list of $path" "lists/$number.table" "$(list_of "$path")" "$path" "$path/below"
  fi
done <index
printf '%s\n' 'alice|yes|yes|yes|yes|yes|yes' 'anyone else|no|no|no|no|no|no' >plain.table
play_table 'a folder without a list' plain.table list:a /plain

# What the page says besides: of lists without the line, of folders above, and of single entries.
with_board() { list_of /letters && echo A:g:board:x; }
play_the_line() {
  local kept
  # Without the line, w on the folder above is enough to rename what nobody else may open; with it,
  # it isn't.
  prepares POST /folder/old
  prepares PUT /dacl/old "$(printf '%s\n' list:ap "A:fd:alice:$ALL" A:fdg:staff:rwaxtc)"
  prepares POST /folder/old/loose
  prepares PUT /dacl/old/loose "$(printf '%s\n' list:ap "A:fd:alice:$ALL")"
  expects 403 GET /folder/old/loose bob
  expects 204 POST /move/old/loose bob '{"to":"/old/renamed"}'
  for kept in /policies /minutes /letters /bob /personnel /handbook /inbox /drafts; do
    prepares POST "/folder/old$kept"
    prepares PUT "/dacl/old$kept" "$(list_of "$kept")"
    expects 403 DELETE "/object/old$kept" bob
    expects 403 POST "/move/old$kept" bob "{\"to\":\"/old$kept.renamed\"}"
    expects 403 POST "/move/old$kept" bob '{"to":"/elsewhere/kept"}'
  done
}

play_folders_above() {
  # The board isn't let through /letters before its list says so, and then to its own folder only.
  prepares POST /folder/letters/board
  prepares PUT /dacl/letters/board "$(list_of /bob | sed 's/^A:fd:bob:/A:fdg:board:/')"
  expects 403 PUT /doc/letters/board/report bea x
  prepares PUT /dacl/letters "$(with_board)"
  expects 201 PUT /doc/letters/board/report bea x
  expects 200 GET /doc/letters/board/report bea
  expects 403 GET /folder/letters bea
  expects 403 GET /doc/letters/paper bea
  expects 403 POST /move/letters/board bea '{"to":"/letters/renamed"}'
  expects 403 GET /doc/letters/board/report bob
  expects 403 POST /move/letters/board bob '{"to":"/letters/renamed"}'
  # A new folder of the old name has the list of the folder above; at the top nobody else makes one.
  prepares DELETE /object/letters/board/report
  prepares DELETE /object/letters/board
  expects 201 POST /folder/letters/board bob
  prepares PUT /doc/letters/board/report x
  expects 200 GET /doc/letters/board/report bob
  prepares POST /folder/board
  prepares DELETE /object/board
  expects 403 POST /folder/board bob
}

play_single_entries() {
  # With fdi and above the line, whoever made a folder moves it away with what others have put
  # there.
  prepares PUT /dacl/letters \
    "$(list_of /letters | awk '/OWNER@/ { next } /EVERYONE@/ { print "A:fdi:OWNER@:d" } { print }')"
  expects 201 POST /folder/letters/ella ella
  expects 201 PUT /doc/letters/ella/paper bob x
  expects 204 POST /move/letters/ella ella '{"to":"/elsewhere/ella"}'
  # Users read their own documents in the inbox; a name that is there is told from one that isn't.
  prepares PUT /dacl/inbox "$(list_of /inbox && echo A:fi:OWNER@:rt)"
  expects 201 PUT /doc/inbox/bobs bob x
  expects 200 GET /doc/inbox/bobs bob
  expects 403 GET /doc/inbox/bobs ella
  expects 404 GET /doc/inbox/none ella
  # The denial behind the grant is none, and the first line takes w away from everybody.
  prepares PUT /dacl/drafts \
    "$(list_of /drafts | awk '/:interns:/ { late = $0; next } { print } /:staff:/ { print late }')"
  expects 204 PUT /doc/drafts/paper ivan x
  prepares PUT /dacl/drafts \
    "$(list_of /drafts | awk '{ print } /^list:/ { print "D::EVERYONE@:w" }')"
  expects 403 PUT /doc/drafts/new alice x
}

# With D and d on a folder, as by 'Remove and rename what others made' of the page, what is in it is
# removed unread, and the folder itself.
play_removers() {
  prepares POST /folder/written
  prepares POST /folder/written/vault
  prepares PUT /dacl/written/vault "$private"
  prepares PUT /dacl/written "$(printf '%s\n' list:ap "A:fd:alice:$ALL" A:fd:bob:rwaxDdtc)"
  expects 403 GET /folder/written/vault bob
  expects 204 DELETE /object/written/vault bob
  expects 204 DELETE /object/written bob
}
prepare_moving() {
  local name
  prepares POST /folder/shared
  prepares PUT /dacl/shared "$(printf '%s\n' list:ap "A:fd:alice:$ALL" A::bob:rxDtc)"
  prepares POST /folder/others
  prepares PUT /dacl/others "$(printf '%s\n' list:ap "A:fd:alice:$ALL" A::bob:rxtc)"
  for name in shared/salaries shared/shut shared/denied others/salaries others/shut; do
    prepares POST "/folder/$name"
    prepares PUT "/doc/$name/may" x
    prepares POST "/folder/$name/below"
    prepares PUT "/doc/$name/below/june" x
  done
  prepares PUT /doc/shared/notice x
  prepares PUT /doc/shared/secret x
  prepares PUT /dacl/shared/secret "$closed"
  prepares PUT /dacl/shared/shut "$(printf '%s\n' list:ap "A:fd:alice:$ALL")"
  prepares PUT /dacl/shared/denied "$(printf '%s\n' list:a D:fd:bob:r)"
  prepares PUT /dacl/others/salaries "$(printf '%s\n' list:a A::bob:d)"
  prepares PUT /dacl/others/shut "$(printf '%s\n' list:ap "A:fd:alice:$ALL" A::bob:d)"
}
# Who may delete a folder that isn't protected, by D on the folder above or d on it, and has a
# folder of their own, moves it there and reads what is in it. What is protected, and what has an
# entry of its own that denies, stays shut.
play_moving() {
  local name
  prepare_moving
  for name in shared/salaries shared/shut shared/denied others/salaries others/shut; do
    expects 403 GET "/doc/$name/may" bob
    expects 403 GET "/folder/$name" bob
    expects 403 GET "/doc/$name/below/june" bob
    expects 204 POST "/move/$name" bob "{\"to\":\"/bob/${name/\//.}\"}"
  done
  for name in shared.salaries others.salaries; do
    expects 200 GET "/folder/bob/$name" bob
    expects 200 GET "/doc/bob/$name/may" bob
    expects 200 GET "/doc/bob/$name/below/june" bob
  done
  for name in shared.shut others.shut shared.denied; do
    expects 403 GET "/folder/bob/$name" bob
    expects 403 GET "/doc/bob/$name/may" bob
    expects 403 GET "/doc/bob/$name/below/june" bob
    prepares GET "/doc/bob/$name/below/june"
  done
  # The same with single documents.
  for name in notice secret; do
    expects 403 GET "/doc/shared/$name" bob
    expects 204 POST "/move/shared/$name" bob "{\"to\":\"/bob/$name\"}"
  done
  expects 200 GET /doc/bob/notice bob
  expects 403 GET /doc/bob/secret bob
}
play 'who may move it' play_moving
play 'the line' play_the_line
play 'what D and d include' play_removers
play 'folders above' play_folders_above
play 'single entries' play_single_entries
stop_server

# What `check` says of the list that the page tries, and that this is the list which the page
# recommends.
sed -n '/^rooms check <<END$/,/^END$/p' "$operating" >check.sh
paste_lines 'a list that is tried' check.sh 1 \
  "$(sed -n 's/^It prints `\(denied .*\)`\..*/\1/p' "$operating")\n"
holds 'it is the one for interns' \
  [ "$(sed -e '1,/^ask/d' -e '/^END$/d' check.sh)" = "$(list_of /drafts)" ]

# The tour shows two of these lists, and says the same of them.
page_says() { # PAGE SENTENCE
  holds "$1 says: $2" grep -qF -e "$2" <(tr '\n' ' ' <"$here/../$1" | tr -s ' ')
}
sed -n '/ <<END$/,/^END$/p' "$here/../docs/tour.md" | grep -v END >tour.lists
{ list_of / && list_of /letters; } >wanted
same 'the lists of the tour' tour.lists wanted
page_says docs/tour.md 'Alice may do everything'
page_says docs/tour.md 'taff see which names are at the top'
page_says docs/tour.md 'may read, add and change, and each of them may remove, rename and move away the documents that they added themselves.'
page_says docs/lists.md 'Staff read everything, add documents and folders, and change every document. Each of them may remove, rename and move away the documents that they added themselves.'

# Records: the page promises one for each denied read, and for each attempt to remove, rename or
# move something or to change a list or an owner; in /contracts one more for whatever is denied.
rm office.rooms*
gives 'a room for records' 0 'ready\n' '' init office.rooms alice staff
gives 'its members' 0 'groups 7, members 14\n' '' groups office.rooms groups.csv
paste_lines 'the first list' "lists/$(number_of /).sh" 0 'done\n'
furnish_recorded() {
  local p
  for p in letters contracts elsewhere; do prepares POST "/folder/$p"; done
  prepares PUT /dacl/letters "$(list_of /letters)"
  prepares PUT /dacl/contracts "$(list_of /inbox)"
  prepares PUT /dacl/elsewhere "$(printf '%s\n' list:ap "A:fd:EVERYONE@:$ALL")"
  prepares PUT /doc/letters/paper x
  prepares PUT /doc/letters/closed x
  prepares PUT /dacl/letters/closed "$closed"
  prepares PUT /doc/contracts/paper x
  prepares PUT /doc/elsewhere/theirs x
}

# As `expects`, with the records that have to be left, four words each.
recorded() { # USER METHOD TARGET BODY STATUS [PATH BITS GRANTED ENTRY ..]
  local user=$1
  expects "$5" "$2" "$3" "$1" "$4"
  shift 5
  while [ $# != 0 ]; do
    echo "T,${user#-},$1,$2,$3,$4,audit" >&5
    shift 4
  done
}

play_records() {
  local f=/letters
  recorded bob PUT /doc$f/mine x 201
  recorded bob GET /doc$f/paper '' 200
  recorded bob GET /doc$f/closed '' 403 $f/closed r no 1
  recorded bob PUT /doc$f/closed x 403
  recorded bob DELETE /object$f/paper '' 403 $f/paper d no 2
  recorded bob POST /move$f/paper "{\"to\":\"$f/renamed\"}" 403 $f/paper d no 2
  recorded bob POST /move$f/paper '{"to":"/elsewhere/paper"}' 403 $f/paper d no 2
  recorded bob POST /move$f '{"to":"/renamed"}' 403 $f d no 2
  recorded bob POST /move$f/mine "{\"to\":\"$f/renamed\"}" 204 $f/mine d yes 2
  recorded bob POST /move$f/renamed '{"to":"/elsewhere/mine"}' 204 $f/renamed d yes 2
  recorded bob POST /move/elsewhere/mine "{\"to\":\"$f/mine\"}" 204 /elsewhere/mine d yes 2
  recorded bob DELETE /object$f/mine '' 204 $f/mine d yes 2
  recorded bob PUT /dacl$f list:a 403 $f C no 2
  recorded bob PUT /sacl$f list:a 403 $f C no 2
  recorded bob PUT /attr$f/paper '{"owner":"bob","group":"staff"}' 403 $f/paper o no 2
  recorded carol GET /doc$f/paper '' 403 $f x no 1
  recorded carol DELETE /object$f/paper '' 403 $f x no 1
  recorded - GET /doc$f/paper '' 403 / x no 1
  recorded alice PUT /dacl$f "$(list_of $f)" 204 $f C yes 2
  recorded alice PUT /attr$f/paper '{"owner":"pat","group":"staff"}' 204 $f/paper o yes 2
  recorded alice DELETE /object$f/paper '' 204 $f/paper d yes 2
}

# The list of /contracts stands above what it inherits from the root.
play_denials() {
  local f=/contracts
  recorded bob PUT /doc$f/mine x 201
  recorded bob GET /folder$f '' 403 $f r no 1 $f r no 2
  recorded bob GET /doc$f/paper '' 403 $f/paper r no 1 $f/paper r no 2
  recorded bob PUT /doc$f/paper x 403 $f/paper w no 1
  recorded bob POST /doc$f/paper x 403 $f/paper a no 1
  recorded bob POST /folder$f/made '' 403 $f a no 1
  recorded bob DELETE /object$f/paper '' 403 $f/paper d no 1 $f/paper d no 3
  recorded bob GET /attr$f/paper '' 403 $f/paper t no 1
  recorded bob GET /dacl$f/paper '' 403 $f/paper c no 1
  recorded bob PUT /dacl$f/paper list:a 403 $f/paper C no 1 $f/paper C no 3
  recorded bob PUT /attr$f/paper '{"owner":"bob","group":"staff"}' 403 $f/paper o no 1 \
    $f/paper o no 3
  recorded carol GET /doc$f/paper '' 403 $f x no 1 $f x no 2
  recorded carol POST /move/elsewhere/theirs "{\"to\":\"$f/moved\"}" 403 $f x no 1 $f x no 2
  recorded alice GET /doc$f/paper '' 200
}

if start_server office.rooms 1; then
  play 'what is there' furnish_recorded
  server_ends 'the server ends' 0 ''
fi
paste_lines 'the list of records' "lists/$(number_of / sacl).sh" 0 'done\n'
paste_lines 'the list of denials' "lists/$(number_of /contracts sacl).sh" 0 'done\n'
if start_server office.rooms 2; then
  play 'what is recorded' play_records 5>wanted
  play 'what is denied' play_denials 5>>wanted
  server_ends 'the server ends' 0 ''
fi
run audit office.rooms
sed -e 1d -e 's/^[0-9]*,/T,/' "$work/out" >records
same 'the records' records wanted
