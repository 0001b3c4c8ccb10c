# docs/review.md: its room, made with the lists that other pages recommend, and its commands as
# pasted.

if [ "$loopback" = no ]; then
  skip 'the page on reviews' 'this machine has no loopback'
  return
fi
mkdir bin room
ln -s "$rooms" bin/rooms
F=room/office.rooms
printf '%s\n' group,user staff,bob staff,carol personnel,carol >groups.csv
. "$here/lib/lists.sh"
cat "$here"/../docs/{operating,lists}.md >pages.md
take_lists pages.md lists >index

gives 'a room' 0 'ready\n' '' init "$F" alice staff
gives 'its members' 0 'groups 2, members 3\n' '' groups "$F" groups.csv
list_of / >list
input=list
gives 'the first list' 0 'done\n' '' reset "$F" / dacl
input=/dev/null
private=$(list_of /bob | sed 's/^A:fd:bob:/A:fdg:personnel:/')
if start_server "$F" 6; then
  asks 'a folder for letters' made POST /folder/letters alice
  asks 'its list' done_reply PUT /dacl/letters alice "$(list_of /letters)"
  asks 'a letter of bob' made PUT /doc/letters/reply bob 'Dear Sir'
  asks 'a folder for the personnel office' made POST /folder/personnel alice
  asks 'its list' done_reply PUT /dacl/personnel alice "$private"
  asks 'a document of carol' made PUT /doc/personnel/salaries carol 1000
  server_ends 'the server ends' 0 ''
fi

# The review of last month, and that of now.
night() { # DATE
  mkdir -p "backups/office/$1.040000"
  run review "$F" /
  cp "$work/out" "backups/office/$1.040000/review.csv"
}
night 2026-10-26
if start_server "$F" 2; then
  asks 'a way for bob' done_reply PUT /dacl/personnel alice "$private"$'\nA::bob:x\n'
  asks 'and a document' done_reply PUT /dacl/personnel/salaries alice $'list:a\nA::bob:r\n'
  server_ends 'the server ends' 0 ''
fi
night 2026-11-26

from_consoles "$here/../docs/review.md" typed.sh | grep -v '^$' >wanted
sed "s|/var/backups/rooms|$PWD/backups|" typed.sh >pasted.sh
(cd room && PATH=$PWD/../bin:$PATH timeout "$patience" bash ../pasted.sh) </dev/null 2>&1 |
  grep -v '^$' | sed "s|$PWD/backups|/var/backups/rooms|" >got
holds 'the page has commands' [ "$(grep -c '^@' wanted)" = 3 ]
same 'each command prints what the page shows' got wanted
