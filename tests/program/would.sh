# `would`: each fault by its line and code, each limit at its edge, what it says of changes, faults
# of its input and output; and of rooms at random what came of the change.

HEADER='path,kind,user,rights,remove,then,then_remove\n'
answers() { # NAME ROWS LINE ..
  local name=$1 rows=$2
  shift 2
  from_lines "$@"
  gives "$name" 0 "$HEADER$rows" '' would
}
refuses() { # WHY LINE ..
  local why=$1
  shift
  from_lines "$@"
  gives "$why: $*" 2 "refused: line $why\n" '' would
}
top=('folder alice staff /' list:a "A:fd:alice:$ALL" A::AUTHENTICATED@:xt)

# ---- lines

input=/dev/null
gives 'no line' 2 'refused: line 1: W3 no folder\n' '' would
for line in '' ' ' paint folder 'folder alice' 'folder alice staff' 'Folder alice staff /' \
  ' folder alice staff /' 'member staff' 'as one *' 'as one' member move set 'to /a' list:a \
  A::bob:r follows $'\xff' $'folder\talice staff /' 'lists ' '# a comment' 'path,kind,user'; do
  refuses '1: W1 no such line' "$line"
done
for line in 'member sta/ff bob' 'member staff bob carol' 'member staff ' 'member  bob' \
  'member OWNER@ bob' $'member staff b\xff' 'member staff *' 'as one * ' 'as one * a,,b' \
  'as one * a,b,' 'as * bob a' 'as one ? a' 'as one = a' "as one * $(printf 'a%.0s' {1..65})" \
  'folder * staff /' 'folder alice = /' 'folder alice * /' 'folder  staff /' 'folder é staff /'; do
  refuses '1: W2 bad name' "$line" "${top[@]}"
done
refuses '1: P1 bad object name' 'folder alice staff a' list:a
refuses '1: P1 bad object name' 'folder alice staff ' list:a
refuses '1: P1 bad object name' 'folder alice staff //' list:a
refuses '1: P2 path over 4096 bytes' "folder alice staff /$(printf 'a%.0s' {1..4096})" list:a
refuses '1: P3 not UTF-8' $'folder alice staff /\xff' list:a
refuses '5: P1 bad object name' "${top[@]}" 'set a/' list:
refuses '6: P1 bad object name' "${top[@]}" 'move /a' 'to b'
refuses '5: P1 bad object name' "${top[@]}" 'look a'

# What stands below a line, and what can't.
refuses '2: W1 no such line' 'member staff bob' follows
refuses '2: W1 no such line' 'as one * staff' list:a
refuses '6: W1 no such line' "${top[@]}" 'look /' unread
refuses '6: W1 no such line' "${top[@]}" lists follows
refuses '6: W1 no such line' "${top[@]}" 'move /a'
refuses '6: W1 no such line' "${top[@]}" 'move /a' list:
refuses '6: W1 no such line' "${top[@]}" 'move /a' 'to /b' 'to /c'
refuses '2: A6 no list line' 'folder alice staff /'
refuses '2: A6 no list line' 'folder alice staff /' 'list:z'
refuses '2: A6 no list line' 'folder alice staff /' A::bob:r
refuses '2: A6 no list line' 'folder alice staff /' follows follows
refuses '6: A6 no list line' "${top[@]}" 'set /' follows
refuses '6: A6 no list line' "${top[@]}" 'set /' unread
refuses '7: A6 no list line' "${top[@]}" 'set /' '#:a comment' 'set /' list:
refuses '3: A5 not four parts' 'folder alice staff /' list:a A::bob
refuses '5: A4 bad mask letter' 'folder alice staff /' list:a '#:' A::bob:r A::bob:q
refuses '3: A13 not UTF-8' 'folder alice staff /' list:a $'A:\xff'
own=()
for n in {1..65}; do own+=("A::u$n:r"); done
refuses '67: A8 more than 64 own entries' 'folder alice staff /' list:a "${own[@]}"
refuses '71: A8 more than 64 own entries' "${top[@]}" 'set /' "list:a" "${own[@]}" 'set /' list:

# The order of lines, and where an object can stand.
refuses '2: W1 no such line' 'as one * staff' 'member staff bob'
refuses '5: W1 no such line' "${top[@]}" 'member staff bob'
refuses '5: W1 no such line' "${top[@]}" 'as one * staff'
refuses '7: W1 no such line' "${top[@]}" 'set /' list: 'member staff bob'
refuses '7: W1 no such line' "${top[@]}" 'set /' list: 'document bob staff /a' follows
refuses '7: W1 no such line' "${top[@]}" 'set /' list: 'look /'
refuses '6: W1 no such line' "${top[@]}" 'look /' 'set /' list:
refuses '6: W1 no such line' "${top[@]}" lists lists
refuses '6: W1 no such line' "${top[@]}" lists 'look /'
refuses '6: W1 no such line' "${top[@]}" lists 'set /' list:
for line in 'look /' lists; do refuses '1: W3 no folder' "$line"; done
refuses '1: W3 no folder' 'set /' list:
refuses '1: W3 no folder' 'move /a' 'to /b'
refuses '1: W3 no folder' 'folder+ alice staff /' list:
refuses '1: W3 no folder' 'document alice staff /' list:
refuses '1: W3 no folder' 'folder alice staff /a' list:
refuses '2: W3 no folder' 'member staff bob'
refuses '5: W3 no folder' "${top[@]}" 'document alice staff /a/b' follows
refuses '7: W3 no folder' "${top[@]}" 'document alice staff /a' follows 'folder bob staff /a/b' \
  follows
refuses '5: W4 exists' "${top[@]}" 'folder alice staff /' follows
refuses '7: W4 exists' "${top[@]}" 'document alice staff /a' follows 'folder bob staff /a' follows
refuses '5: W3 no folder' "${top[@]}" 'document alice staff /a/b' follows \
  'folder alice staff /a' follows

# What the room would refuse: of the objects, and of the changes.
place=("${top[@]}" 'folder alice staff /a' follows 'folder alice staff /a/b' follows
  'document alice staff /d' follows) # ten lines
refuses '5: W5 not what is passed down' "${top[@]}" 'document alice staff /a' list:a A:I:alice:r
refuses '5: W5 not what is passed down' "${top[@]}" 'document alice staff /a' list:a
refuses '5: W5 not what is passed down' "${top[@]}" 'document alice staff /a' list:a \
  "A:I:alice:$ALL" "A:I:alice:$ALL"
refuses '5: entry 1: A12 inheritance flag on a document' "${top[@]}" 'document alice staff /a' \
  list:ap A:fd:alice:r
refuses '1: entry 1: A9 type not of this attribute' 'folder alice staff /' list:a U:S:alice:r
refuses '11: N1 no-such' "${place[@]}" 'set /q' list:
refuses '11: N1 no-such' "${place[@]}" 'set /a/q/r' list:
refuses '11: N2 not-folder' "${place[@]}" 'set /d/q' list:
refuses '11: entry 2: A11 i without f or d' "${place[@]}" 'set /a' list: A::bob:r A:i:bob:r
refuses '11: N6 root' "${place[@]}" 'move /' 'to /q'
refuses '11: N1 no-such' "${place[@]}" 'move /q' 'to /r'
refuses '11: N1 no-such' "${place[@]}" 'move /d' 'to /q/d'
refuses '11: N2 not-folder' "${place[@]}" 'move /a' 'to /d/a'
refuses '11: N4 exists' "${place[@]}" 'move /a/b' 'to /d'
refuses '11: N4 exists' "${place[@]}" 'move /a/b' 'to /'
refuses '11: N7 loop' "${place[@]}" 'move /a' 'to /a/b/a'
refuses '11: N4 exists' "${place[@]}" 'folder+ bob staff /a' follows
refuses '11: N4 exists' "${place[@]}" 'folder+ bob staff /' list:
refuses '11: N1 no-such' "${place[@]}" 'document+ bob staff /q/r' follows
refuses '11: N2 not-folder' "${place[@]}" 'document+ bob staff /d/r' follows
refuses '11: W5 not what is passed down' "${place[@]}" 'document+ bob staff /a/r' list: A:I:bob:r
refuses '11: N1 no-such' "${place[@]}" 'look /q'
refuses '11: N2 not-folder' "${place[@]}" 'look /d/q'
# The first change that can't be made is told, as those before it left the room.
refuses '13: N1 no-such' "${place[@]}" 'move /a' 'to /c' 'set /a' list:
refuses '13: N4 exists' "${place[@]}" 'move /a' 'to /c' 'folder+ bob staff /c' follows
refuses '13: W5 not what is passed down' "${place[@]}" 'set /' list:a 'document+ bob staff /r' \
  list: "A:I:alice:$ALL"

# ---- limits

# 4,194,304 bytes: a comment in a list fills the question up to them.
printf '%s\n' "${top[@]}" 'set /' "list:a" "A:fd:alice:$ALL" >whole
size=$(wc -c <whole)
{ printf '#:'; head -c $((4194304 - size - 2)) /dev/zero | tr '\0' x; } >>whole
input=whole
kept="/,folder,alice,$ALL,no,$ALL,no\n/,folder,*,xt,no,,no\n/,folder,ANONYMOUS@,,no,,no\n"
gives 'a question of 4194304 bytes' 0 "$HEADER$kept" '' would
printf x >>whole
gives 'one byte more' 2 'refused: line 8: W6 too much\n' '' would
printf '\n\n\n' >>whole
gives 'and lines behind that' 2 'refused: line 8: W6 too much\n' '' would
# No more than that is read: the input here never ends.
holds 'a question without an end' \
  [ "$(timeout "$patience" "$rooms" would </dev/zero)" = 'refused: line 1: W6 too much' ]


many() { # COUNT FORMAT: so many lines, with the number in them
  awk -v count="$1" -v format="$2\n" 'BEGIN { for (n = 1; n <= count; n++) printf format, n, n }'
}
lines() { printf '%s\n' "$@"; }
# The file `most` is answered, and `more` isn't.
at_limit() { # NAME LINE
  input=most
  run would
  holds "$1 (status $status): $(head -c 200 "$work/out" "$work/err")" [ "$status" = 0 ]
  holds "$1 (rows)" [ "$(head -n 1 "$work/out")" = "${HEADER%\\n}" ]
  input=more
  gives "$1, and one more" 2 "refused: line $2: W6 too much\n" '' would
}
{ lines "${top[@]}"; many 79999 'document bob staff /%d\nfollows'; } >most
{ cat most; lines 'document bob staff /x' follows; } >more
at_limit '80000 objects' 160003
cp most objects
{ cat most; lines 'look /'; } >more
at_limit '80000 objects, and a look' 160003
{ many 20000 'member g%d u%d'; lines "${top[@]}"; } >most
{ lines 'member staff bob'; cat most; } >more
at_limit '20000 pairs' 20001
{ many 1000 'as l%d * g%d'; lines "${top[@]}"; } >most
{ lines 'as one * staff'; cat most; } >more
at_limit '1000 callers who may be' 1001
# Alice, another name and none are callers too.
{ many 997 'as l%d * g%d'; lines "${top[@]}"; many 3999 'document alice staff /%d\nfollows'; } >most
{ cat most; lines 'document alice staff /x' follows; } >more
at_limit '1000 callers of 4000 objects' 9001

# ---- what is said

A=A:fd:alice:$ALL I=A:fdI:alice:$ALL
anyone() { printf '%s,%s,*,,no,,no\n%s,%s,ANONYMOUS@,,no,,no\n' "$1" "$2" "$1" "$2"; } # PATH KIND

# Who passes by one group and reads by another.
groups_of=('member staff alice' 'member staff bob' 'member staff carol' 'member staff dana'
  'member staff kim' 'member sales dana' 'member sales kim' 'member board frank'
  'member board olaf' 'member staff frank' 'member staff olaf')
may_be=('as +sales * sales' 'as +staff * staff' 'as +board * board' 'as +sales+staff * sales,staff'
  'as +board+staff * board,staff' 'as +board+sales * board,sales' 'as +dana dana staff')
bridge=("${top[@]}" 'folder alice staff /Projects' list:a A:g:staff:rxtc "$I"
  'folder carol staff /Projects/Bridge' list:a "A:fd:carol:$ALL" D:d:EVERYONE@:Dd
  A:fdg:sales:rwaxtc A:fdg:board:rxtc A:fi:OWNER@:d "$I"
  'folder alice staff /Personnel' list:ap "$A"
  'document alice staff /Personnel/Salaries 2027.csv' follows
  'move /Personnel/Salaries 2027.csv' 'to /Projects/Bridge/Salaries 2027.csv')
file='/Projects/Bridge/Salaries 2027.csv,document'
answers 'a move, with the members' "$file,alice,$ALL,yes,$ALL,yes
$file,bob,,no,,no
$file,carol,,no,$ALL,yes
$file,dana,,no,rwaxtc,no
$file,frank,,no,rxtc,no
$file,kim,,no,rwaxtc,no
$file,olaf,,no,rxtc,no
$(anyone "${file%,*}" document)\n" "${groups_of[@]}" "${bridge[@]}"
answers 'a move, with sets of groups' "$file,alice,$ALL,yes,$ALL,yes
$file,carol,,no,,no
$(anyone "${file%,*}" document)
$file,+sales,,no,,no
$file,+staff,,no,,no
$file,+board,,no,,no
$file,+sales+staff,,no,rwaxtc,no
$file,+board+staff,,no,rxtc,no
$file,+board+sales,,no,,no
$file,+dana,,no,,no\n" "${may_be[@]}" "${bridge[@]}"

# A line that lets somebody pass opens a neighbour, by a line for documents.
notes=("${top[@]}" 'folder alice staff /Notes' list:ap "$A" A:fi:zoe:rtc
  'document alice staff /Notes/One.txt' follows 'document alice staff /Notes/Two.txt' follows)
answers 'a line for documents' "/Notes,folder,alice,$ALL,yes,$ALL,yes
/Notes,folder,zoe,,no,x,no
$(anyone /Notes folder)
/Notes/One.txt,document,zoe,,no,rtc,no
/Notes/Two.txt,document,zoe,,no,rtc,no\n" \
  "${notes[@]}" 'set /Notes' list:ap "$A" A:fi:zoe:rtc A::zoe:x 'set /Notes/One.txt' list: \
  A::zoe:rtc

# The line goes by which owners remove what they made.
own=('member staff bob' "${top[@]}" 'folder alice staff /Own' list:a D:d:EVERYONE@:Dd
  A:fd:dana:rwaxtc A:fdg:staff:rxtc A:fi:OWNER@:d "$I" "document bob staff /Own/bob's" follows)
denied=rwanNxtThHcCoy
of_own="/Own,folder,alice,$denied,yes,$denied,yes
/Own,folder,bob,rxtc,no,rxtc,no
/Own,folder,dana,rwaxtc,no,rwaxDtc,no
$(anyone /Own folder)
/Own/bob's,document,bob,rxtdc,yes,rxtc,no
/Own/bob's,document,dana,rwaxtc,no,rwaxDtc,yes\n"
set_own=('set /Own' list:a A:fd:dana:rwaxDtc D:d:EVERYONE@:Dd A:fdg:staff:rxtc)
answers "an owner's line" "$of_own" "${own[@]}" "${set_own[@]}"
answers 'and the list that is there then' \
  "$of_own\nset /Own\nlist:a\nA:fd:dana:rwaxDtc\nD:d:EVERYONE@:Dd\nA:fdg:staff:rxtc\n$I\n" \
  "${own[@]}" "${set_own[@]}" lists

# A folder comes back: as open as the one above it, or for alice alone, but bob may remove it.
letters=('member staff bob' "${top[@]}" 'folder alice staff /Letters' list:a A:fdg:staff:rwaxtc
  "$I" 'folder+ alice staff /Letters/Warnings')
answers 'a folder that comes back open' "/Letters/Warnings,folder,alice,,no,$ALL,yes
/Letters/Warnings,folder,bob,,no,rwaxtc,yes
$(anyone /Letters/Warnings folder)\n" \
  "${letters[@]}" follows 'document+ alice staff /Letters/Warnings/one' follows
answers 'a folder that comes back for one' "/Letters/Warnings,folder,alice,,no,$ALL,yes
/Letters/Warnings,folder,bob,,no,,yes
$(anyone /Letters/Warnings folder)
/Letters/Warnings/one,document,bob,,no,,no\n" \
  "${letters[@]}" list:ap "$A" 'document+ alice staff /Letters/Warnings/one' follows
answers 'what came is set and moved at once' "/Letters,folder,alice,$ALL,yes,$ALL,yes
/Letters,folder,bob,rwaxtc,no,rwaxtc,no
$(anyone /Letters folder)
/Letters/Old,folder,alice,,no,$ALL,yes
/Letters/Old,folder,bob,,no,r,yes
\nset /Letters/Old\nlist:p\nA::alice:$ALL\nA::bob:r\n" \
  "${letters[@]}" follows 'set /Letters/Warnings' list:p "A::alice:$ALL" A::bob:r \
  'move /Letters/Warnings' 'to /Letters/Old' lists

# Nothing is changed: the rows of a review of the object.
answers 'a look' "/Own,folder,alice,$denied,yes,$denied,yes
/Own,folder,bob,rxtc,no,rxtc,no
/Own,folder,dana,rwaxtc,no,rwaxtc,no
$(anyone /Own folder)
/Own/bob's,document,alice,$ALL,yes,$ALL,yes
/Own/bob's,document,bob,rxtdc,yes,rxtdc,yes\n" "${own[@]}" 'look /Own'

# What isn't known: a list lets everybody pass, and nothing is said there, nor below it.
unknown=("${top[@]}" 'folder ? ? /a' unread 'document bob staff /a/d' follows
  'document bob staff /a/e' list:p A::carol:r 'document bob staff /f' follows)
root_rows="/,folder,alice,$ALL,no,$ALL,no\n/,folder,bob,xt,no,xt,no\n/,folder,carol,xt,no,xt,no
/,folder,*,xt,no,xt,no\n/,folder,ANONYMOUS@,,no,,no\n"
of_f="/f,document,alice,$ALL,yes,$ALL,yes\n/f,document,bob,,no,,no\n/f,document,carol,,no,,no
/f,document,*,,no,,no\n"
answers 'what is not known' "$root_rows/a,folder,?,,,,\n$of_f" "${unknown[@]}" 'look /'
answers 'what was not known' "/a,folder,?,,,,\n" "${unknown[@]}" 'set /a' list:p A::carol:x
answers 'a list that is not known comes' "/b,folder,?,,,,\n" "${top[@]}" 'folder+ ? ? /b' unread \
  'document+ alice staff /b/d' follows
answers 'what is moved where nothing is known' "/a/f,document,?,,,,\n" "${unknown[@]}" 'move /f' \
  'to /a/f' lists

# An owner who isn't known is nobody; each caller owns what they would have made.
made=('member staff bob' "${top[@]}" 'folder alice staff /a' list:a A:fi:OWNER@:rd
  A::AUTHENTICATED@:x "$I")
answers 'an owner who is not known' "/a/~,document,alice,$ALL,yes,$ALL,yes
/a/~,document,bob,,no,,no\n$(anyone /a/~ document)\n" \
  "${made[@]}" 'document ? ? /a/~' follows 'look /a/~'
answers 'what each has made' "/a/~,document,alice,$ALL,yes,$ALL,yes
/a/~,document,bob,rd,yes,rd,yes\n/a/~,document,*,rd,yes,rd,yes
/a/~,document,ANONYMOUS@,,no,,no\n" "${made[@]}" 'document = staff /a/~' follows 'look /a/~'
answers 'what each has made, after a change' "/a,folder,alice,$ALL,yes,$ALL,yes
/a,folder,bob,x,no,x,no\n/a,folder,*,x,no,x,no\n/a,folder,ANONYMOUS@,,no,,no
/a/~,document,bob,rd,yes,,no\n/a/~,document,*,rd,yes,,no\n" "${made[@]}" \
  'document = staff /a/~' follows 'set /a' list:a A::AUTHENTICATED@:x
answers 'names that have to be quoted' "\"/a,b \"\"c\"\"\",folder,alice,,no,$ALL,yes
$(anyone '"/a,b ""c"""' folder)\n" "${top[@]}" 'folder+ alice staff /a,b "c"' follows
# Lines end with LF or CR LF, the last one with nothing too.
printf '%s\r\n' "${top[@]}" >input
printf 'look /' >>input
input=input
gives 'other ends of lines' 0 "$HEADER/,folder,alice,$ALL,no,$ALL,no
/,folder,*,xt,no,xt,no\n/,folder,ANONYMOUS@,,no,,no\n" '' would
answers 'nothing is asked' "/,folder,alice,$ALL,no,$ALL,no
/,folder,*,xt,no,xt,no\n/,folder,ANONYMOUS@,,no,,no\n" "${top[@]}"
answers 'the least question' "/,folder,alice,,no,,no\n/,folder,*,,no,,no
/,folder,ANONYMOUS@,,no,,no\n" 'folder alice staff /' follows

# ---- the page

mkdir -p bin docs
ln -s "$rooms" bin/rooms
ln -s "$here/../docs/examples" docs/examples
from_consoles "$here/../docs/would.md" typed.sh | grep -v '^$' >wanted
PATH=$PWD/bin:$PATH timeout "$patience" bash typed.sh </dev/null 2>&1 | grep -v '^$' >got
holds 'the page has commands' [ "$(grep -c '^@' wanted)" = 2 ]
same 'each command prints what the page shows' got wanted

# ---- its input and output

from_lines "${top[@]}"
"$rooms" would <"$input" 2>"$work/err" >&-
status=$?
: >"$work/out"
wants 'closed standard output' 3 '' 'fault: file\n'
if [ -c /dev/full ]; then
  "$rooms" would <"$input" 2>"$work/err" >/dev/full
  status=$?
  wants 'full standard output' 3 '' 'fault: file\n'
fi
# A reader that closes the pipe.
mkfifo pipe
"$rooms" would <"$input" 2>"$work/err" >pipe &
process=$!
exec 8<pipe
exec 8<&-
wait "$process"
status=$?
# Either the program had printed before that, or its write failed.
: >"$work/out"
if [ "$status" = 0 ]; then pass; else wants 'a reader that has gone' 3 '' 'fault: file\n'; fi
"$rooms" would >"$work/out" 2>"$work/err" <&-
status=$?
wants 'closed standard input' 3 '' 'fault: file\n'
"$rooms" would >"$work/out" 2>"$work/err" </
status=$?
wants 'a folder as standard input' 3 '' 'fault: file\n'
# Too little memory for the answer.
if (ulimit -v 20000 && "$rooms" --version </dev/null 2>/dev/null; [ $? = 2 ]) 2>/dev/null; then
  (ulimit -v 20000 && exec "$rooms" would <objects) >"$work/out" 2>"$work/err"
  status=$?
  wants 'too little memory' 3 '' 'fault: memory\n'
else
  skip 'too little memory' 'no limit of memory, or the program does not start in 20 MB'
fi

# ---- rooms at random

if ! has python3; then
  skip 'rooms at random' 'python3 is missing'
  return
fi
python3 -B "$here/model/would.py" "$rooms" first 200 >"$work/out" 2>&1
status=$?
holds "at random: $(tail -c 3000 "$work/out")" [ "$status" = 0 ]
grep -qxE -e '200 lists, [0-9]+ moves, .* 0 unsaid, 0 said falsely' "$work/out"
status=$?
holds "all are played: $(tail -n 1 "$work/out")" [ "$status" = 0 ]
