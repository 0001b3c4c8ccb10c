# `reset`: what it sets, what it refuses, and in which order.

open_room F
gives 'the open room' 0 \
  "folder root staff /\ndacl\nlist:a\nA::EVERYONE@:x\nA:fd:root:$ALL\nsacl\nlist:a\n" '' dump F
set_list F / sacl '# all reads' list:a 'U:SF:EVERYONE@:r'
gives 'both lists' 0 "folder root staff /\ndacl\nlist:a\nA::EVERYONE@:x\nA:fd:root:$ALL\nsacl\nlist:a\nU:SF:EVERYONE@:r\n" '' dump F
gives 'it leaves no record' 0 'at,user,path,bits,granted,entry,kind\n' '' audit F
set_list F / sacl list:a

resets() { # NAME STATUS OUT ERR FILE PATH WHICH LINE ..
  local name=$1 wanted=$2 out=$3 err=$4 file=$5 path=$6 which=$7
  shift 7
  from_lines "$@"
  gives "$name" "$wanted" "$out" "$err" reset "$file" "$path" "$which"
  input=/dev/null
}
resets reset-no-such 2 'refused: N1 no-such at /q\n' '' F /q dacl list:
resets 'no such above' 2 'refused: N1 no-such at /q\n' '' F /q/r/s dacl list:
resets reset-bad-entry 2 'refused: entry 1: A11 i without f or d\n' '' F / dacl list: A:i:bob:r
resets 'an entry of the other list' 2 \
  'refused: entry 2: A9 type not of this attribute\n' '' F / sacl list: U:S:bob:r A::bob:r
resets 'a flag of the other list' 2 \
  'refused: entry 1: A10 S or F on A or D\n' '' F / dacl list: A:S:bob:r
resets 'no list line' 2 'refused: line 1: A6 no list line\n' '' F / dacl A::bob:r
resets 'an entry of three parts' 2 'refused: line 2: A5 not four parts\n' '' F / dacl list:a A::bob
resets 'a type that is none' 2 'refused: line 2: A1 bad type\n' '' F / dacl list:a X::bob:r
resets 'a flag that is none' 2 'refused: line 2: A2 bad flag\n' '' F / dacl list:a A:q:bob:r
resets 'a who that is none' 2 'refused: line 2: A3 bad who\n' '' F / dacl list:a A::*:r
resets 'a right that is none' 2 'refused: line 2: A4 bad mask letter\n' '' F / dacl list:a A::bob:Z
from_lines list: $(printf 'A:I:bob:r %.0s' {1..4097})
gives 'too many entries' 2 'refused: line 4098: A7 more than 4096 entries\n' '' reset F / dacl
from_lines list: $(printf 'A::bob:r %.0s' {1..65})
gives 'too many of its own' 2 'refused: line 66: A8 more than 64 own entries\n' '' reset F / dacl
printf 'list:\nA::\xff:r\n' >bad
input=bad
gives 'no text' 2 'refused: line 2: A13 not UTF-8\n' '' reset F / dacl
input=/dev/null
gives 'no list at all' 2 'refused: line 1: A6 no list line\n' '' reset F / dacl

resets 'no slash' 2 'refused: P1 bad object name\n' '' F q dacl list:
resets 'an empty name' 2 'refused: P1 bad object name\n' '' F //q dacl list:
resets 'dots' 2 'refused: P1 bad object name\n' '' F /.. dacl list:
resets 'no path' 2 'refused: P1 bad object name\n' '' F '' dacl list:
resets 'a long name' 2 'refused: P1 bad object name\n' '' F "/$(printf 'a%.0s' {1..256})" dacl list:
resets 'a long path' 2 \
  'refused: P2 path over 4096 bytes\n' '' F "/$(printf 'a%.0s' {1..4096})" dacl list:
resets 'escapes stand as they are' 2 'refused: N1 no-such at /%71\n' '' F /%71 dacl list:
resets 'the path comes before the list' 2 'refused: P1 bad object name\n' '' F q dacl nonsense
resets 'the list comes before the file' 2 \
  'refused: line 1: A6 no list line\n' '' missing / dacl nonsense
resets 'the path comes before the file' 2 'refused: P1 bad object name\n' '' missing q dacl list:
resets 'a file that is missing' 3 '' 'fault: file\n' missing / dacl list:
{ printf 'list:a\n#'; head -c 1048569 /dev/zero | tr '\0' x; } >whole
holds 'it has 1048577 bytes' [ "$(wc -c <whole)" = 1048577 ]
input=whole
gives 'a list that is too long' 2 'refused: input too long\n' '' reset F / dacl
head -c 1048576 whole >most
input=most
gives 'a list of 1048576 bytes' 0 'done\n' '' reset F / dacl
"$rooms" reset F / dacl <&- >"$work/out" 2>"$work/err"
status=$?
wants 'closed standard input' 3 '' 'fault: file\n'
gives 'sound' 0 'sound\n' '' verify F
