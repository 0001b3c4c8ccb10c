# `check`: the worked examples, limits, and faults of its input and output.

list_of() { # HEADER-CALLER HEADER-GROUPS OWNERS ASK ENTRY ..
  from_lines "caller:${1:+ $1}" "groups:${2:+ $2}" "owners: $3" "ask:${4:+ $4}" list: "${@:5}"
}

list_of alice '' root:staff rw A::alice:r D::EVERYONE@:rw
gives deny-after-allow 1 'denied bits w entry 2 D::EVERYONE@:rw\n' '' check
list_of alice '' root:staff r A::alice:r D::EVERYONE@:rw
gives first-entry-grants 0 'granted\n' '' check
list_of alice '' root:staff r
gives nothing-grants 1 'denied bits r no entry\n' '' check
list_of alice '' root:staff ''
gives empty-mask-granted 0 'granted\n' '' check
list_of alice '' root:staff r D:fi:alice:r A::alice:r
gives inherit-only-does-not-count 0 'granted\n' '' check
list_of alice '' alice:staff r A:g:OWNER@:r
gives group-flag-on-owner 0 'granted\n' '' check
list_of alice '' alice:staff r A:i:alice:r
gives inherit-only-alone 2 'refused: entry 1: A11 i without f or d\n' '' check
from_lines 'caller: alice' groups: 'owners: root:staff' 'ask: r'
gives check-without-list 2 'refused: line 5: A6 no list line\n' '' check
list_of '' '' root:staff r A::AUTHENTICATED@:r
gives check-anonymous-denied 1 'denied bits r no entry\n' '' check
list_of '' '' root:staff r A::ANONYMOUS@:r
gives check-anonymous-granted 0 'granted\n' '' check
list_of '' sales root:staff r A::ANONYMOUS@:r
gives check-anonymous-with-group 2 'refused: line 2: K2 bad name\n' '' check

from_lines 'caller alice' groups: 'owners: root:staff' 'ask: r' list:
gives 'a header without its colon' 2 'refused: line 1: K1 bad header\n' '' check
list_of alice '' root:staff q
gives 'a letter that is no right' 2 'refused: line 4: A4 bad mask letter\n' '' check
list_of alice '' root:staff r A::alice
gives 'an entry of three parts' 2 'refused: line 6: A5 not four parts\n' '' check
input=/dev/null
gives 'no input' 2 'refused: line 1: K1 bad header\n' '' check

# The limit is 1,048,576 bytes: a comment fills the input up to it.
list_of alice '' root:staff r A::alice:r
{ cat "$work/input"; printf '#'; } >whole
size=$(wc -c <whole)
head -c $((1048576 - size)) /dev/zero | tr '\0' x >>whole
input=whole
gives 'input of 1048576 bytes' 0 'granted\n' '' check
printf x >>whole
gives check-too-long 2 'refused: input too long\n' '' check
# No more than that is read: the input here never ends.
holds 'input without an end' \
  [ "$(timeout "$patience" "$rooms" check </dev/zero)" = 'refused: input too long' ]

# Faults of the output and the input.
list_of alice '' root:staff r A::alice:r
"$rooms" check <"$input" 2>"$work/err" >&-
status=$?
: >"$work/out"
wants 'closed standard output' 3 '' 'fault: file\n'
if [ -c /dev/full ]; then
  "$rooms" check <"$input" 2>"$work/err" >/dev/full
  status=$?
  wants 'full standard output' 3 '' 'fault: file\n'
  "$rooms" check <"$input" >"$work/out" 2>/dev/full
  status=$?
  : >"$work/err"
  wants 'full standard error' 0 'granted\n' ''
fi
# A reader that closes the pipe.
mkfifo pipe
"$rooms" check <"$input" 2>"$work/err" >pipe &
process=$!
exec 8<pipe
exec 8<&-
wait "$process"
status=$?
# Either the program had printed before that, or its write failed.
: >"$work/out"
if [ "$status" = 0 ]; then pass; else wants 'a reader that has gone' 3 '' 'fault: file\n'; fi
"$rooms" check >"$work/out" 2>"$work/err" <&-
status=$?
wants 'closed standard input' 3 '' 'fault: file\n'
"$rooms" check >"$work/out" 2>"$work/err" </
status=$?
wants 'a folder as standard input' 3 '' 'fault: file\n'
"$rooms" check >"$work/out" </ 2>&-
status=$?
: >"$work/err"
wants 'a fault that cannot be told' 3 '' ''
