# How tests/run plays parts: what it counts and prints, a second try, and that nothing is left of a
# part that is killed. Its parts are some of this case's own.

if ! has prove || ! has realpath; then
  skip 'how parts are played' 'no prove or realpath'
  return
fi
# Which part stands where, as README.md says.
installs='lib/(machine|booted)[.]sh|deploy/install|tools/package'
(cd "$here" && grep -LE "$installs" machine/*.sh) >found
same 'what installs nothing isn'"'"'t in machine' found /dev/null
(cd "$here" && grep -LE 'lib/(front|earlier|door)[.]sh' nginx/*.sh) >found
same 'what starts no nginx isn'"'"'t in nginx' found /dev/null
(cd "$here" && grep -lE '^[^#]*(lib/(machine|booted)[.]sh|dpkg -)' {admin,program}/*.sh) >found
same 'what needs a machine of its own isn'"'"'t in admin or program' found /dev/null

case $PWD in /var/tmp/*)
  skip 'how parts are played' 'their own /var/tmp would hide this one'
  return ;;
esac
mkdir -p house/{crates,tests/{docs,program,admin,nginx,machine,services,web},cache}
cp -r "$here/run" "$here/lib" house/tests/
printf '#!/bin/sh\n' >house/program
chmod 755 house/program
part() { cat >"house/tests/$1.sh"; } # NAME
# With a path that is short enough.
short=$(mktemp -d /var/tmp/XXXXXX)
export XDG_CACHE_HOME=$PWD/house/cache
plays() { # [OPTION ..] PARTS
  # shellcheck disable=SC2086
  TMPDIR=$short house/tests/run "${@:1:$#-1}" house/program ${!#} \
    >"$work/out" 2>"$work/err" </dev/null
  status=$?
}
nothing_is_left() { holds "$1: no folder is left" [ -z "$(ls -A "$short")" ]; } # NAME
part docs/good <<'END'
holds 'one' true
passes 'counted' 3
pass
(pass 'in a shell below')
skip 'a skip #1' 'it lacks # a
thing'
tried fail 'not counted' 'why' >/dev/null || pass 'which is seen'
printf 'what it says itself\n'
END
part program/bad <<'END'
printf 'a\nb\n' >got
printf 'a\nc\n' >wanted
same 'two files' got wanted
(fail 'in a shell below' 'of its own')
pass
END
plays 'docs/good'
told 'a part that is well' 0 '7 passed, 0 failed' 'skipped docs/good: a skip  1: it lacks # a thing'
plays 'docs/good program/bad'
told 'one that fails' 1 'FAILED two files (program/bad.sh:3): other bytes' '-c' '+b' \
  'FAILED in a shell below (program/bad.sh:4): of its own'
holds 'its last line has the counts' [ "$(tail -n 1 "$work/out")" = '8 passed, 2 failed' ]
holds 'what a part that is well says itself is not shown' \
  eval '! grep -q "what it says itself" "$work/out" "$work/err"'
nothing_is_left 'after them'
echo 'exit 3' | part program/ends
plays 'program/ends docs/good'
told 'one that ends before its end' 1 'FAILED program/ends: it ended before its end' \
  '7 passed, 1 failed'

# What failed last comes first, and then what took longest.
plays --jobs 1 'docs/good program/ends program/bad'
sed -n 's/^\([^ ]* \)*\([a-z]*\/[a-z]*\)[.]sh [.].*/\2/p' "$work/out" >ran
holds "in that order: $(tr '\n' ' ' <ran)" [ "$(tail -n 1 ran)" = docs/good ]

# A second try counts in the place of the first.
printf '%s\n' "[ -e '$PWD/once' ] || { : >'$PWD/once'; fail first time; }" 'pass' | part admin/once
plays --again 'admin/once docs/good program/bad'
told 'a part that passes at its second try' 1 'passed only at the second try: admin/once' \
  '9 passed, 2 failed'
holds 'and no other' [ "$(grep -c '^passed only at' "$work/out")" = 1 ]
plays 'docs/none'
told 'a part that is not there' 1 'no such part: docs/none' '0 passed, 1 failed'
long=$PWD/house/$(printf 'x%.0s' {1..60})
mkdir "$long"
TMPDIR=$long house/tests/run house/program docs/good >"$work/out" 2>"$work/err"
status=$?
told 'a folder for sockets that is too far down' 1 'TMPDIR has too long a path for sockets below it'
rmdir "$long"

# A part that is killed: its processes and mounts end with it, and what others have stays.
if [ "$(id -u)" != 0 ] || ! unshare --mount --net --pid --fork true 2>/dev/null; then
  skip 'a part that is killed' 'no root, or no namespaces'
  return
fi
part program/killed <<END
mkdir small
mount -t tmpfs none small
echo left >/var/tmp/left
setsid sleep 98765 &
: >"$PWD/begun"
until [ -e "$PWD/goes" ]; do sleep 0.05; done
kill -KILL \$\$
sleep 98764
END
(plays 'program/killed docs/good'; echo "$status" >ended) &
playing=$!
until [ -e begun ] || ! kill -0 "$playing" 2>/dev/null; do sleep 0.05; done
left() { ps -e -o args= | grep -c '^sleep 9876[45]'; }
becomes() { # NUMBER: so many are left, soon
  local turn
  for turn in {1..200}; do [ "$(left)" != "$1" ] || return 0; sleep 0.05; done
  return 1
}
holds 'it runs' becomes 1
: >goes
wait "$playing"
status=$(<ended)
told 'a part that is killed' 1 'FAILED program/killed: it ended before its end' '7 passed, 1 failed'
holds 'leaves no process' [ "$(left)" = 0 ]
holds 'no mount' [ "$(grep -c "$PWD/house" /proc/self/mounts)" = 0 ]
holds 'no file elsewhere' is_missing /var/tmp/left
nothing_is_left 'of it'
# The run itself, too.
rm begun goes
TMPDIR=$short house/tests/run house/program program/killed docs/good >"$work/out" 2>&1 </dev/null &
playing=$!
until [ -e begun ] || ! kill -0 "$playing" 2>/dev/null; do sleep 0.05; done
holds 'it runs again' becomes 1
kill -KILL "$playing"
wait "$playing" 2>/dev/null
holds 'a run that is killed leaves no process either' becomes 0
rm -rf "$short"
