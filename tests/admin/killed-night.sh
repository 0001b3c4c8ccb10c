# rooms-admin backup, interrupted at each of its calls: the next request is answered, no half of a
# backup is taken for one, and the next run tells and removes it.

. "$here/lib/nights.sh"
if [ "$loopback" = no ] || ! has flock || ! has setpriv || ! has setsid; then
  skip 'nights that are interrupted' 'no loopback, or no flock, setpriv, setsid'
  return
fi
make_stand
new_office
answers 'a document before the nights' /doc/f made PUT hello

for how in TERM KILL; do
  for number in {1..150}; do
    rm -rf backups/conf/*
    cut_off "$how" "$number" night || break
    answers "$name: the room answers" '/can/?' "json '200 OK' '{}'"
    owes_nothing "$name"
    for copy in backups/conf/*; do
      case $copy in
        *'*' | *.part) ;;
        *) [ "$("$rooms" verify "$copy/F" 2>&1)" = sound ] || fail "$name" "$copy is no backup" ;;
      esac
    done
    left=$(find backups -name '*.part' -o -name unfinished)
    [ -n "$left" ] || ((number % 4 == 0)) || continue
    night
    holds "$name: the next run tells what was left, and nothing else ($status)" \
      [ "$status" = "$([ -z "$left" ]; echo $?)" ]
    holds "$name: it has a backup" [ -s "backups/conf/$(newest)/F" ]
    holds "$name: no copy is half made" [ -z "$(find backups -name '*.part')" ]
    holds "$name: no text is half written" [ -z "$(find backups -name unfinished)" ]
  done
  holds "$how: the calls came to an end" [ "$number" -gt 10 -a "$number" -lt 150 ]
  night
  holds "$how: a good night after all" [ "$status" = 0 ]
done
answers 'the room answers' '/can/?' "json '200 OK' '{}'"
