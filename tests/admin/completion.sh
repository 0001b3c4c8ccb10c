# The completion for bash offers each option of each verb and subcommand, and no other: it is
# compared with what these say themselves.

completion=$repo/admin/completion/rooms
completes() { # WORD ..
  # shellcheck disable=SC2016
  PATH=$repo/admin:$PATH bash -c '
    . "$1"; shift; COMP_WORDS=("$@") COMP_CWORD=$(($# - 1))
    by=$(complete -p "${1##*/}"); by=${by% *}; "${by##* }"
    printf "%s\n" ${COMPREPLY[@]+"${COMPREPLY[@]}"}' bash "$completion" "$@"
}
options() { grep -oE -e '--[a-z]+(-[a-z]+)*' | sort -u; }
# rooms-admin says its verbs and their options itself, under each of its names.
"$repo/admin/rooms-admin" --words | sort >wanted
completes rooms-admin '' | sort >offered
same 'the verbs' offered wanted
for pair in rooms-admin:export export:export import:import handover:handover get:get \
  nightly:backup restore:restore \
  standby:standby directory:groups full:full add:add setup:setup doctor:doctor; do
  verb=${pair#*:}
  "$repo/admin/rooms-admin" --words "$verb" | sort >wanted
  if [ "$pair" = rooms-admin:export ]; then
    completes rooms-admin export --
  else
    completes "rooms-${pair%:*}" --
  fi | sort >offered
  same "the options of $pair" offered wanted
done

# The program itself, and each of its subcommands.
subcommands() {
  "$rooms" --help 2>&1 </dev/null |
    awk '/^Commands:/ { on = 1; next } /^$/ { on = 0 } on { print $1 }'
}
by_rooms() { # WORD ..
  bash -c '
    . "$1"; shift; COMP_WORDS=("$@") COMP_CWORD=$(($# - 1)); _rooms
    printf "%s\n" ${COMPREPLY[@]+"${COMPREPLY[@]}"}' bash "$completion" "$@"
}
{ subcommands; "$rooms" --help 2>&1 </dev/null | options; } | sort >wanted
by_rooms rooms '' | sort >offered
same 'the subcommands' offered wanted
for name in $(subcommands); do
  "$rooms" "$name" --help 2>&1 </dev/null | sed -n '/^Options:/,/^$/p' | options >wanted
  by_rooms rooms "$name" -- | sort >offered
  same "the options of rooms $name" offered wanted
done

offers() { # NAME WANTED WORD ..
  local got
  got=$(completes "${@:3}" | grep . | sort | tr '\n' ' ')
  if [ "$got" = "${2:+$2 }" ]; then pass; else fail "$1" "'$got' instead of '$2'"; fi
}
: >conf
: >latest.tar
offers 'a part of an option' '--dry-run' rooms-add --dr
offers 'an option behind another one' '--on' rooms-add --title x --on
offers 'a file of settings' conf rooms-nightly --room con
offers 'a file of settings behind a verb' conf rooms-admin backup -r con
offers 'a part of a verb' standby rooms-admin stan
offers 'a file behind an option' conf rooms-get --room con
offers 'a file behind an option of a verb' conf rooms-admin get --room con
offers 'the last backup, or a file' 'latest latest.tar' rooms-restore lat
offers 'the last backup, or a file, of a verb' 'latest latest.tar' rooms-admin restore lat
offers 'the way back from a directory' none rooms-setup --directory no
offers 'the same of the verb' none rooms-admin setup --directory no
# Names of rooms, backups, users and groups, which may have signs of the shell.
mkdir -p named/backups/office/2026-11-20.040000 named/backups/office/2026-11-21.040000 \
  root/var/lib/rooms-web/office root/etc/nginx named/folder
chmod 700 named/backups named/backups/*/ named/backups/*/*
printf '%s\n' "FILE=$PWD/named/folder/F" "BACKUPS=$PWD/named/backups" PROGRAM=/bin/true \
  >named/office.conf
cp named/office.conf 'named/$(touch taken).conf'
for night in named/backups/office/*/; do
  : >"${night}F"
  chmod 600 "${night}F"
done
web=root/var/lib/rooms-web/office
printf '%s\n' 'group,user after 0  of ' staff,bob 'sales,OFFICE\dana' >$web/members.csv
printf '%s\n' 'eve:x' '$(touch taken):x' '# two words' 'a+$HOME:x' >root/etc/nginx/rooms.htpasswd
knows() { ROOMS_SETTINGS=$PWD/named ROOMS_ROOT=$PWD/root offers "$@"; }
knows 'rooms' 'office' rooms-admin backup --room offi
knows 'no other one' '' rooms-admin backup --room '$'
knows 'backups' '2026-11-20.040000 2026-11-21.040000' rooms-admin restore 2026
knows 'backups of an option' '2026-11-21.040000' rooms-admin who --backup 2026-11-21
knows 'backups of a room' '2026-11-20.040000' rooms-admin get --room office 2026-11-20
knows 'users' 'bob' rooms-admin user remove b
knows 'users as they are called' 'a+$HOME' rooms-admin user change a
knows 'with a backslash' 'OFFICE\dana' rooms-admin user remove OFF
knows 'users of an option' 'eve' rooms-admin handover --as e
knows 'groups' 'sales staff' rooms-admin user change eve --add s
knows 'groups to leave' 'sales' rooms-admin user change eve --drop sa
holds 'nothing in a name was run' is_missing taken
offers 'help of a verb' 'standby' rooms-admin help sta
offers 'help of a part' 'remove' rooms-admin help user re
offers 'a new name is not known' '' rooms-add con
offers 'nor is a user of a room' '' rooms-import --as con
offers 'a user of the machine' root rooms-doctor --user roo
offers 'the same of the verb' root rooms-admin doctor --user roo
offers 'what is done with a user' remove rooms-admin user re
offers 'a name of a user is not known' '' rooms-admin user add con
offers 'a room of a user' conf rooms-admin user add eve --room con
offers 'a backup that goes out' 'latest latest.tar' rooms-admin export --backup lat
offers 'a backup that is asked' 'latest latest.tar' rooms-admin who --backup lat
offers 'a room that is asked' conf rooms-admin lists --room con
offers 'a place of a room is not known' '' rooms-admin lists con
offers 'nor is it behind an option' '' rooms-admin who --change con
offers 'nor that of a backup' '' rooms-admin backups --with con
