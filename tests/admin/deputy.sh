# The file for sudo by which a group of people gives passwords and changes groups of one room: what
# it lets them do, and that none of them becomes root by it, whatever they type.

if [ "$(id -u)" != 0 ] || ! has sudo || ! has visudo || ! has setpriv; then
  skip 'a deputy' 'no root, or sudo or setpriv is missing'
  return
fi
# This part has mounts of its own, so the machine's accounts stay as they are.
chmod 755 "$work" .
mkdir -p sbin etc
# Whatever runs as root is told here.
cat >sbin/rooms-admin <<END
#!/bin/bash
{ id -u; printf '<%s>' "\$@"; echo; env; } >>"$PWD/ran"
END
chmod 755 sbin sbin/rooms-admin
cp /etc/passwd /etc/group /etc/shadow etc/
echo 'carol:x:4242:4242::/:/bin/sh' >>etc/passwd
echo 'carol:*:19000:0:99999:7:::' >>etc/shadow
printf '%s\n' 'carol:x:4242:' 'rooms-office:x:4243:carol' >>etc/group
{ echo 'Defaults env_reset'; echo 'Defaults !requiretty, !lecture'
  sed -e "s#/usr/local/sbin/rooms-admin#$PWD/sbin/rooms-admin#; s/@ROOM@/office/g" \
    -e 's/ALL=(root:root)/& NOPASSWD:/' "$repo/deploy/sudoers.in"; } >etc/sudoers
chmod 440 etc/sudoers
visudo -c -f etc/sudoers >"$work/out" 2>&1
status=$?
holds "sudo takes the file: $(cat "$work/out")" [ "$status" = 0 ]
for file in passwd group shadow sudoers; do
  mount --bind "etc/$file" "/etc/$file" 2>/dev/null || {
    skip 'what a deputy may do' "no mount over /etc/$file"
    return
  }
done
: >ran
by_carol() { # WORD ..: of sudo
  : >ran
  setpriv --reuid=4242 --regid=4242 --groups=4243 env -i PATH="$PATH" HOME=/ \
    PYTHONPATH="$PWD" ROOMS_SETTINGS="$PWD" BASH_ENV="$PWD/x" IFS=x sudo -n "$@" \
    >"$work/out" 2>&1 </dev/null
  status=$?
}
admin=$PWD/sbin/rooms-admin
by_carol "$admin" check --room office
if ! [ -s ran ] && grep -qE 'no new privileges|nosuid|PERM_SUDOERS|audit plugin' "$work/out"; then
  skip 'what a deputy may do' "$(head -c 200 "$work/out")"
  return
fi

may() { # WORD ..
  by_carol "$admin" "$@"
  holds "may: $*: $(head -c 200 "$work/out")" \
    [ "$(head -n 2 ran | tr '\n' ' ')" = "0 $(printf '<%s>' "$@") " ]
  for name in PYTHONPATH ROOMS_SETTINGS BASH_ENV; do
    holds "without $name of theirs: $*" [ "$(grep -c "^$name=" ran)" = 0 ]
  done
  holds "told who asks: $*" grep -qx SUDO_USER=carol ran
}
may check --room office
may user list --room office
may user add --room office eve
may user add --room office --first --random eve
may user add --room office --random --groups sales eve@firm.example
may user change --room office --add staff --add sales --drop hr bob
may user change --room office --drop hr bob

may_not() { # WORD ..: of sudo
  by_carol "$@"
  holds "may not: $*" [ "$status" != 0 -a ! -s ran ]
}
# Another verb, another room, another option, a path, a word more or less.
for typed in 'user remove --room office bob' 'user add --room invoices eve' 'user add eve' \
  'user add --room ./office eve' 'user add --room /tmp/x.conf eve' 'user add --room office' \
  'user add --room office --file /etc/shadow' 'user add --room office --file=/etc/shadow' \
  'user add --room office --random --file /etc/shadow eve' 'user add --room office ../eve' \
  'user add --room office -x' 'user add --room office --room /tmp/x eve' \
  'user add --room office --groups /etc eve' 'user add --room office --groups -x eve' \
  'user add --room office eve --file' 'user add --room office eve bob' \
  'user add --room office -r /tmp/x' 'user change --room office --add staff' \
  'user change --room office --new --add x bob' 'user change --room office --add ../x bob' \
  'user list --room office --json' 'user list' 'user list --room invoices' 'check' \
  'check --room office --room /tmp/x' 'check --room /tmp/x' 'set PROGRAM=/tmp/x' \
  'set --room office PROGRAM=/tmp/x' 'setup' 'restore --machine /tmp/x' 'groups' \
  'doctor --program /tmp/x' 'help' '--version' ''; do
  read -r -a words <<<"$typed"
  may_not "$admin" ${words[@]+"${words[@]}"}
done
# Words that only look like those that are allowed.
may_not "$admin" user add --room office $'eve\n--file'
may_not "$admin" user add --room office 'eve;id'
may_not "$admin" user add --room office '$(id)'
may_not "$admin" user add --room office ''
may_not "$admin" user add --room office 'a\b'
may_not "$admin" check --room 'office --room x'
# Another program, another user, surroundings of theirs, an editor, a shell.
mkdir theirs
cp sbin/rooms-admin theirs/
may_not theirs/rooms-admin check --room office
may_not -u daemon "$admin" check --room office
may_not -g daemon "$admin" check --room office
may_not ROOMS_SETTINGS=/tmp "$admin" check --room office
may_not -E "$admin" check --room office
may_not -D /tmp "$admin" check --room office
may_not -R /tmp "$admin" check --room office
may_not -e /etc/passwd
may_not -s
may_not -i
may_not /bin/sh -c id
# Words in one another are the same letters for sudo, and no words of rooms-admin.
by_carol "$admin" 'user add' --room office eve
[ ! -s ran ] || {
  "$repo/admin/rooms-admin" 'user add' --room office eve >"$work/out" 2>"$work/err" </dev/null
  holds 'two words in one are no verb' [ "$?" = 2 ]
}
# Who isn't in the group may nothing.
: >ran
sed -i 's/^rooms-office:.*/rooms-office:x:4243:/' etc/group
cat etc/group >/etc/group
: >ran
setpriv --reuid=4242 --regid=4242 --clear-groups sudo -n "$admin" check --room office \
  >"$work/out" 2>&1 </dev/null
holds 'nobody else may' [ "$?" != 0 -a ! -s ran ]
