# A user changes the own password in the page, in Chromium and in Firefox.

. "$here/lib/own-password.sh"
. "$here/lib/browsers.sh"
. "$here/lib/door.sh"
if [ -n "$lacking" ] || lacks_own; then
  skip 'own passwords in the page' "missing: ${lacking:-htpasswd, setpriv or root}"
  return
fi
{
  echo "alice:$(hash_of 'first one of alice')"
  echo "carol:$(hash_of nothing)"
} >all
start_own 'own passwords in the page' A:fd:carol:rx || return
admin add hr alice staff
sets hr OWN_PASSWORDS no
admin setup
take_front
sed -i -e "s|auth_basic_user_file $PWD/|auth_basic_user_file $kept/|" -e 's|10r/m|6000r/m|' \
  sites-enabled/rooms
begin() { # as at the beginning
  echo "alice:$(hash_of 'first one of alice')" >one
  set_passwords one
  echo "carol:$(hash_of 'given to carol')" >"$kept/rooms.first"
  cp "$kept/rooms.htpasswd" "$kept/rooms-hr.htpasswd"
  echo "alice:$(hash_of 'gravel under bridges')" >"$kept/rooms-hr.htpasswd"
  chmod 644 "$kept/rooms-hr.htpasswd"
  no_tries
  rm -rf remembered
  reload_front
}
begin
# (The page waits for a room that doesn't answer, so hr has a server too.)
"$rooms" init H alice staff >hr.out
mkdir -p run/rooms/hr
"$rooms" serve H --socket "$PWD/run/rooms/hr/socket" --count 100000 </dev/null >hr.out 2>&1 &
others+=("$!")
until [ -S run/rooms/hr/socket ]; do sleep 0.02; done
start_door office
start_door hr
play 'own passwords in Chromium' own_password.py "$PWD" "$front" chromium
if has firefox-esr || has firefox; then
  sleep 11
  begin
  play 'own passwords in Firefox' own_password.py "$PWD" "$front" firefox "$((front + 20))"
else
  skip 'own passwords in Firefox' 'missing: firefox-esr'
fi

