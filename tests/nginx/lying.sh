# A directory that lives and lies, asked by the Apache that setup writes, behind nginx's check of
# passwords: each try has an answer in time, however many there are, passwords in files go on, and
# none is said where somebody between keeps TLS away.

. "$here/lib/directory.sh"
. "$here/lib/front.sh"
if [ -z "$nginx" ] || ! has curl || [ -z "$apache2" ] || [ ! -e $modules/mod_authnz_ldap.so ] ||
  [ "$loopback" = no ] || ! has openssl || ! has python3; then
  skip 'a directory that lies' 'nginx, curl, openssl, python3 or mod_authnz_ldap is missing'
  return
fi
certify_directory
echo reader-word >secret
chmod 600 secret
mkdir -p machine/etc/nginx
admin setup
admin add invoices
printf 'eve:{PLAIN}eve-word\n' >rooms-invoices.htpasswd
cp rooms-invoices.htpasswd rooms.htpasswd
chmod 644 rooms*.htpasswd
start_front 'a directory that lies' || return
# (taken with the next settings)
sed -i 's/worker_connections 256/worker_connections 2048/' nginx.conf
ldap=$((port + 30))
plays() { # NAME ADDRESS KIND ..
  if PYTHONPATH=$here/admin python3 -B "$here/nginx/lying.py" "$PWD" "$apache" "${@:2}" \
    >"$work/out" 2>&1; then
    passes "$1" "$(grep -c '^ok ' "$work/out")"
  else
    fail "$1" "$(tail -n 20 "$work/out")"
  fi
}
asks_by() { # LINE ..: of settings
  { good | grep -v '^URI='; printf '%s\n' "$@"; } >settings
  start_apache "$PWD/settings" || fail 'Apache' "$(head -c 300 apache.out apache.log)"
  ask_directory
}
ends_apache() {
  kill "$httpd"
  wait "$httpd" 2>/dev/null
}
asks_by "URI=ldap://127.0.0.1:$ldap"
plays 'a directory that lies' "ldap://127.0.0.1:$ldap" 'search 0' silent slow dripping cut strange \
  endless large referring 'bind 49' 'bind 52' 'search 51' 'search 4'
ends_apache
asks_by "URI=ldaps://127.0.0.1:$ldap" "CA=$PWD/directory-ca.pem"
plays 'one that lies by TLS' "ldaps://127.0.0.1:$ldap" 'search 0' silent slow dripping cut
ends_apache
if ip addr add 192.0.2.1/32 dev lo 2>"$work/err"; then
  asks_by "URI=ldap://192.0.2.1:$ldap"
  plays 'somebody between' "ldap://192.0.2.1:$ldap" 'starttls 1' 'starttls 2' 'starttls 52' \
    'starttls 53' stripped silent
else
  skip 'somebody between' "no other address: $(head -c 200 "$work/err")"
fi
