# Tickets of Kerberos beside the passwords of a directory, by the blocks of directory.md: two
# realms, slapd, Apache, nginx, a room.

. "$here/lib/front.sh"
. "$here/lib/directory.sh"
. "$here/lib/machine.sh"
top=$here/..
missing=()
for tool in kdb5_util kadmin.local krb5kdc kinit nginx slapd curl; do
  [ -n "$(PATH=$PATH:/usr/sbin:/sbin command -v $tool)" ] || missing+=("$tool")
done
for module in auth_gssapi authnz_ldap; do
  [ -e "$modules/mod_$module.so" ] || missing+=("mod_$module")
done
if [ "${#missing[@]}" != 0 ] || [ "$(id -u)" != 0 ] || [ "$loopback" = no ] ||
  ! curl --version | grep -qw GSS-API; then
  skip 'tickets of Kerberos' "no root, no loopback, no curl with GSS-API, or missing: ${missing[*]}"
  return
fi
PATH=$PATH:/usr/sbin:/sbin
pasted() { # TEXT-IN-THE-BLOCK: a block of the page, in this folder
  block docs/directory.md "$1" | sed \
    -e "s#/etc/rooms/nginx/#@OWN@/#g; s#/etc/rooms/#$PWD/#g; s#/etc/krb5.conf#$PWD/krb5.conf#g" \
    -e "s#@OWN@#$PWD/machine/etc/rooms/nginx#g" \
    -e "s#-o rooms-passwords -g rooms-passwords#-o $checker -g $(id -gn "$checker")#" \
    -e '/^apt-get /d; /^systemctl /d; /^nginx -t/d' >block
  [ -s block ] || echo "echo no block with: $1 >&2; exit 1" >block
  bash -eu block >"$work/out" 2>"$work/err" </dev/null ||
    fail "the block with $1" "$(head -c 400 "$work/out" "$work/err")"
}

# Two realms, one of which trusts the other, in one process.
write_realms() { # PORT
  local realm
  {
    printf '%s\n' '[libdefaults]' 'dns_lookup_realm = false' 'dns_lookup_kdc = false' \
      'dns_canonicalize_hostname = false' 'rdns = false' '[realms]'
    for realm in EXAMPLE.NET OTHER.NET; do
      printf '%s = {\n  kdc = 127.0.0.1:%s\n}\n' "$realm" "$1"
    done
    printf '%s\n' '[domain_realm]' 'rooms.example = EXAMPLE.NET'
  } >realms.conf
  {
    printf '%s\n' '[kdcdefaults]' "kdc_listen = 127.0.0.1:$1" "kdc_tcp_listen = 127.0.0.1:$1" \
      '[realms]'
    for realm in EXAMPLE.NET OTHER.NET; do
      printf '%s = {\n  database_name = %s\n  key_stash_file = %s.stash\n}\n' "$realm" \
        "$PWD/$realm" "$PWD/$realm"
    done
  } >kdc.conf
}
tells() { kadmin.local -r "$1" -q "$2" >>said 2>&1; } # REALM QUERY
make_realms() {
  local realm name
  for realm in EXAMPLE.NET OTHER.NET; do
    kdb5_util -r "$realm" create -s -P master >>said 2>&1 || return
    tells "$realm" 'addprinc -pw trusted krbtgt/EXAMPLE.NET@OTHER.NET' || return
  done
  for name in alice bob carol Carol carol/admin dana stranger; do
    tells EXAMPLE.NET "addprinc -pw $name-ticket $name" || return
  done
  tells OTHER.NET 'addprinc -pw carol@OTHER.NET-ticket carol'
}
start_realms() {
  local turn began
  for turn in {1..10}; do
    write_realms $((port + 60 + turn))
    krb5kdc -n -r EXAMPLE.NET -r OTHER.NET >>said 2>&1 &
    kdc=$!
    others+=("$kdc")
    began=$SECONDS
    until signs_in alice || ! kill -0 "$kdc" 2>/dev/null ||
      [ $((SECONDS - began)) -ge "$patience" ]; do
      sleep 0.2
    done
    ! signs_in alice || return 0
    kill "$kdc" 2>/dev/null
    wait "$kdc" 2>/dev/null
  done
  return 1
}
signs_in() { kinit -c "FILE:$PWD/ticket.${1//\//-}" "$1" <<<"$1-ticket" >kinit.out 2>&1; } # NAME

# The page's own file is read beside the realms of this case.
pasted default_realm
holds 'the realm is named' grep -qx 'default_realm = EXAMPLE.NET' krb5.conf
cp krb5.conf first.conf
pasted default_realm
same 'a file that is there stays' krb5.conf first.conf
export KRB5_CONFIG=$PWD/realms.conf:$PWD/krb5.conf KRB5_KDC_PROFILE=$PWD/kdc.conf \
  KRB5RCACHENAME=file2:$PWD/replays/tickets
mkdir -m 777 replays
write_realms "$port"
if ! make_realms || ! start_realms; then
  skip 'tickets of Kerberos' "no realm: $(tail -n 3 said)"
  unset KRB5_CONFIG KRB5_KDC_PROFILE KRB5RCACHENAME
  return
fi
if ! { for name in alice bob carol reader; do person "$name" "$name-word"; done
  person dana dana-word 'employeeType: gone'
  group accounting bob; } | load_directory || ! start_directory; then
  skip 'tickets of Kerberos' "$why"
  unset KRB5_CONFIG KRB5_KDC_PROFILE KRB5RCACHENAME
  return
fi

open_room F
set_list F / dacl list:a "A:fd:root:$ALL" A:fd:alice:rwxa D:fd:carol:r A:fd:AUTHENTICATED@:rx
start_room F 100000 || return
: >rooms.htpasswd
start_front 'tickets of Kerberos' || return
echo reader-word >secret
chmod 600 secret
good >settings
tells EXAMPLE.NET 'addprinc -randkey HTTP/rooms.example'
tells EXAMPLE.NET "ktadd -k $PWD/keytab HTTP/rooms.example"
pasted 'install -o '
holds 'only its user reads the key' [ "$(stat -c '%U %a' kerberos.keytab)" = "$checker 400" ]
pasted mod_auth_gssapi
# Apache 2.4.71 loses such an expression, or not, as what else it keeps lies in its memory.
holds 'no expression decides who is let in' \
  eval '! grep -q "Require expr" directory.d/kerberos.apache'
start_apache "$PWD/settings" ||
  fail 'tickets of Kerberos' "Apache doesn't start: $(head -c 300 apache.out apache.log)"
ask_directory
answers_by_ticket() { # STATUS NAME TARGET
  KRB5CCNAME=FILE:$PWD/ticket.${2//\//-} reached "$1" --negotiate -u : "$3"
}
reached() { # STATUS ARGUMENT .. TARGET
  [ "$(curl -s -m 20 -o "$work/body" -D "$work/head" \
    -w '%{http_code}' "${reach[@]}" "${@:2:$#-2}" "$base${!#}")" = "$1" ]
}
base=http://rooms.example:$front
reach=(--resolve "rooms.example:$front:127.0.0.1" --resolve "rooms.example:$apache:127.0.0.1")
challenges() { sed -n 's/^WWW-Authenticate: \([A-Za-z]*\).*/\1/p' "$work/head" | tr '\n' ' '; }
holds 'a ticket counts' awaits "$patience" answers_by_ticket 200 alice /folder/
pasted 'map "$status'
reloaded eval 'reached 401 / && [ "$(challenges)" = "Negotiate Basic " ]'
holds 'who has nothing is asked for either' [ "$(challenges)" = 'Negotiate Basic ' ]

# Who is who. Without a file of tickets kinit has signed nobody in.
ticket() { export KRB5CCNAME=FILE:$PWD/ticket.${1//\//-}; }
for name in bob carol Carol carol/admin carol@OTHER.NET dana stranger; do
  holds "$name signs in" signs_in "$name"
done
ticket alice
ask 'alice makes a document' 201 '' : /doc/f --negotiate -X PUT --data-binary hello
ticket bob
ask 'bob reads it' 200 hello : /doc/f --negotiate
denied='{"at":"/","bits":"r","entry":3,"text":"D:fd:carol:r"}'
for name in carol Carol; do
  ticket "$name"
  ask "$name is carol" 403 "$denied" : /folder/ --negotiate
  answer : /me --negotiate
  holds "$name is told so" grep -qx $'Room-User: carol\r' "$work/head"
done
for name in carol@OTHER.NET carol/admin dana stranger nothing; do
  ticket "$name"
  ask "$name is nobody" 401 - : /doc/f --negotiate
done
for field in 'Room-User: root' 'room-user: root' 'Room-User:'; do
  ticket bob
  ask "bob with $field is bob" 403 '{"at":"/f","bits":"w","entry":null,"text":null}' \
    : /doc/f --negotiate -X PUT --data-binary x -H "$field"
  ticket stranger
  ask "a stranger with $field is a stranger" 401 - : /doc/f --negotiate -H "$field"
done
ticket alice
ask 'a change by another site' 403 - \
  : /doc/f --negotiate -X PUT --data-binary x -H 'Origin: http://elsewhere.example'

# Passwords beside it.
ask 'a password' 200 hello bob:bob-word /doc/f
ask 'CAROL by a password is carol' 403 "$denied" CAROL:carol-word /folder/
ask 'a wrong password' 401 - bob:x /doc/f
answer bob:x /doc/f
holds 'another one is asked for' [ "$(challenges)" = 'Basic ' ]
holds 'small letters' reached 200 -H "Authorization: basic $(printf bob:bob-word | base64)" /doc/f
holds 'what is neither' reached 401 -H 'Authorization: Bearer x' /doc/f
holds 'is asked for either' [ "$(challenges)" = 'Negotiate Basic ' ]

# A further room is for its group by a ticket too.
by_apache() { # STATUS NAME ROOM
  ticket "$2"
  holds "$2 at $3 gets $1" \
    [ "$(curl -s -o "$work/body" -w '%{http_code}' "${reach[@]}" --negotiate -u : \
      -H "$(key_of_nginx)" "http://rooms.example:$apache/password/$3")" = "$1" ]
}
by_apache 200 bob rooms-invoices
by_apache 401 alice rooms-invoices
by_apache 200 alice rooms-hr
by_apache 401 carol@OTHER.NET rooms-invoices
# Apache answers nginx alone, by a ticket too.
ticket bob
holds 'a ticket without the key' [ "$(curl -s -o "$work/body" -w '%{http_code}' "${reach[@]}" \
  --negotiate -u : "http://rooms.example:$apache/password/rooms")" = 403 ]

# Tickets aren't counted, each counts once, and long ones are taken.
ticket bob
curl -s -o "$work/body" -w '%{http_code}\n' "${reach[@]}" --negotiate -u : "$base/doc/f?[1-150]" |
  sort | uniq -c >tried
holds 'many requests by a ticket' grep -qx ' *150 200' tried
sent=$(curl -sv -o "$work/body" "${reach[@]}" --negotiate -u : "$base/doc/f" 2>&1 |
  sed -n 's/^> Authorization: //p' | tr -d '\r')
holds 'a ticket was sent' [ "${#sent}" -gt 100 ]
holds 'it does not count again' reached 401 -H "Authorization: $sent" /doc/f
holds 'nothing of it is remembered' [ -z "$(grep -rlF -e "${sent#* }" remembered)" ]
long=$(head -c 11000 /dev/urandom | base64 | tr -d '\n')
holds 'a long one is read' reached 401 -H "Authorization: Negotiate $long" /doc/f

# The realm is down: tickets go on to count. The directory is down: they don't.
kill "$kdc"
wait "$kdc" 2>/dev/null
ticket bob
ask 'a ticket without its realm' 200 hello : /doc/f --negotiate
holds 'nobody gets another one' eval '! signs_in alice'
ask 'a password without the realm' 200 hello bob:bob-word /doc/f
stop_directory
holds 'a ticket without the directory' awaits 60 answers_by_ticket 401 bob /doc/f
holds 'a password without it' awaits 60 reached 503 -u bob:bob-word /doc/f
start_directory || fail 'the directory again' "$why"
holds 'a directory that is back' awaits "$patience" answers_by_ticket 200 bob /doc/f

# Another attribute names the users: until the block has it, no ticket counts, and nobody is a
# caller without a name.
restarts() { # FILE-OF-SETTINGS
  kill "$httpd"
  wait "$httpd" 2>/dev/null
  start_apache "$PWD/$1" ||
    fail "Apache with $1" "it doesn't start: $(head -c 300 apache.out apache.log)"
}
{ good; echo NAME=cn; } >other.settings
restarts other.settings
holds 'another attribute' awaits "$patience" answers_by_ticket 401 bob /doc/f
ask 'a password with it' 200 hello bob:bob-word /doc/f
sed -i s/AUTHORIZE_UID/AUTHORIZE_CN/g directory.d/kerberos.apache
restarts other.settings
holds 'that the block has' awaits "$patience" answers_by_ticket 200 bob /me
holds 'is the name' grep -qx $'Room-User: bob\r' "$work/head"

# And back.
pasted 'rm /etc/rooms/directory.d/kerberos.apache'
restarts settings
reloaded eval 'reached 401 / && [ "$(challenges)" = "Basic " ]'
holds 'without tickets again' [ "$(challenges)" = 'Basic ' ]
ticket bob
ask 'a ticket counts no more' 401 - : /doc/f --negotiate
ask 'and a password does' 200 hello bob:bob-word /doc/f
reach=()
unset KRB5_CONFIG KRB5_KDC_PROFILE KRB5RCACHENAME KRB5CCNAME
stop_others
stop_server
stop_proxy
gives 'sound' 0 'sound\n' '' verify F
