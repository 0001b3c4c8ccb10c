# A room behind nginx with TLS, by a certificate that is made as operating.md says: what the
# authority certifies, what port 80 answers, a room at a host, and a renewal.

. "$here/lib/front.sh"
top=$here/..
if [ -z "$nginx" ] || ! has curl || ! has openssl; then
  skip 'behind nginx with TLS' 'nginx, curl or openssl is missing'
  return
fi

# What is there before TLS: a room with documents, and one at a host.
open_room F
set_list F / dacl list:a "A:fd:root:$ALL" A:fd:alice:rwxa A:fd:bob:rx
start_room F 1000 || return
printf 'root:{PLAIN}r\nalice:{PLAIN}a\nbob:{PLAIN}b\n' >rooms.htpasswd
printf 'dora:{PLAIN}d\n' >rooms-hr.htpasswd
start_front 'behind nginx before TLS' || return
ask 'a document before TLS' 201 '' alice:a /doc/f -X PUT --data-binary kept
makes_deepest '' alice:a bob:b
holds 'a room at a host' adds add --port 8791 --host hr.example hr
stop_server
stop_proxy

# The authority, and what it certifies.
mkdir own run
on_own() { ROOMS_ROOT=$PWD/own ROOMS_RUN=$PWD/run "$repo/admin/rooms-admin" "$@"; }
{
  echo "repo='$repo'"
  declare -f on_own
  page_block operating TLS 3 | sed 's/^rooms-admin/on_own/'
} >certify
if ! bash -eu certify >certify.out 2>&1; then
  fail 'a certificate' "it can't be made: $(tail -c 400 certify.out)"
  return
fi
ln -s own/etc/ssl/rooms.pem own/etc/ssl/private/rooms.key .
ln -s own/root/authority .
authority=$PWD/authority/authority
certified() {
  openssl verify -x509_strict -verify_hostname "$1" -CAfile "$authority.pem" "$2" >verified 2>&1
}
holds 'the authority certifies the name' certified rooms.example rooms.pem
holds 'nobody else reads its key' [ -n "$(find "$authority.key" -perm 600)" ]
holds 'nor that of the site' [ -n "$(find -L rooms.key -perm 600)" ]
holds 'it says what is left' \
  grep -qx 'to use it: rooms-admin setup --tls /etc/ssl/rooms.pem /etc/ssl/private/rooms.key && nginx -t && systemctl reload nginx' certify.out
refuses_host() { # NAME TEXT HOST ..
  on_own certificate "${@:3}" >"$work/out" 2>"$work/err" </dev/null
  status=$?
  told "$1" 2 "$2"
  same "$1: nothing is changed" rooms.pem rooms.pem.before
}
cp rooms.pem rooms.pem.before
refuses_host 'a name of another domain' \
  'not for bank.test: /root/authority/authority.pem can'"'"'t certify it' bank.test
refuses_host 'one of several' 'not for rooms.example, bank.test: ' rooms.example bank.test
refuses_host 'an address' "'127.0.0.1' isn't the name of a machine" 127.0.0.1
refuses_host 'a name with a line end' "isn't the name of a machine" $'rooms.example\nDNS:bank.test'
refuses_host 'no name' 'bad arguments'
# Whoever has the key can't either.
openssl req -new -key rooms.key -subj /CN=bank.test -out other.csr
openssl x509 -req -in other.csr -days 9 -set_serial 7 -CA "$authority.pem" -CAkey "$authority.key" \
  -extfile <(printf '%s\n' subjectAltName=DNS:bank.test basicConstraints=critical,CA:false \
    keyUsage=critical,digitalSignature \
    subjectKeyIdentifier=hash authorityKeyIdentifier=keyid) -out other.pem 2>/dev/null
holds 'a certificate for another domain' [ -s other.pem ]
holds 'counts for nothing' \
  eval '! certified bank.test other.pem && grep -q "permitted subtree" verified'
# Nor can it an address, of a network or of mail, nor another authority.
for name in DNS:a.rooms.example IP:192.0.2.1 IP:2001:db8::1 email:alice@rooms.example \
  email:alice@bank.test; do
  openssl x509 -req -in other.csr -days 9 -set_serial 8 -CA "$authority.pem" \
    -CAkey "$authority.key" -extfile <(printf '%s\n' "subjectAltName=DNS:rooms.example,$name" \
      basicConstraints=critical,CA:false keyUsage=critical,digitalSignature \
      subjectKeyIdentifier=hash authorityKeyIdentifier=keyid) -out other.pem 2>/dev/null
  holds "a certificate for $name" [ -s other.pem ]
  if certified rooms.example other.pem; then echo "$name"; fi
done >counts
echo DNS:a.rooms.example >wanted
same 'counts for nothing either' counts wanted
holds 'it certifies no other authority' \
  eval 'openssl x509 -in "$authority.pem" -noout -text | grep -q "CA:TRUE, pathlen:0"'

# Which names an authority that is made certifies: the hosts that were typed and those below them,
# whatever belongs to everybody above them; or all of a domain, where that was typed.
makes() { # NAME STATUS TEXT WORD ..
  rm -rf of run.of
  mkdir -p of run.of
  ROOMS_ROOT=$PWD/of ROOMS_RUN=$PWD/run.of "$repo/admin/rooms-admin" certificate "${@:4}" \
    >"$work/out" 2>"$work/err" </dev/null
  status=$?
  told "$1" "$2" "$3"
}
permitted() {
  openssl x509 -in of/root/authority/authority.pem -noout -text |
    sed -n '/Permitted:/,/Excluded:/s/^ *DNS:/DNS:/p' | tr '\n' ' '
}
below='for these names and those below them:'
for host in acme.gv.at acme.ltd.uk acme.gouv.fr acme.github.io acme.sch.uk acme.co.uk \
  rooms.office.example rooms; do
  makes "an authority for $host" 0 "authority.pem, $below $host" "$host"
  holds "can't certify what is above it" [ "$(permitted)" = "DNS:$host " ]
done
makes "one for two hosts" 0 "$below rooms.a.example, hr.b.example" rooms.a.example hr.b.example
holds 'has both' [ "$(permitted)" = 'DNS:rooms.a.example DNS:hr.b.example ' ]
makes 'what would be made' 0 "would: authority /root/authority/authority.pem, $below a.example" \
  --dry-run a.example
told 'and certified' 0 'would: certificate /etc/ssl/rooms.pem for a.example, until '
holds 'is not made' [ -z "$(find of -type f)" ]
makes 'nor what an authority could not certify' 2 "isn't in the domain a.example" --dry-run \
  --domain a.example b.example
makes 'one for a domain' 0 "$below a.example" --domain a.example rooms.a.example
holds 'has all of it' [ "$(permitted)" = 'DNS:a.example ' ]
makes 'a domain of another host' 2 "hr.b.example isn't in the domain a.example" \
  --domain a.example rooms.a.example hr.b.example
makes 'a part of a name' 2 "rooms.ba.example isn't in the domain a.example" --domain a.example \
  rooms.ba.example
makes 'a domain without a dot' 2 "'example' isn't the name of a domain" --domain example \
  rooms.example
makes 'a domain with a line end' 2 "isn't the name of a domain" --domain $'a.example\nx' \
  rooms.a.example
makes 'machines have none' 2 'bad arguments: --machine takes no --domain' --machine --domain \
  a.example b.a.example
makes 'the name of a file of theirs' 2 'bad arguments: --machine takes' --machine authority
makes 'a machine' 0 'b.example.pem as machine.pem' --machine b.example
for name in authority front b.example; do
  openssl x509 -in "of/etc/rooms/machines/$name.pem" -noout -checkend 315000000 >"$work/out" 2>&1
  holds "the certificate of $name ends after ten years" [ "$?" = 0 ]
  openssl x509 -in "of/etc/rooms/machines/$name.pem" -noout -checkend 316000000 >"$work/out" 2>&1
  holds "and not later" [ "$?" = 1 ]
done
on_own certificate --domain example.test rooms.example >"$work/out" 2>"$work/err" </dev/null
status=$?
told 'another domain' 2 "rooms.example isn't in the domain example.test"
on_own certificate --domain a.rooms.example b.a.rooms.example >"$work/out" 2>"$work/err" </dev/null
status=$?
told 'of an authority that is there' 2 'not for a.rooms.example: /root/authority/authority.pem is'
same 'nothing is changed' rooms.pem rooms.pem.before
on_own certificate --dry-run rooms.example >"$work/out" 2>"$work/err" </dev/null
status=$?
told 'a renewal that would be' 0 'would: certificate /etc/ssl/rooms.pem for rooms.example, until '
same 'is not made' rooms.pem rooms.pem.before

# One that was bought stays, as does what can't be read; a renewal of its own goes on.
mkdir -p bought/etc/ssl/private run.bought
openssl req -x509 -newkey ec -pkeyopt ec_paramgen_curve:P-256 -noenc -days 300 \
  -subj '/CN=Authority of the office, bought' -addext subjectAltName=DNS:rooms.example \
  -keyout bought/etc/ssl/private/rooms.key -out bought/etc/ssl/rooms.pem 2>/dev/null
cp bought/etc/ssl/rooms.pem bought.pem
buys() { # NAME TEXT
  ROOMS_ROOT=$PWD/bought ROOMS_RUN=$PWD/run.bought "$repo/admin/rooms-admin" certificate \
    rooms.example >"$work/out" 2>"$work/err" </dev/null
  status=$?
  told "$1" 2 "another certificate: /etc/ssl/rooms.pem $2"
  holds "$1: no authority is made" is_missing bought/root
}
buys 'a certificate that was bought' 'is of another authority, and isn'"'"'t replaced (issuer='
same 'stays' bought/etc/ssl/rooms.pem bought.pem
echo mine >bought/etc/ssl/rooms.pem
buys 'another file' "can't be read, and isn't replaced"

# One that was brought here without its authority, which is on another medium: browsers trust no
# other, unless somebody gives it up with its key.
mkdir -p brought/etc/ssl/private
cp own/etc/ssl/rooms.pem brought/etc/ssl/
cp own/etc/ssl/private/rooms.key brought/etc/ssl/private/
brings() { # NAME STATUS TEXT
  ROOMS_ROOT=$PWD/brought ROOMS_RUN=$PWD/run.bought "$repo/admin/rooms-admin" certificate \
    rooms.example >"$work/out" 2>"$work/err" </dev/null
  status=$?
  told "$1" "$2" "$3"
}
brings 'without its authority' 2 "no authority: that of /etc/ssl/rooms.pem isn't in /root/authority"
holds 'no other is made' is_missing brought/root
same 'the certificate stays' brought/etc/ssl/rooms.pem rooms.pem.before
mkdir -p brought/root
cp -r own/root/authority brought/root/
brings 'with it' 0 'certificate /etc/ssl/rooms.pem for rooms.example, until '
holds 'it is the same authority' certified rooms.example brought/etc/ssl/rooms.pem
rm -r brought/root brought/etc/ssl/private/rooms.key
brings 'a key that is given up' 0 "authority /root/authority/authority.pem, $below rooms.example"

# An authority that ends certifies nothing for longer, and says so in its last year.
ends_in() { # DAYS
  openssl x509 -in own/root/authority/authority.pem -signkey own/root/authority/authority.key \
    -days "$1" -out brought/root/authority/authority.pem 2>/dev/null
}
rm -r brought
mkdir -p brought/root
cp -r own/root/authority brought/root/
ends_in 100
brings 'an authority that ends in 100 days' 0 'until '
told 'is told of' 0 'authority.pem ends on '
holds 'and what it certifies lasts as long' \
  openssl x509 -in brought/etc/ssl/rooms.pem -noout -checkend $((98 * 86400))
holds 'and not longer' eval \
  '! openssl x509 -in brought/etc/ssl/rooms.pem -noout -checkend $((100 * 86400)) >/dev/null'
ends_in -1
brings 'one that has ended' 2 'expired: /root/authority/authority.pem, on '

start_room F 1000 || return
start_front 'behind nginx with TLS' tls || return

# Port 80 redirects whatever is asked, and never asks for a password.
moved() { # NAME TARGET ARGUMENT ..
  curl -s -o "$work/body" -D "$work/head" "${@:3}" "http://127.0.0.1:$front$2"
  holds "$1 is redirected" grep -q '^HTTP/1.1 301 ' "$work/head"
  holds "$1: the same address with https" \
    grep -qxF "Location: https://127.0.0.1$2"$'\r' "$work/head"
  holds "$1: no password is asked for" [ "$(grep -ci '^WWW-Authenticate' "$work/head")" = 0 ]
}
moved 'the page' /
moved 'a document' '/doc/%C3%A9%20b?x'
moved 'a document with a password' /doc/f -u bob:b
moved 'an upload' /doc/f -u alice:a -X PUT --data-binary unencrypted
moved 'a change by another site' /doc/f -X POST -H 'Origin: http://elsewhere.example'

# Port 443 serves, by TLS alone.
base=http://127.0.0.1:$secure
ask 'port 443 without TLS' 400 - bob:b /doc/f
head -c 1048576 /dev/urandom >large
head -c 1048577 /dev/urandom >larger
base=https://rooms.example:$secure
reach=(--resolve "rooms.example:$secure:127.0.0.1" --cacert "$authority.pem")
ask 'no password with TLS' 401 - '' /doc/f
ask 'a wrong password with TLS' 401 - alice:x /doc/f
ask 'what was sent to port 80 is not there' 200 kept bob:b /doc/f
ask 'alice makes a document with TLS' 201 '' alice:a /doc/tls -X PUT --data-binary hello
ask 'bob reads it with TLS' 200 hello bob:b /doc/tls
ask 'bob is not root with TLS' 403 '{"at":"/tls","bits":"w","entry":null,"text":null}' \
  bob:b /doc/tls -X PUT --data-binary x -H 'Room-User: root'
ask 'the longest path with TLS' 200 deep bob:b "/doc$path"
ask 'the page with TLS' 200 - bob:b /
for field in 'Sec-Fetch-Site: cross-site' "Origin: http://rooms.example:$secure" \
  'Origin: https://elsewhere.example'; do
  ask "PUT with TLS, $field" 403 - alice:a /doc/tls -X PUT --data-binary x -H "$field"
done
for field in 'Sec-Fetch-Site: same-origin' "Origin: $base"; do
  ask "PUT with TLS, $field" 204 - alice:a /doc/tls -X PUT --data-binary hello -H "$field"
done
version=$(curl -s -o "$work/body" -w '%{http_version}' "${reach[@]}" -u bob:b "$base/doc/tls")
holds "HTTP/2 is spoken with TLS: $version" [ "$version" = 2 ]
same 'and all of the document comes' "$work/body" <(printf hello)
ask 'a program that speaks HTTP/1.1' 200 hello bob:b /doc/tls --http1.1
ask 'a large document by HTTP/2' 201 '' alice:a /doc/large -X PUT --data-binary @large
curl -s -o "$work/body" "${reach[@]}" -u bob:b "$base/doc/large"
same 'comes back' "$work/body" large
ask 'too large by HTTP/2' 413 - alice:a /doc/large -X PUT --data-binary @larger
"$nginx" -t -p "$PWD" -c "$PWD/nginx.conf" >"$work/out" 2>&1
# On some processors it says that the names hidden from scgi don't fit into its usual table.
grep warn "$work/out" | grep -v 'optimal scgi_hide_headers_hash' >warned
holds "nginx warns of nothing: $(head -c 300 warned)" [ ! -s warned ]
says_all bob:b /doc/tls '; sandbox'
only_tls() { grep -qx $'Strict-Transport-Security: max-age=31536000\r' "$work/head"; }
holds 'and that it is asked for with TLS only' only_tls
holds 'a document is a file with TLS' grep -qx $'Content-Disposition: attachment\r' "$work/head"
answer bob:b /me
holds 'the page is told who asks with TLS' grep -qx $'Room-User: bob\r' "$work/head"
if has_six; then
  reach=(--resolve "rooms.example:$secure:[::1]" --cacert "$authority.pem")
  ask 'TLS over IPv6' 200 hello bob:b /doc/tls
else
  skip 'TLS over IPv6' 'this machine has no loopback for IPv6'
fi
curl -s -o "$work/body" "${reach[@]}" --tls-max 1.1 --ciphers 'ALL:@SECLEVEL=0' \
  -u bob:b "$base/doc/tls"
holds 'older versions of TLS are refused' [ $? = 35 ]

# A room at a host has TLS with the site. (The certificate isn't for it, which 'add' refuses.)
base=https://hr.example:$secure
reach=(--resolve "hr.example:$secure:127.0.0.1" -k)
ask 'the room at a host, with TLS' 502 - dora:d /doc/f
ask 'alice is nobody there, with TLS' 401 - alice:a /doc/f
answer dora:d /doc/f
holds 'nor without TLS for a year' only_tls
base=http://hr.example:$front
reach=(--resolve "hr.example:$front:127.0.0.1")
ask 'and no password without TLS' 301 - '' /doc/f
base=https://rooms.example:$secure
reach=(--resolve "rooms.example:$secure:127.0.0.1" --cacert "$authority.pem")
ask 'the first room beside it' 200 hello bob:b /doc/tls

# A renewal: the same key, and another certificate, which nginx takes when it reloads its files.
serial() {
  openssl s_client -connect "127.0.0.1:$secure" -servername rooms.example </dev/null 2>/dev/null |
    openssl x509 -noout -serial
}
serial >before
cp certify renew
cp rooms.pem rooms.pem.before
mv authority/authority.key away.key
holds "without the authority's key none is made" eval '! bash -eu renew >certify.out 2>&1'
same 'and the one that is there stays' rooms.pem rooms.pem.before
mv away.key authority/authority.key
bash -eu renew >certify.out 2>&1
kill -HUP "$proxy"
began=$SECONDS
until serial >after && ! cmp -s before after || [ $((SECONDS - began)) -ge "$patience" ]; do
  sleep 0.1
done
holds 'a renewed certificate is served' \
  [ "$(cat after)" = "$(openssl x509 -in rooms.pem -noout -serial)" ]
ask 'and is trusted' 200 hello bob:b /doc/tls
reach=()
stop_server
stop_proxy
gives 'sound after TLS' 0 'sound\n' '' verify F
