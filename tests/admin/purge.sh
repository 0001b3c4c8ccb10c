# What a purge leaves it says, and of a certificate whether rooms-admin made it.

sed "s#\([ \"]\)/\(etc\|root\|run\|var\)\b#\1$PWD/gone/\2#g" "$repo/deploy/debian/postrm" >purges
purges() { # NAME [LINE]: where there is a certificate
  sh -e purges purge >"$work/out" 2>"$work/err"
  holds "$1: status" [ "$?" = 0 ]
  { [ $# = 1 ] || echo "$2"; printf "rooms: kept $PWD/gone/%s\n" var/lib/rooms etc/ssl/rooms.pem \
    etc/ssl/private/rooms.key root/authority; } | sort >wanted
  sort "$work/out" >found
  same "$1: what stays" found wanted
}
if grep -q '[ "]/\(etc\|root\|run\|var\)\b' purges; then
  fail 'a purge' 'it would be one of this machine'
elif has openssl; then
  mkdir -p gone/etc/rooms gone/var/lib/rooms
  ROOMS_ROOT=$PWD/gone "$repo/admin/rooms-admin" certificate rooms.example >said 2>&1 </dev/null
  holds "a certificate of rooms-admin: $(head -c 300 said)" [ -s gone/etc/ssl/rooms.pem ]
  of="rooms: rooms-admin made the certificate, and this removes it with its key and authority: rm -r"
  purges 'an own certificate' \
    "$of $PWD/gone/etc/ssl/rooms.pem $PWD/gone/etc/ssl/private/rooms.key $PWD/gone/root/authority"
  openssl req -x509 -newkey ec -pkeyopt ec_paramgen_curve:P-256 -noenc -days 9 -subj /CN=bought \
    -keyout gone/etc/ssl/private/rooms.key -out gone/etc/ssl/rooms.pem 2>/dev/null
  purges 'one that was bought'
fi
