# What rooms-admin check says of the site's certificate, of a server that rests and of disks; the
# nightly run, which fails where the certificate has expired; and who is told of a unit.

if ! . "$here/lib/check.sh"; then
  skip 'what a check finds of a machine' 'no loopback, or python3 or openssl is missing'
  return
fi

# The certificate.
mkdir -p root/etc/ssl/private
certificate() { # DAYS
  openssl req -x509 -newkey ec -pkeyopt ec_paramgen_curve:P-256 -noenc -subj /CN=rooms.example \
    -keyout c.key -out c.csr 2>/dev/null
  openssl x509 -in c.csr -signkey c.key -days "$1" -out root/etc/ssl/rooms.pem 2>/dev/null
  cp c.key root/etc/ssl/private/rooms.key
}
printf '%s\n' CERTIFICATE=/etc/ssl/rooms.pem KEY=/etc/ssl/private/rooms.key >root/etc/rooms/site
certificate 90
# nginx goes on with the site of before where it hasn't read the new one, or can't have its port.
checks 'a certificate, and nginx without TLS' 2 \
  'nginx has no TLS, though /etc/rooms/site names a certificate: systemctl reload nginx'
echo 301 >front.status
checks 'a certificate' 0 'the certificate ends on '
certificate 20
checks 'one that ends soon' 1 'the certificate /etc/ssl/rooms.pem ends on ' \
  'docs/operating.md, Renewal'
certificate 20
mv root/etc/ssl/rooms.pem above.pem
certificate 90
cat above.pem >>root/etc/ssl/rooms.pem
checks 'one behind it that ends soon' 1 'the certificate /etc/ssl/rooms.pem ends on ' \
  'with one that certifies it: docs/operating.md, Renewal'
certificate -1
checks 'one that has expired' 2 'the certificate /etc/ssl/rooms.pem has expired, on '
certificate 90
printf '%s\n' FILE=/none UNIT=rooms@hr HOST=hr.example >root/etc/rooms/hr.conf
checks 'a room, which nobody serves, at a name that it is not for' 2 \
  "no certificate: /etc/ssl/rooms.pem isn't for hr.example"
rm root/etc/rooms/hr.conf
echo 'HOSTS=rooms.office rooms.example' >>root/etc/rooms/site
checks 'one of the names of the site' 0 'the certificate ends on '
sed -i 's/^HOSTS=.*/HOSTS=rooms.office/' root/etc/rooms/site
checks 'none of them' 1 "no certificate: /etc/ssl/rooms.pem isn't for rooms.office"
sed -i '/^HOSTS=/d' root/etc/rooms/site
echo none >root/etc/ssl/rooms.pem
checks 'one that is none' 2 "the certificate /etc/ssl/rooms.pem can't be used"
if [ "$(id -u)" = 0 ]; then
  nightly() { # NAME STATUS TEXT
    verb backup --room "$PWD/root/etc/rooms/office.conf"
    says "$@"
  }
  settings MAIL=root
  certificate -1
  nightly 'a nightly run with one that has expired' 1 \
    'the certificate /etc/ssl/rooms.pem has expired, on '
  holds 'is told by mail' grep -q 'rooms.pem has expired' "$stand/messages"
  certificate 20
  nightly 'with one that ends soon' 0 'the certificate /etc/ssl/rooms.pem ends on '
  holds 'too' grep -q 'rooms.pem ends on' "$stand/messages"
  # In a unit mail programs lack what they need: another unit is started, or will be, since this one
  # fails.
  export ROOMS_UNIT=rooms-nightly@office.service
  : >told
  nightly 'in its unit, with one that ends soon' 0 'the certificate /etc/ssl/rooms.pem ends on '
  holds 'the unit that mails is started' \
    grep -qx 'start --no-block rooms-tell@warning:rooms-nightly@office.service.service' told
  certificate -1
  : >told
  nightly 'in its unit, with one that has expired' 1 'has expired, on '
  holds 'systemd starts it' [ ! -s told ]
  holds 'and nothing is mailed twice' [ ! -s "$stand/messages" ]
  unset ROOMS_UNIT
  nightly 'and so on' 1 'has expired'
else
  skip 'a nightly run with a certificate that has expired' 'this user is not root'
fi
certificate 90
settings MAIL=admin@office.example

# nginx goes on with files that it would refuse at its next start.
if [ "$(id -u)" = 0 ]; then
  printf '%s\n' '2026/12/01 02:02:22 [warn] 28#28: could not build optimal proxy_headers_hash' \
    '2026/12/01 02:02:22 [emerg] 28#28: unknown directive "lissten" in mine.conf:3' \
    'nginx: configuration file /etc/nginx/nginx.conf test failed' >refused
  checks 'files that nginx refuses' 2 "nginx refuses its files, and can't start again: \
unknown directive \"lissten\" in mine.conf:3: mend that line"
  echo '[emerg] 28#28: host not found in upstream "b.example:8443" in rooms:33' >refused
  checks 'a machine that is not found' 2 \
    'b.example:8443" in rooms:33: give the name a line in /etc/hosts'
  : >refused
else
  skip 'files that nginx refuses' 'this user is not root'
fi
checks 'files that it takes' 0 'rooms OK'

# Who is told of a unit.
tells() { # UNIT
  : >"$stand/messages"
  ROOMS_SETTINGS=$PWD/root/etc/rooms PATH=$stand/bin:$PATH "$repo/admin/rooms-admin" tell "$@" \
    >"$work/out" 2>"$work/err" </dev/null
  status=$?
}
settings MAIL=admin@office.example
mkdir run/rooms-tell
printf '#!/bin/sh\necho "2026-11-27 rooms[1]: a line"; echo "~! touch %s/hacked"\n' "$PWD" \
  >stand/bin/journalctl
chmod 755 stand/bin/journalctl
export MONITOR_SERVICE_RESULT=exit-code
tells rooms-nightly@office.service
told 'a unit that failed' 0
holds 'its people are told' \
  grep -q '^mail -s rooms-nightly@office.service on .* failed (exit-code) admin@office.example$' \
    "$stand/messages"
holds 'with its log' grep -q 'a line$' "$stand/messages"
holds 'in which no line is a command' [ "$(grep -c '^~' "$stand/messages")" = 0 ]
tells rooms-nightly@office.service
told 'the same again' 0 'was told of rooms-nightly@office.service less than 6 hours ago'
holds 'is not told twice' [ ! -s "$stand/messages" ]
touch -d '7 hours ago' run/rooms-tell/*
tells rooms-nightly@office.service
holds 'but hours later' [ -s "$stand/messages" ]
# A warning is one, whatever systemd says of a unit that goes on, and hides no failure.
rm run/rooms-tell/*
for result in success exit-code ''; do
  for unit in warning:rooms-nightly@office.service rooms-nightly@office.service; do
    [ "$result $unit" != 'exit-code rooms-nightly@office.service' ] || continue
    MONITOR_SERVICE_RESULT=$result tells "$unit"
    holds "a warning of $unit, $result" grep -q \
      '^mail -s rooms-nightly@office.service on .* has a warning admin@office.example$' \
      "$stand/messages"
  done
done
tells rooms-nightly@office.service
holds 'a failure after it is told' grep -qF 'failed (exit-code) admin@' "$stand/messages"
tells warning:rooms-nightly@office.service
holds 'and a warning after that' grep -q 'has a warning admin@' "$stand/messages"
echo LIMIT=much >>root/etc/rooms/office.conf
tells rooms-full@office.service
holds 'settings with a mistake have an address too' \
  grep -q 'admin@office.example$' "$stand/messages"
settings MAIL=
tells rooms-standby@office.service
holds 'where nobody wants it nobody is told' [ ! -s "$stand/messages" ]
tells rooms-firewall.service
unset MONITOR_SERVICE_RESULT
for word in '' warning: warning:warning:rooms@x.service 'rooms-nightly@office.service x' '../x' \
  'rooms@../x.service' cron.service; do
  # shellcheck disable=SC2086
  tells $word
  told "the unit '$word'" 2 'bad arguments: '
done
settings

# The server, and disks.
unit stop
checks 'a server that rests' 2 \
  "office: rooms@office doesn't answer (inactive): systemctl status rooms@office"
unit start
settings
if [ "$(id -u)" = 0 ] && mkdir small &&
  mount -t tmpfs -o size=40m,mode=755 rooms-small small 2>said; then
  cp office/F small/F
  settings "FILE=$PWD/small/F" LIMIT=none
  checks 'a disk with space' 0 'rooms OK'
  head -c 30000000 /dev/zero >small/ballast
  checks 'a full disk' 2 "the room's disk is full: "
  rm small/ballast
  mount -o remount,ro small
  checks 'a disk that is only read' 2 "the room's disk is read-only"
  mount -o remount,rw small
  settings "BACKUPS=$PWD/small/backups"
  mkdir small/backups
  cp -a backups/* small/backups/
  head -c 30000000 /dev/zero >small/ballast
  checks 'a full disk of backups' 2 'the disk of backups is full: '
  umount small
  settings
  mount -t tmpfs -o nr_inodes=3,mode=755 rooms-small small
  ln -s "$PWD"/run/rooms{,-door} small/
  ROOMS_RUN=$PWD/small checks 'no name is left in /run' 2 "rooms CRITICAL - $PWD/small is full: "
  umount small
else
  skip 'a full disk' 'no root, or no mount'
fi
unset ROOMS_FRONT
