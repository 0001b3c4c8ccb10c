# deploy/install below a folder, and the units as systemd reads them.

installs() {
  "$repo/deploy/install" --destdir "$PWD/machine" --program "$rooms" "$@" \
    </dev/null >"$work/out" 2>"$work/err"
  status=$?
}
sets_up() {
  "$repo/admin/rooms-admin" setup --destdir "$PWD/machine" "$@" </dev/null >"$work/out" \
    2>"$work/err"
  status=$?
}
tree() {
  (cd machine && find . -exec ls -ld --time-style=full-iso {} + &&
    find . -type f -exec cksum {} +) 2>/dev/null
}
installs --dry-run
says 'what would be done' 0 'would: file /usr/local/bin/rooms'
holds 'is not done' is_missing machine
installs
says 'an install' 0 'file /etc/systemd/system/rooms-nightly@.timer'
for file in /usr/local/bin/rooms \
  /usr/local/sbin/rooms-nightly /usr/local/sbin/rooms-restore /usr/local/sbin/rooms-admin \
  /usr/local/bin/rooms-admin /usr/local/share/rooms/rooms_admin/__main__.py \
  /usr/local/share/man/man8/rooms-admin.8 /usr/local/sbin/rooms-get /usr/local/sbin/rooms-add \
  /usr/local/sbin/rooms-doctor /usr/local/bin/rooms-handover \
  /usr/local/bin/rooms-import /usr/local/bin/rooms-export /usr/local/share/man/man1/rooms.1 \
  /usr/local/share/man/man8/rooms-get.8 /usr/share/bash-completion/completions/rooms \
  /etc/rooms/office.conf /etc/systemd/system/rooms@.service /usr/share/doc/rooms/docs/operating.md \
  /etc/nginx/sites-enabled/rooms /usr/local/sbin/rooms-standby \
  /etc/systemd/system/rooms-standby@.timer /etc/rooms/site /usr/local/sbin/rooms-full \
  /etc/systemd/system/rooms-full@.service /usr/local/share/man/man8/rooms-full.8 \
  /usr/local/sbin/rooms-directory /usr/local/share/rooms/directory.apache \
  /usr/local/share/rooms/signed-in /etc/systemd/system/rooms-passwords.service \
  /etc/systemd/system/rooms-directory@.timer /etc/systemd/system/nginx.service.d/rooms.conf \
  /etc/systemd/system/rooms-connections.service /usr/local/share/rooms/connections.nft.in \
  /var/lib/rooms-front/connections.nft /usr/local/lib/rooms/rooms-table \
  /etc/tmpfiles.d/rooms.conf /usr/local/sbin/rooms-admin \
  /usr/local/sbin/rooms-setup /usr/local/share/rooms/rooms_admin/site/template.py \
  /usr/local/share/rooms/site.conf.in /usr/local/share/rooms/room.conf.in \
  /usr/share/bash-completion/completions/rooms-add \
  /usr/share/bash-completion/completions/rooms-handover \
  /usr/local/share/rooms/rooms_admin/check/verb_check.py /usr/local/share/rooms/rooms.nft \
  /etc/sysusers.d/rooms.conf /etc/systemd/system/rooms-firewall.service \
  /etc/systemd/system/rooms-tell@.service /var/lib/rooms-front/start.html \
  /etc/systemd/system/rooms-door@.service /usr/local/share/rooms/door.conf.in \
  /usr/local/share/rooms/rooms_services/door/__main__.py; do
  holds "$file is there" [ -s "machine$file" ]
done
# Each unit names a page that is there, and that is about it: about rooms-tell@ by what it does.
for file in machine/etc/systemd/system/rooms*; do
  unit=${file##*/} page=machine$(sed -n 's#^Documentation=file:##p' "$file")
  text=${unit%.*}
  [ "$text" != rooms-tell@ ] || text='`MAIL` is told'
  holds "the page of $unit is about it" grep -qF -e "${text%@}" "$page"
done
holds 'nobody else reads the passwords' \
  [ -n "$(find machine/var/lib/rooms-passwords/rooms.htpasswd -perm 600)" ]
holds 'the room has a folder of its own' [ -n "$(find machine/var/lib/rooms -perm 700)" ]
holds 'the page is there if there is one' \
  [ ! -d "$repo/web" -o -n "$(find machine/usr -path '*rooms/page/index.html')" ]
holds 'the program runs' cmp -s machine/usr/local/bin/rooms "$rooms"
tree >before
installs
says 'a second install' 0 'nothing to change'
tree >after
same 'changes nothing' after before
echo '# mine' >>machine/etc/rooms/office.conf
echo '# mine' >>machine/etc/systemd/system/rooms@.service
echo '# mine' >>machine/usr/local/sbin/rooms-admin
rm machine/usr/local/sbin/rooms-get
echo '# older' >machine/usr/local/sbin/rooms-get
rm machine/etc/nginx/sites-enabled/rooms
echo '# mine' >machine/etc/nginx/sites-enabled/rooms
tree >before
for words in '' --dry-run; do
  # shellcheck disable=SC2086
  installs $words
  says "a unit that was changed, and no word $words" 2 'files that differ: \
/etc/systemd/system/rooms@.service: with --replace this version'
  tree >after
  same "a unit that was changed, and no word $words: nothing is changed" after before
done
installs --keep --replace
says 'both words' 2 'bad words: '
installs --keep --dry-run
says 'a changed file would be' 0 'would: new /usr/local/sbin/rooms-admin'
installs --keep
says 'a unit that was changed' 0 'kept /etc/systemd/system/rooms@.service, which differs'
says 'a site that was changed' 0 'kept /etc/nginx/sites-enabled/rooms'
says 'a script that was changed' 0 \
  'new /usr/local/sbin/rooms-admin, the old one is /usr/local/sbin/rooms-admin.old'
holds 'settings stay' grep -q '^# mine' machine/etc/rooms/office.conf
holds 'the old script is beside' grep -q '^# mine' machine/usr/local/sbin/rooms-admin.old
same 'the script is new' machine/usr/local/sbin/rooms-admin "$repo/admin/rooms-admin"
says 'the script of an older version' 0 'link /usr/local/sbin/rooms-get to rooms-admin'
holds 'is beside the link' \
  [ "$(cat machine/usr/local/sbin/rooms-get.old)$(readlink machine/usr/local/sbin/rooms-get)" \
    = '# olderrooms-admin' ]
installs --replace
same 'the unit is replaced if that is asked' machine/etc/systemd/system/rooms@.service \
  "$repo/deploy/systemd/rooms@.service"
holds 'and stays beside' grep -q '^# mine' machine/etc/systemd/system/rooms@.service.old
# What an administrator wrote there outlives the next version too.
echo '# a later version' >>"machine/etc/systemd/system/rooms@.service"
installs --replace
says 'a second replacement' 0 \
  'new /etc/systemd/system/rooms@.service, the old one is /etc/systemd/system/rooms@.service.old.2'
holds 'leaves what stood there first' [ "$(cat machine/etc/systemd/system/rooms@.service.old{,.2} |
  grep -c '^# mine\|^# a later')" = 2 ]
holds 'settings stay in any case' grep -q '^# mine' machine/etc/rooms/office.conf
installs --program "$PWD/nowhere"
says 'no program' 2 'no program'
installs --program /bin/true
says 'another program' 2 'is not rooms'
installs --destdir here
says 'a folder that is no path' 2 'bad folder'
installs --other
says 'an unknown word' 2 'bad words: --other; install [--dry-run] [--keep | --replace] [--destdir DIR] [--prefix /usr] [--program FILE]'
installs --prefix /opt
says 'a prefix of nobody' 2 'bad prefix'
"$repo/deploy/install" --prefix /usr --program "$rooms" </dev/null >"$work/out" 2>"$work/err"
status=$?
says "a package's files without a folder" 2 'bad prefix'
for words in --other 'x' '--tls one.pem' '--directory' '--destdir here' 'x y'; do
  # shellcheck disable=SC2086
  "$repo/admin/rooms-admin" setup $words </dev/null >"$work/out" 2>"$work/err"
  status=$?
  holds "setup $words" [ "$status" = 2 ]
  holds "setup $words: by its name" grep -qE 'bad (arguments|folder)' "$work/err"
done
# The name that it had before.
machine/usr/local/sbin/rooms-setup --dry-run --destdir "$PWD/machine" \
  </dev/null >"$work/out" 2>"$work/err"
status=$?
says 'rooms-setup' 0 'its name is now rooms-admin setup'
: >a-file
installs --destdir "$PWD/a-file"
says 'a folder that can not be made' 1 "can't be made"
# Whether the sites are those of Debian's nginx: the file of its package, and what links to it.
site() { readlink machine/etc/nginx/sites-enabled/rooms; }
default=machine/etc/nginx/sites-available/default
enabled=machine/etc/nginx/sites-enabled/default
rm machine/etc/nginx/sites-enabled/rooms
sets_up
holds 'the site is enabled' [ "$(site)" = ../sites-available/rooms ]
if has dpkg-query && has md5sum; then
  mkdir -p machine/var/lib/dpkg machine/var/www/html
  : >machine/var/www/html/index.nginx-debian.html
  echo 'server { listen 80 default_server; }' >"$default"
  {
    printf '%s\n' 'Package: nginx-common' 'Status: install ok installed' 'Maintainer: nobody' \
      'Architecture: all'
    printf '%s\n' 'Version: 1.22.1-9' 'Description: small' 'Conffiles:'
    echo ' /etc/nginx/nginx.conf 0123456789abcdef0123456789abcdef'
    echo " /etc/nginx/sites-available/default $(md5sum <"$default" | cut -d ' ' -f 1)"
  } >machine/var/lib/dpkg/status
  keeps() { # NAME
    sets_up
    says "$1" 0 'kept /etc/nginx/sites-enabled/default'
    # A link that leads nowhere on this machine is there too.
    holds "$1: it is there" eval '[ -e "$enabled" ] || [ -L "$enabled" ]'
    says "$1: nothing else" 0 'nothing to change'
  }
  ln -s /etc/nginx/sites-available/default "$enabled"
  echo '# mine' >>"$default"
  # The link names a file of the machine, as in the package.
  keeps 'a default site that was changed'
  sed -i '$d' "$default"
  echo mine >machine/var/www/html/index.html
  keeps 'a default site with other pages'
  rm machine/var/www/html/index.html
  sets_up --dry-run
  says 'the packaged default site' 0 'would: /etc/nginx/sites-enabled/default is removed'
  sets_up
  says 'the packaged default site' 0 '/etc/nginx/sites-enabled/default is removed'
  holds 'is no longer enabled' is_missing "$enabled"
  holds 'its file stays' is_there "$default"
  sets_up
  says 'and nothing after that' 0 'nothing to change'
  cp "$default" "$enabled"
  keeps 'a default site that is no link'
  rm "$enabled" machine/var/lib/dpkg/status
  ln -s ../sites-available/default "$enabled"
  keeps 'a default site of no package'
  rm "$enabled"
else
  skip "Debian's default site" 'dpkg-query or md5sum is missing'
fi

# A certificate: what is refused changes nothing.
if has openssl; then
  new_key() { # NAME ARGUMENT ..
    openssl req -newkey ec -pkeyopt ec_paramgen_curve:P-256 -noenc -subj "/CN=$1" -keyout "$1.key" \
      "${@:2}" 2>/dev/null
  }
  new_key one -x509 -out one.pem
  new_key two -x509 -out two.pem
  openssl x509 -in one.pem -outform DER -out one.der
  openssl pkey -in one.key -aes256 -passout pass:secret -out locked.key
  new_key old -out old.csr
  # Newer ones take no days before today.
  openssl x509 -req -in old.csr -signkey old.key -days -1 -out old.pem 2>/dev/null ||
    openssl x509 -req -in old.csr -signkey old.key -not_before 20250101000000Z \
      -not_after 20250102000000Z -out old.pem 2>/dev/null
  echo '# mine' >mine.pem
  cp one.pem 'one;.pem'
  tree >before
  refuses_tls() { # NAME TEXT ARGUMENT ..
    sets_up --tls "${@:3}"
    says "$1" 2 "$2"
    tree >after
    same "$1: nothing is changed" after before
  }
  refuses_tls 'no words' 'bad arguments'
  refuses_tls 'no key' 'bad arguments' one.pem
  refuses_tls 'a missing certificate' "none.pem doesn't exist" none.pem one.key
  refuses_tls 'a missing key' "none.key doesn't exist" one.pem none.key
  refuses_tls 'a folder' 'no file' one.pem machine
  refuses_tls 'another key' 'no pair' one.pem two.key
  refuses_tls 'a text' 'no certificate' mine.pem one.key
  refuses_tls 'a text as key' 'no key' one.pem mine.pem
  refuses_tls 'the two the other way round' 'no certificate' one.key one.pem
  refuses_tls 'a certificate that is no text' 'no certificate' one.der one.key
  refuses_tls 'a key with a passphrase' 'no key' one.pem locked.key
  refuses_tls 'a certificate that has expired' 'expired' old.pem old.key
  refuses_tls "a name that nginx's file can't hold" 'bad name' 'one;.pem' one.key
  if [ "$(id -u)" = 0 ] && has nginx; then
    openssl req -newkey rsa:1024 -noenc -subj /CN=weak -keyout weak.key -x509 -out weak.pem \
      2>/dev/null
    { cat one.pem; sed '3d' two.pem; } >chain.pem
    refuses_tls 'a key that is too short for nginx' 'no pair for nginx' weak.pem weak.key
    refuses_tls 'a chain with a fault' 'no pair for nginx' chain.pem one.key
  else
    skip 'what nginx says of a pair' 'nginx or root is missing'
  fi
  if [ "$(id -u)" != 0 ]; then
    chmod 0 one.key
    refuses_tls 'a key that can not be read' "can't be read" one.pem one.key
    chmod 600 one.key
  else
    skip 'a key that can not be read' 'root reads every file'
  fi
  sets_up --tls one.pem one.key --dry-run
  says 'TLS would be' 0 'would: new file /etc/rooms/site, with CERTIFICATE='
  tree >after
  same 'TLS would be, and is not yet' after before
  sed -i 's/^HOSTS=.*/HOSTS=one rooms.example/' machine/etc/rooms/site
  sets_up --tls one.pem one.key
  says 'TLS' 0 'new file /etc/nginx/sites-available/rooms'
  says 'and for which names not' 0 "no certificate: $PWD/one.pem isn't for rooms.example, where"
  holds 'TLS is served' \
    grep -qxE '    listen 443 ssl( http2)?;' machine/etc/nginx/sites-available/rooms
  holds 'by this certificate' \
    grep -qxF "    ssl_certificate $PWD/one.pem;" machine/etc/nginx/sites-available/rooms
  holds 'and this key' \
    grep -qxF "    ssl_certificate_key $PWD/one.key;" machine/etc/nginx/sites-available/rooms
  holds 'the settings say so' grep -qxF "KEY=$PWD/one.key" machine/etc/rooms/site
  tree >before
  for words in '' '--tls one.pem one.key'; do
    # shellcheck disable=SC2086
    sets_up $words
    says "TLS again, $words" 0 'nothing to change'
    tree >after
    same "TLS again, $words: nothing is changed" after before
  done
  chmod 644 two.key
  sets_up --tls two.pem two.key
  says 'another certificate' 0 "new file /etc/rooms/site, with CERTIFICATE=$PWD/two.pem"
  says 'whose key all can read' 0 "chmod 600 $PWD/two.key"
  holds 'is used' \
    grep -qxF "    ssl_certificate $PWD/two.pem;" machine/etc/nginx/sites-available/rooms
  rm machine/etc/nginx/sites-enabled/rooms
  echo '# mine' >machine/etc/nginx/sites-enabled/rooms
  tree >before
  refuses_tls 'a site of another kind' 'another site' one.pem one.key
  rm machine/etc/nginx/sites-enabled/rooms
  sets_up --tls one.pem one.key
else
  skip 'a certificate' 'openssl is missing'
fi

# nginx takes what was installed. To look at its files it opens their ports, as root.
nginx=$(command -v nginx || ls /usr/sbin/nginx 2>/dev/null)
if [ -n "$nginx" ] && [ "$(id -u)" = 0 ] && has openssl; then
  mkdir machine/t
  {
    echo "pid $PWD/nginx.pid; error_log $PWD/error.log; events { }"
    echo 'http { include sites-enabled/*; access_log off;'
    for body in client_body proxy fastcgi uwsgi scgi; do
      echo "${body}_temp_path $PWD/machine/t/$body;"
    done
    echo '}'
  } >machine/etc/nginx/nginx.conf
  # Each kind of site, with rooms of each kind, but for the port that only a machine with
  # certificates has.
  takes() { # NAME: what was written, with the folders of this machine
    sed -e "s#/etc/rooms/#$PWD/machine/etc/rooms/#; s#/run/rooms-front#$PWD/machine/t#" \
      machine/etc/nginx/sites-available/rooms >machine/etc/nginx/tried
    "$nginx" -t -q -c "$PWD/machine/etc/nginx/nginx.conf" >said 2>&1
    status=$?
    holds "nginx takes $1: $(head -c 300 said)" [ "$status" = 0 ]
  }
  sed -i 's#sites-enabled/\*#tried#' machine/etc/nginx/nginx.conf
  takes 'the site with TLS'
  mkdir machine/etc/rooms/machines
  for name in front machine; do
    cp one.pem "machine/etc/rooms/machines/$name.pem"
    cp one.key "machine/etc/rooms/machines/$name.key"
  done
  cp one.pem machine/etc/rooms/machines/authority.pem
  more() { "$repo/admin/rooms-admin" add --destdir "$PWD/machine" "$@" </dev/null >said 2>&1; }
  holds 'a room behind another front end' more --behind ledger
  holds 'a room on another machine' more --on localhost archive
  holds 'a room at a path' more invoices
  touch machine/etc/rooms/{directory,session}.apache
  for name in invoices:directory office:session; do
    sed -i "s/^PASSWORDS=.*/PASSWORDS=${name#*:}/" "machine/etc/rooms/${name%:*}.conf"
  done
  sed -i 's/^PORT=.*/PORT=8780/' machine/etc/rooms/office.conf
  sets_up
  says 'rooms of each kind' 0 'new file /etc/nginx/sites-available/rooms'
  # Whether they have a port or not.
  for room in office invoices; do
    for line in "upstream room_$room { server unix:/run/rooms/$room/socket; }" \
      "upstream door_$room { server unix:/run/rooms-door/$room/socket; }"; do
      holds "with $line" grep -qxF "$line" machine/etc/nginx/sites-available/rooms
    done
  done
  takes 'the site with all of them'
  sed -i 's/^\(CERTIFICATE\|KEY\)=.*/\1=/' machine/etc/rooms/site
  sets_up
  says 'sessions without TLS' 2 'PASSWORDS=session'
  sed -i 's/^PASSWORDS=.*/PASSWORDS=/' machine/etc/rooms/office.conf
  sets_up
  says 'the site without TLS' 0 'new file /etc/nginx/sites-available/rooms'
  takes 'the site without TLS'
else
  skip 'nginx takes the sites' 'nginx, openssl or root is missing'
fi

if [ "$(id -u)" != 0 ] || has setpriv; then
  chmod 755 "$work" .
  as_nobody() {
    if [ "$(id -u)" = 0 ]; then
      setpriv --reuid=65534 --regid=65534 --clear-groups "$@"
    else
      "$@"
    fi
  }
  if as_nobody test -r "$repo/deploy/install" && as_nobody "$rooms" --version 2>&1 | grep -q .; then
    as_nobody "$repo/deploy/install" --program "$rooms" </dev/null >"$work/out" 2>"$work/err"
    status=$?
    says 'without root' 2 'not root'
  else
    skip 'an install without root' 'no other user can read the files here'
  fi
fi

# The firewall's table is loaded at an upgrade, if a room has a port.
mkdir -p asked etc/rooms run/systemd/system
for tool in systemctl nft; do
  printf '#!/bin/sh\necho "%s $*" >>"%s/asked/words"\nexit "$(cat "%s/asked/%s.status")"\n' \
    "$tool" "$PWD" "$PWD" "$tool" >"asked/$tool"
  echo 0 >"asked/$tool.status"
done
chmod 755 asked/systemctl asked/nft
sed -n '/^      last() /,/^      done/p' "$repo/deploy/debian/postinst" |
  sed "s#/etc/rooms#$PWD/etc/rooms#" >closes
holds 'the package looks at settings' [ -s closes ]
loads() { # NAME WANTED, for what is in ./etc/rooms, which goes
  : >asked/words
  PATH=$PWD/asked:$PATH sh -e closes >"$work/out" 2>&1
  holds "the ports of $1" [ "$?$(cat asked/words)" = "0$2" ]
  rm -f etc/rooms/*
}
table='systemctl start rooms-firewall.service'
loads 'no room' ''
printf '%s\n' FILE=F SOCKET=yes PORT=8780 | tee etc/rooms/office.conf >etc/rooms/hr.conf
loads 'ports that are in reserve' ''
printf '%s\n' FILE=F PORT=8780 PORT= | tee etc/rooms/office.conf >etc/rooms/hr.conf
loads 'a room that has no port any more' ''
printf '%s\n' FILE=F SOCKET= PORT=8780 SOCKET=yes >etc/rooms/office.conf
loads 'a room that has changed to a socket' ''
printf '%s\n' FILE=F SOCKET=yes PORT=8780 >etc/rooms/hr.conf
printf '%s\n' FILE=F PORT=8781 >etc/rooms/office.conf
loads 'two rooms, one of them with a port' "$table"
printf '%s\n' FILE=F SOCKET=yes PORT=8780 SOCKET= >etc/rooms/office.conf
loads 'a room that has changed to a port' "$table"

# Before the package goes, all stops that systemd has loaded, whatever settings name; the firewall's
# table is the last, and stays while anything listens at a port that it closes.
cat >asked/systemctl <<END
#!/bin/sh
case "\$*" in
  *rooms\*.timer) echo 'rooms-nightly@hr.timer loaded active waiting A nightly run' ;;
  *rooms\*.service)
    printf '%s\n' 'rooms-firewall.service loaded active exited Only root' \
      'rooms-full@hr.service loaded active running A watch' \
      'rooms@hr.service loaded failed failed A room' ;;
esac
END
printf '#!/bin/sh\necho "$*" >>"%s/asked/words"\n' "$PWD" | tee asked/deb-systemd-invoke >asked/nft
chmod 755 asked/deb-systemd-invoke
: >asked/tcp
sed -e "s#=/etc/#=$PWD/etc/#; s#/run/systemd#$PWD/run/systemd#; s#py3clean#no-such-tool#" \
  -e "s#/usr/share/rooms#$PWD/left#; s#/proc/net/tcp6\?#$PWD/asked/tcp#g" \
  "$repo/deploy/debian/prerm" >leaves
leaves() { # NAME: what is stopped is in ./stopped
  : >asked/words
  PATH=$PWD/asked:$PATH sh -e leaves remove >"$work/out" 2>"$work/err"
  holds "$1: status" [ "$?" = 0 ]
  mv asked/words stopped
}
mkdir -p left etc/systemd/system etc/nginx/sites-enabled
leaves 'the package is removed'
printf '%s\n' 'stop rooms-nightly@hr.timer' 'stop rooms-full@hr.service' 'stop rooms@hr.service' \
  'stop rooms.slice' 'stop rooms-firewall.service' 'delete table inet rooms' >wanted
same 'all that is loaded stops, the firewall last' stopped wanted
for port in 2249 2253 2326; do
  echo "  1: 0100007F:$port 00000000:0000 0A 00000000:00000000" >asked/tcp
  leaves "something listens at $port"
  head -n 4 wanted >fewer
  same "the table stays, $port" stopped fewer
  holds "which is said, $port" grep -q "^rooms: the firewall's table stays: something" "$work/err"
done
for line in '1: 0100007F:2248 0:0 0A' '1: 0100007F:2327 0:0 0A' '1: 0100007F:2253 0:0 01'; do
  echo "$line" >asked/tcp
  leaves "another one, $line"
  same "the table goes, $line" stopped wanted
done

# The units, as systemd reads them; with the programs that they name in their places.
if has systemd-analyze; then
  mkdir units
  for unit in "$repo"/deploy/systemd/rooms*.{service,timer,socket,slice}; do
    sed -e "s#=\(+\?\)/usr/local/#=\1$PWD/machine/usr/local/#" \
      -e "s#=/usr/sbin/\(apache2\|nft\)#=/bin/true#" "$unit" >"units/${unit##*/}"
  done
  # What setup writes of each port.
  mkdir units/rooms-port@.socket.d
  printf '%s\n' '[Socket]' ListenStream=127.0.0.1:8780 >units/rooms-port@.socket.d/port.conf
  # It reports what it doesn't know of all units that it meets. Only these are of this project.
  systemd-analyze verify units/*.{service,timer,socket,slice} >"$work/out" 2>&1
  grep -E '^(/.*/)?rooms[a-z-]*(@[a-z_-]*)?\.(service|timer|socket|slice)' "$work/out" >said
  : >nothing
  same 'the units are understood' said nothing
  # How much a unit could do, by systemd's own count from 0 to 10.
  exposed() { # UNIT MOST
    local level
    level=$(cd units && systemd-analyze security --offline=true "./$1" 2>&1 |
      sed -n 's/.*exposure level for [^:]*: \([0-9.]*\) .*/\1/p')
    holds "$1 is exposed to $level, and at most $2" \
      awk -v level="${level:-11}" -v most="$2" 'BEGIN { exit !(level <= most) }'
  }
  if systemd-analyze --help | grep -q -e --offline; then
    exposed rooms@.service 1.3
    for unit in units/*.service; do
      # The one that mails isn't root, and a mail program needs what the others lack.
      [[ ${unit##*/} = rooms-tell@.service ]] || exposed "${unit##*/}" 3
    done
    holds 'the one that mails is not root' grep -qx User=rooms-mail units/rooms-tell@.service
  else
    skip 'how much a unit could do' 'systemd-analyze knows no --offline'
  fi
  # On the nights on which summer time begins, wherever that is.
  for timer in rooms-nightly@.timer rooms-directory@.timer; do
    when=$(sed -n 's/^OnCalendar=//p' "$repo/deploy/systemd/$timer")
    while read -r zone evening next; do
      [ -e "/usr/share/zoneinfo/$zone" ] || continue
      TZ=$zone systemd-analyze calendar --base-time="$evening 12:00:00" "$when" >"$work/out" 2>&1
      holds "$timer runs on $next in $zone" grep -q "Next elapse: ... $next " "$work/out"
    done <<'END'
Europe/Berlin 2027-03-27 2027-03-28
Europe/London 2027-03-27 2027-03-28
Europe/Helsinki 2027-03-27 2027-03-28
America/New_York 2027-03-13 2027-03-14
America/Santiago 2027-09-04 2027-09-05
Australia/Sydney 2027-10-02 2027-10-03
Asia/Beirut 2027-03-27 2027-03-28
Africa/Cairo 2027-04-29 2027-04-30
END
  done
else
  skip 'the units' 'systemd-analyze is missing'
fi
