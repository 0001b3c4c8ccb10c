# Machines whose settings are kept as a tar, and brought back: `old`, with what an administrator
# sets, and `new`, as it is after the installation.

make_stand
# A tar of what is in `tree`.
pack() {
  (cd tree && find . ! -type d -printf '%P\0' | sort -z) >list &&
    tar -cf "$1" -C tree --null -T list
}
machine_of() { # FOLDER: a machine on which the program was just installed
  "$repo/deploy/install" --destdir "$PWD/$1" --program "$rooms" >/dev/null </dev/null
  sed -i "s#^PROGRAM=.*#PROGRAM=$rooms#" "$1/etc/rooms/office.conf"
}
saves() { # FOLDER TAR
  rm -f "$2"
  PATH=$PWD/bin:$PATH ROOMS_ROOT=$PWD/$1 python3 -IBc 'import sys
sys.path.insert(0, sys.argv[1])
from rooms_admin.machine_tar import machine_tar
from rooms_admin.room import program
print("\n".join(machine_tar.save(sys.argv[3], program.version_of(sys.argv[2]))), end="")' \
    "$repo/admin" "$rooms" "$2" >"$work/out" 2>"$work/err"
  status=$?
}
brings() { # FOLDER ARGUMENT ..
  export ROOMS_ROOT=$PWD/$1
  verb restore --room "$ROOMS_ROOT/etc/rooms/office.conf" --machine "${@:2}"
}
tree() {
  (cd "$1" && find . ! -name 'before-machine.*' ! -path ./var/backups/rooms \
    -exec ls -ld --time-style=full-iso {} + &&
    find . -type f ! -name 'before-machine.*' -exec cksum {} +) 2>/dev/null
}
# All below etc, and passwords, with rights and where links lead.
etc() {
  (cd "$1" && find etc var/lib/rooms-passwords ! -type d -printf '%p %m %l\n' | sort &&
    find etc var/lib/rooms-passwords -type f -exec cksum {} + | sort -k 3)
}

# One machine, with what an administrator sets; and another one, as it is after the installation.
machine_of old
machine_of new
chmod 640 new/var/lib/rooms-passwords/rooms*
"$repo/admin/rooms-admin" add --destdir "$PWD/old" --title Invoices invoices >/dev/null
sed -i "s#^PROGRAM=.*#PROGRAM=$rooms#" old/etc/rooms/invoices.conf
sed -i 's/^KEEP=.*/KEEP=7/' old/etc/rooms/office.conf
hash='$2y$05$'$(printf 'x%.0s' {1..53})
echo "alice:$hash" >old/var/lib/rooms-passwords/rooms.htpasswd
echo "carol:$hash" >old/var/lib/rooms-passwords/rooms-invoices.htpasswd
chmod 640 old/var/lib/rooms-passwords/rooms*
sed -i 's/rooms.example/rooms.office.example/' old/etc/rooms/site
echo '# mine' >old/etc/rooms/nginx/server.d/mine.conf
mkdir -p old/etc/cron.d old/etc/ssl/private \
  old/etc/systemd/system/{rooms@office.service.d,multi-user.target.wants,timers.target.wants}
printf '[Service]\nMemoryMax=4G\n' >old/etc/systemd/system/rooms@office.service.d/override.conf
ln -s /usr/lib/systemd/system/rooms@.service \
  old/etc/systemd/system/multi-user.target.wants/rooms@office.service
ln -s /usr/lib/systemd/system/rooms-nightly@.timer \
  old/etc/systemd/system/timers.target.wants/rooms-nightly@office.timer
# A block of PEM has DER in it: here a sequence of one number.
block() { printf -- '-----BEGIN %s-----\nMAMCAQ%s=\n-----END %s-----\n' "$1" "$2" "$1"; } # KIND C
block CERTIFICATE E >old/etc/ssl/rooms.pem
block 'PRIVATE KEY' I >old/etc/ssl/private/rooms.key
chmod 600 old/etc/ssl/private/rooms.key
sed -i \
  's#^CERTIFICATE=.*#CERTIFICATE=/etc/ssl/rooms.pem#; s#^KEY=.*#KEY=/etc/ssl/private/rooms.key#' \
  old/etc/rooms/site
"$repo/admin/rooms-admin" setup --destdir "$PWD/old" >/dev/null
echo '0 1 * * * root rooms-export' >old/etc/cron.d/rooms
echo mine >old/etc/hostname
echo older >old/etc/rooms/office.conf.old
echo key >old/etc/rooms/kerberos.keytab
chmod 400 old/etc/rooms/kerberos.keytab
