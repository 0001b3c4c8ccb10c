# What setup, add and remove say that they would do is what they do: each line of a dry run is one
# of the run itself, which tells nothing else, and each file, link and folder that changes is named.
# (What units and users change on a machine stands in machine/systemd.)

verb() { # VERB ARGUMENT ..
  "$repo/admin/rooms-admin" "$1" --destdir "$PWD/machine" "${@:2}" \
    </dev/null >"$work/out" 2>"$work/err"
  status=$?
}
tree() { # What is there, with what is in it
  (cd machine && find . -printf '/%P %y%m %l\n' && find . -type f -exec cksum {} + |
    sed 's#^\([0-9]*\) \([0-9]*\) [.]#\1 #' | awk '{ print $2, $1 }') 2>/dev/null | sort
}
does_as_told() { # NAME VERB ARGUMENT ..
  tree >before
  verb "$2" --dry-run "${@:3}"
  holds "$1: a dry run: $(head -c 300 "$work/err")" [ "$status" = 0 ]
  sed -n 's/^would: //p' "$work/out" | sort >told
  tree >after
  same "$1: which changes nothing" after before
  verb "${@:2}"
  holds "$1: the run: $(head -c 300 "$work/err")" [ "$status" = 0 ]
  grep -v -e '^kept ' -e ' keeps its own passwords;' "$work/out" | sort >did
  same "$1: it does what was told, and no more" did told
  tree >after
  # A folder that is made or goes stands for those above it and what is in it.
  comm -3 before after | sed 's/^\t//; s/ .*//' | sort -u >changed
  unnamed=
  while IFS= read -r path; do
    grep -qF -e "$path" told || grep -oE '/[^ ,]+' told | grep -qx "${path%/*}" ||
      unnamed+=" $path"
  done <changed
  holds "$1: each change is named, also$unnamed" [ -z "$unnamed" ]
  holds "$1: something changes" [ -s changed ]
}

mkdir -p machine/etc/nginx/sites-{available,enabled} machine/var/{lib,backups,cache}
does_as_told 'a new machine' setup
for file in /etc/rooms/office.conf /etc/rooms/site /etc/nginx/sites-available/rooms \
  /var/lib/rooms-front/start.html /var/lib/rooms-passwords/rooms.htpasswd; do
  holds "with $file" grep -qE "^(new )?file $file" told
done
holds 'and the link' grep -qx \
  'link /etc/nginx/sites-enabled/rooms to ../sites-available/rooms' told
does_as_told 'a room' add invoices
holds "with nginx's site" grep -qx 'new file /etc/nginx/sites-available/rooms' told
holds 'and the start page' grep -qx 'new file /var/lib/rooms-front/start.html' told
does_as_told 'a room with a port and a name' add --port 8790 --host desk.example desk
holds 'with its unit' \
  grep -qx 'file /etc/systemd/system/rooms-port@desk.socket.d/port.conf' told
mkdir -p machine/etc/rooms/machines
for file in front.pem front.key authority.pem machine.pem machine.key; do
  echo x >"machine/etc/rooms/machines/$file"
done
does_as_told 'the place of a room elsewhere' add --on b.example bills
does_as_told 'a room for another front end' add --behind orders
mkdir -p machine/var/lib/rooms-web/desk machine/var/cache/rooms-texts/desk
does_as_told 'a room goes' remove desk
holds 'with its unit' \
  grep -qx '/etc/systemd/system/rooms-port@desk.socket.d/port.conf is removed' told
holds 'its texts' grep -qx '/var/cache/rooms-texts/desk is removed' told
does_as_told 'the place of one elsewhere goes' remove bills
# Settings that were changed by hand, and by one more option.
sed -i 's/^OWN_PASSWORDS=.*/OWN_PASSWORDS=no/; s/^PORT=.*/PORT=8791/' \
  machine/etc/rooms/invoices.conf
does_as_told 'passwords that move' setup
holds 'from where they were' grep -qx \
  "/var/lib/rooms-passwords/rooms-invoices.htpasswd is now /etc/nginx/rooms-invoices.htpasswd" told
if has openssl; then
  openssl req -x509 -newkey ec -pkeyopt ec_paramgen_curve:P-256 -noenc -subj /CN=rooms.example \
    -keyout one.key -out one.pem -addext subjectAltName=DNS:rooms.example 2>/dev/null
  does_as_told 'a certificate' setup --tls one.pem one.key
  holds "with nginx's site" grep -qx 'new file /etc/nginx/sites-available/rooms' told
else
  skip 'a certificate' 'openssl is missing'
fi
printf '%s\n' URI=ldap://127.0.0.1 BASE=dc=office,dc=example >directory
does_as_told 'a directory' setup --directory "$PWD/directory"
for file in /etc/rooms/directory /etc/rooms/directory.apache /etc/nginx/sites-available/rooms; do
  holds "with $file" grep -qE "^(new )?file $file" told
done
does_as_told 'none any more' setup --directory none
verb setup --dry-run
told 'then' 0 'nothing to change'
