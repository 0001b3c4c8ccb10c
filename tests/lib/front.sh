# A front end before the server: nginx by the file that rooms-admin writes, with other ports and
# files.

nginx=$(command -v nginx || ls /usr/sbin/nginx 2>/dev/null)
# rooms-admin as it is installed, beside the page and the pages of errors that the site names.
installed=$work/installed/usr/local
[ -d "$installed" ] ||
  "$repo/deploy/install" --destdir "$work/installed" --program "$rooms" >"$work/out" 2>&1 </dev/null

# Whether there is a loopback for IPv6 too.
has_six() {
  local why
  why=$( (exec 3<>/dev/tcp/::1/1) 2>&1) || [[ $why = *refused* ]]
}

# The site with the ports and the files of a case: passwords are ./rooms.htpasswd and so on, what is
# remembered is in ./remembered, that socket in ./checks, those of rooms in ./run, all else below
# ./machine.
for_here() { # FILE
  local six='/listen \[::\]/d'
  if has_six; then
    six="s/listen \[::\]:80;/listen [::1]:$front;/; s/listen \[::\]:443 /listen [::1]:$secure /"
  fi
  sed -e "s/listen 80;/listen 127.0.0.1:$front;/" -e "s/listen 443 /listen 127.0.0.1:$secure /" \
    -e "$six" -e "s/127.0.0.1:8778/127.0.0.1:$apache/" -e "s/127.0.0.1:8777/127.0.0.1:$apache/" \
    -e "s|/run/rooms-front/remembered|$PWD/remembered|; s|/run/rooms-front|$PWD/checks|" \
    -e "s|/run/rooms-full|$PWD/run/rooms-full|" \
    -e "s|unix:/run/rooms/|unix:$PWD/run/rooms/|; s|unix:/run/rooms-door|unix:$PWD/run/door|" \
    -e "s|/var/lib/rooms-web|$PWD/root/var/lib/rooms-web|g" \
    -e "s|/var/lib/rooms-changes|$PWD/changes|" \
    -e "s|/etc/nginx/|$PWD/|; s|/var/lib/rooms-passwords/|$PWD/|" \
    -e "s|/run/rooms-earlier/|$PWD/run/rooms-earlier/|" \
    -e "s|/run/rooms-own-password/|$PWD/|; s|/etc/rooms/|$PWD/machine/etc/rooms/|" \
    -e "s|/var/lib/rooms-front|$PWD/machine/var/lib/rooms-front|" \
    -e "s|access_log /var/log/nginx/access.log rooms .*|& access_log $PWD/access.log short;|" \
    -e "s|/var/log/nginx/access.log|$PWD/rooms.log|; s|/var/log/nginx/|$PWD/|" "$1"
}

# nginx's file, which includes the site as Debian's does.
write_front() {
  echo "daemon off; pid $PWD/nginx.pid; error_log $PWD/error.log; worker_processes 1;"
  [ "$(id -u)" != 0 ] || echo 'user root;'
  echo 'events { worker_connections 256; }'
  echo 'http {'
  echo "log_format short '\$status \$request_method \$request_uri \$remote_user \$http_origin';"
  echo "access_log $PWD/access.log short; client_body_temp_path $PWD/t1; proxy_temp_path $PWD/t2;"
  echo "fastcgi_temp_path $PWD/t3; uwsgi_temp_path $PWD/t4; scgi_temp_path $PWD/t5;"
  echo 'include sites-enabled/*; }'
}

# Runs a verb for the machine of the case, which is below ./machine.
admin() { # VERB ARGUMENT ..
  "$installed/sbin/rooms-admin" "$1" --destdir "$PWD/machine" "${@:2}" \
    </dev/null >"$work/out" 2>"$work/err"
  status=$?
}
adds() { admin "$@"; [ "$status" = 0 ]; }
# A setting of a room, or of the site where the room is '-'.
sets() { # ROOM NAME VALUE
  local file=machine/etc/rooms/$1.conf
  [ "$1" != - ] || file=machine/etc/rooms/site
  sed -i "s|^$2=.*|$2=$3|" "$file"
}
# nginx has what rooms-admin has written.
take_front() {
  local file
  for_here machine/etc/nginx/sites-available/rooms >sites-enabled/rooms
  # Nobody has a first password.
  for file in machine/var/lib/rooms-passwords/*.first; do
    [ ! -e "$file" ] || cp -n "$file" .
  done
  chmod 644 ./*.first
}

# Starts a server at the socket of office, as that of a new room.
start_room() { # FILE COUNT
  mkdir -p run/rooms/office
  rm -f run/rooms/office/socket
  port=$((port + 10))
  start_at_socket "$1" "$PWD/run/rooms/office/socket" "$2"
}

# A certificate for the front end with TLS.
certify_front() {
  openssl req -x509 -newkey ec -pkeyopt ec_paramgen_curve:P-256 -noenc -days 9 \
    -subj /CN=rooms.example -addext subjectAltName=DNS:rooms.example -keyout rooms.key \
    -out rooms.pem 2>/dev/null
}

# Starts nginx with the site of the room office, whose server start_room has started; with TLS for
# 'tls', whose certificate and key are ./rooms.pem and ./rooms.key. The ports $front and $secure are
# free if $port is. It asks for the passwords of ./rooms.htpasswd, serves the page, and writes the
# status, method, target, user and origin of each request into ./access.log.
start_front() { # NAME [tls]
  local began=$SECONDS
  front=$((port + 1))
  secure=$((port + 2))
  apache=$((port + 4))
  base=http://127.0.0.1:$front
  chmod 755 "$work" .
  chmod 644 rooms.htpasswd
  mkdir -p sites-enabled checks changes/office machine/etc/nginx
  [ "$(id -u)" != 0 ] || chown root:www-data checks
  chmod 710 checks
  rm -f nginx.pid
  [ -e machine/etc/rooms/site ] || admin setup
  if [ -n "${2-}" ]; then
    sets - CERTIFICATE "$PWD/rooms.pem"
    sets - KEY "$PWD/rooms.key"
  fi
  admin setup
  [ "$status" = 0 ] || fail "$1: setup" "status $status: $(tail -n 2 "$work/err")"
  take_front
  write_front >nginx.conf
  "$nginx" -p "$PWD" -c "$PWD/nginx.conf" >nginx.out 2>&1 &
  proxy=$!
  until [ -s nginx.pid ] || ! kill -0 "$proxy" 2>/dev/null ||
    [ $((SECONDS - began)) -ge "$patience" ]; do sleep 0.02; done
  if ! kill -0 "$proxy" 2>/dev/null || ! [ -s nginx.pid ]; then
    skip "$1" "nginx does not start: $(head -c 300 nginx.out error.log 2>/dev/null)"
    return 1
  fi
}

# nginx takes its files, and its workers of before are gone.
reload_front() {
  local before=() one
  read -r -a before 2>/dev/null <"/proc/$proxy/task/$proxy/children"
  kill -HUP "$proxy"
  for one in ${before[@]+"${before[@]}"}; do wait_for "$one"; done
}

# The Nth block of commands below a heading of a page, with its files in this folder.
page_block() { # PAGE HEADING N
  awk -v heading="## $2" -v number="$3" '
    /^## / { on = $0 == heading }
    /^```/ { inside = $0 == "```sh"; if (on && inside) block++; next }
    on && inside && block == number' "$here/../docs/$1.md" |
    sed -E "s#/(root|etc/ssl/private|etc/ssl|etc/nginx)/#$PWD/#g; s#^cd /etc/nginx\$#cd $PWD#"
}

# What curl is given to reach $base.
reach=()

# The status and the body of a request by a user with a password, to $base; '-' is any body.
ask() { # NAME STATUS BODY USER:PASSWORD TARGET ARGUMENT ..
  local name=$1 wanted=$2 body=$3 who=$4 target=$5 got
  shift 5
  got=$(curl -s -o "$work/body" -w '%{http_code}' ${reach[@]+"${reach[@]}"} ${who:+-u "$who"} "$@" \
    "$base$target")
  [ "$got" = "$wanted" ] ||
    { fail "$name" "status $got, wanted $wanted: $(head -c 200 "$work/body")"; return; }
  [ "$body" = - ] && { pass "$name"; return; }
  printf '%s' "$body" >"$work/want.body"
  same "$name" "$work/body" "$work/want.body"
}

# The head of an answer is in $work/head. (HTTP/2 has its fields in small letters.)
answer() { # USER:PASSWORD TARGET ARGUMENT ..
  curl -s --http1.1 -o "$work/body" -D "$work/head" ${reach[@]+"${reach[@]}"} -u "$1" "${@:3}" \
    "$base$2"
}

# nginx takes its files: its workers of before are gone, and the command succeeds.
reloaded() { # COMMAND ..
  local began=$SECONDS before=() one
  read -r -a before 2>/dev/null <"/proc/$proxy/task/$proxy/children"
  kill -HUP "$proxy"
  for one in ${before[@]+"${before[@]}"}; do wait_for "$one"; done
  until "$@" || [ $((SECONDS - began)) -ge "$patience" ]; do sleep 0.1; done
}

# What every answer says, also one to a wrong password. MORE is what those of a room have.
policy="Content-Security-Policy: default-src 'none'; script-src 'self'; style-src 'self'; img-src 'self' blob:; connect-src 'self'; base-uri 'none'; form-action 'none'; frame-ancestors 'none'"
says_all() { # USER:PASSWORD TARGET [MORE]
  local line
  answer "$1" "$2"
  for line in "$policy${3-}" 'X-Content-Type-Options: nosniff' 'Referrer-Policy: no-referrer' \
    'Cross-Origin-Resource-Policy: same-origin' 'Cross-Origin-Opener-Policy: same-origin'; do
    holds "$1 $base$2 says ${line%%:*}" grep -qxF "$line"$'\r' "$work/head"
  done
}

# At ROOM, the path before a route, WHO makes a document with the longest path, which READER reads;
# $path is that path then. One byte more is the room's to refuse.
makes_deepest() { # ROOM WHO READER
  local n name
  # Names of 255 bytes, each byte escaped as three; 16 of them are the longest path.
  printf -v name '%127s' ''
  name=${name// /%C3%A9}%78
  path=
  for n in {1..15}; do
    path=$path/$name
    ask "a folder of ${1:-the root} at depth $n" 201 '' "$2" "$1/folder$path" -X POST
  done
  path=$path/$name
  ask "a document of ${1:-the root} with the longest path" 201 '' \
    "$2" "$1/doc$path" -X PUT --data-binary deep
  ask 'is read' 200 deep "$3" "$1/doc$path"
  ask 'a longer path' 400 '{"why":"bad-target P2"}' "$3" "$1/doc$path%78"
}
