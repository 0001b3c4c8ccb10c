# Pictures of pages on an installed machine, under systemd: one for a user, hostile documents within
# what the unit allows, more at once than there may be, and what a program in the place of what
# makes them can do.

top=$repo
version=none
. "$here/lib/machine.sh"
. "$here/lib/booted.sh"
boot_machine 'pictures of pages on a machine' || return
inside 'command -v pdftoppm'
if [ "$status" != 0 ]; then
  skip 'pictures of pages on a machine' "poppler-utils isn't in it"
  stop_machine
  return
fi
does 'the package, and two rooms' 'dpkg -i rooms.deb
  runuser -u rooms -- rooms init /var/lib/rooms/office.rooms alice staff &&
  systemctl enable --now rooms@office && rooms-admin add invoices alice staff &&
  rooms-admin user add alice <<<a && rooms-admin set LARGEST=20 && rooms-admin setup &&
  systemctl restart rooms-door@office && systemctl reload-or-restart nginx'
shows 'its socket' rooms-picture.socket ActiveState active
web='curl -s -u alice:a http://127.0.0.1'
until_inside 'it is served' "[ \"\$($web/can/? -o /dev/null -w %{http_code})\" = 200 ]"
mkdir "$machine/root/pdfs"
python3 -IB "$here/services/pdfs.py" "$machine/root/pdfs" >made
cp made "$machine/root/made"
cat >"$machine/root/each" <<EOF
while read -r name wanted; do
  $web/door/doc/\$name.pdf -o /dev/null -X PUT -H 'If-None-Match: *' -T pdfs/\$name.pdf
  read -r status took < <($web/door/pages/\$name.pdf?1 -o answer -w '%{http_code} %{time_total}\n')
  why=picture
  [ "\$status" = 200 ] || why=\$(sed 's/.*"why":"//; s/".*//' answer)
  echo "\$name \$why"
  echo "  \$name: \$took s" >&2
done <made
EOF
does 'each document' 'bash each'
cp "$work/out" found
cat "$work/err"
same 'is a picture, or why there is none' found made
longest=$(sed 's/.*: //; s/ s//' "$work/err" | sort -n | tail -n 1)
holds "in time: $longest" [ "${longest%.*}" -le 20 ]
does 'what is left of them' 'systemctl list-units --all --no-legend --plain "rooms-picture@*"
  systemctl list-units --state=failed --no-legend --plain "rooms*"'
holds "nothing: $(head -n 3 "$work/out")" [ ! -s "$work/out" ]
does 'what the journal has' 'journalctl --sync; journalctl -t rooms-picture --no-pager -o cat'
holds "no line: $(head -n 3 "$work/out")" [ ! -s "$work/out" ]

# As many as there may be run already: others wait, and are then told.
cat >"$machine/root/held.py" <<'EOF'
import socket
import time

several = []
for _ in range(4):
    at = socket.socket(socket.AF_UNIX)
    at.connect("/run/rooms-picture/socket")
    assert at.recv(6) == b"ready\n"
    several.append(at)
fifth = socket.socket(socket.AF_UNIX)
fifth.connect("/run/rooms-picture/socket")
assert fifth.recv(6) == b""
began = time.monotonic()
for at in several:
    assert at.recv(1) == b""
print(f"ended after {time.monotonic() - began:.0f} s", 10 < time.monotonic() - began < 20)
EOF
does 'processes that get no document' 'python3 held.py'
holds "are ended by their unit: $(cat "$work/out")" grep -q True "$work/out"
inside 'chmod 755 . && cp held.py /var/tmp &&
  setpriv --reuid=www-data --regid=www-data --clear-groups python3 /var/tmp/held.py'
holds 'nobody else gets there' grep -q PermissionError "$work/err"

# A program of somebody else's in the place of what makes pictures, and what its unit allows it.
cp "$here"/machine/{probe,bounds}.py "$machine/usr/local/lib/"
does 'what there is to find' 'echo key >/etc/ssl/private/probe.key
  chmod 600 /etc/ssl/private/probe.key; echo key >/etc/rooms/passwords.key
  chmod 600 /etc/rooms/passwords.key; chmod 1777 /var/tmp'
cat >"$machine/root/starts.py" <<'EOF'
import socket

at = socket.socket(socket.AF_UNIX)
at.connect("/run/rooms-picture/socket")
while at.recv(1):
    pass
EOF
in_place() { # NAME OF WHAT IT SAYS, WORDS
  local folder=$machine/etc/systemd/system/rooms-picture@.service.d
  mkdir -p "$folder"
  printf '%s\n' '[Service]' ExecStart= StandardOutput=journal StandardError=journal \
    LogLevelMax=debug OOMPolicy=continue "SyslogIdentifier=$1" \
    "ExecStart=/usr/bin/python3 -I /usr/local/lib/$2" >"$folder/probe.conf"
  does "$2 in its place" 'systemctl daemon-reload; python3 starts.py; journalctl --sync'
  until_inside 'has ended' '! systemctl list-units --all --no-legend --plain "rooms-picture@*" |
    grep -q .'
  inside "journalctl --sync; journalctl -t $1 --no-pager -o cat"
  cp "$work/out" did
  rm "$folder/probe.conf"
  does 'as it was' 'systemctl daemon-reload'
}
in_place probed probe.py
: >wanted
same 'what it can do: nothing' did wanted
sees_no_other rooms-picture /run/rooms-picture/socket
shows 'where there is no memory it goes first' rooms-picture@0 OOMScoreAdjust 1000
inside 'cat /sys/fs/cgroup/cgroup.controllers'
if [[ " $(cat "$work/out") " = *' memory '* && " $(cat "$work/out") " = *' pids '* ]]; then
  in_place bounded 'bounds.py 320'
  printf '%s\n' 'tasks: 8' '320 MB: no' >wanted
  same 'how many tasks, and how much memory' did wanted
else
  skip 'its tasks and memory' 'no limits of groups of processes here'
fi
does 'pictures again' "$web/door/pages/letter.pdf?1 -o /dev/null -w %{http_code}"
holds "as before: $(cat "$work/out")" grep -qx 200 "$work/out"
stop_machine
