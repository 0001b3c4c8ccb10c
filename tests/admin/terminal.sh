# Whoever calls a verb and isn't root holds nobody up: by a key of the terminal that stops it or its
# output, or by a pipe that nobody reads. The program is a stand-in, and no server runs.

if [ "$(id -u)" != 0 ] || ! has python3 || ! has flock; then
  skip 'a verb at a terminal' 'no root, python3 or flock'
  return
fi
mkdir -p bin run root/etc/nginx room own
mkdir -m 700 back
chmod 755 "$work" .
# A look takes as long as there is a file 'wait'.
cat >bin/rooms <<END2
#!/bin/sh
case \$1 in
  groups-out)
    touch '$PWD/looks'
    while [ -e '$PWD/wait' ]; do sleep 0.05; done
    printf '%s\n' group,user sales,alice staff,alice staff,bob ;;
  groups) touch '$PWD/changed' ;;
  --version) echo 'rooms 9.9.9' >&2 ;;
esac
END2
printf '%s\n' '#!/bin/sh' 'echo inactive' 'exit 3' >bin/systemctl
chmod 755 bin/*
echo bytes >room/office.rooms
# (a password that nobody has)
printf '%s:%s\n' bob '$2y$10$'"$(printf '.%.0s' {1..53})" >root/etc/nginx/rooms-office.htpasswd
cp root/etc/nginx/rooms{-office,}.htpasswd
printf '%s\n' "FILE=$PWD/room/office.rooms" "BACKUPS=$PWD/back" "PROGRAM=$PWD/bin/rooms" \
  >office.conf
export PATH="$PWD/bin:$PATH" ROOMS_RUN=$PWD/run ROOMS_ROOT=$PWD/root TMPDIR=$PWD/own
if python3 -B "$here/admin/terminal.py" "$repo/admin/rooms-admin" "$PWD" >"$work/out" 2>&1; then
  passes 'a verb at a terminal' "$(grep -c '^ok ' "$work/out")"
else
  fail 'a verb at a terminal' "$(tail -n 20 "$work/out")"
fi
