# What rooms-admin check says of backups and of hourly copies: none, late ones, those of a clock
# that was set back, and a disk that lacks space for them.

if ! . "$here/lib/check.sh"; then
  skip 'what a check finds of backups' 'no loopback, or python3 or openssl is missing'
  return
fi
rm -r backups/*
future=$(backup '3 hours')
checks 'a clock that was set back' 1 \
  "the backup $future is dated in the future: was the clock set back?"
backup '2 hours ago' >/dev/null
checks 'a later one beside it' 1 'rooms WARNING - ' "the backup $future is dated in the future"
rm -r backups/*
backup '27 hours ago' >/dev/null
checks 'a night without a backup' 1 'last good backup 27 h ago'
mkdir "backups/$(date +%F.%H%M%S).unsound" "backups/$(date +%F.%H%M%S).part"
checks 'one that is unsound, and one that was cut off' 1 'last good backup 27 h ago'
rm -r backups/*
backup '51 hours ago' >/dev/null
checks 'two nights without' 2 'last good backup 51 h ago'
rm -r backups/*
last=backups/$(backup '1 hour ago')
echo 'number 7' >"$last/run"
cp -a "$last" "backups/$(date -d '2 days ago' +%F.%H%M%S)"
checks 'a number that no run has given' 2 "numbers jump: $PWD/$last is number 7, and "
rm -r backups/*
checks 'none of a new room' 1 'no backup yet: systemctl start rooms-nightly@office'
mv backups away
checks 'no folder of backups' 2 'no folder of backups: '
mv away backups
backup '1 hour ago' >/dev/null

# When it is full, by what a month's backups have in use. The largest step may be an import.
grown() { # DATE MEGABYTES: a backup of that time with so many in use
  local file
  file=backups/$(backup "$1")/F
  python3 - "$file" "$2" <<'END'
import struct, sys
with open(sys.argv[1], "r+b") as file:
    size, = struct.unpack(">16xH", file.read(18))
    file.seek(28)
    file.write(struct.pack(">I4xI", (int(sys.argv[2]) << 20) // size, 0))
END
  touch -d "$1" "$file"
}
rm -r backups/*
for week in 4 3 2 1; do grown "$((7 * week)) days ago" $((5 - week)); done
grown '1 hour ago' 5
settings LIMIT=5
checks 'a room that grows' 1 "rooms WARNING - office: at this month's pace it is full in 6 weeks"
settings LIMIT=1
checks 'and soon' 1 "at this month's pace it is full within two weeks"
settings LIMIT=9
checks 'or later' 0 'rooms OK'
settings LIMIT=none
checks 'or never' 0 'rooms OK'
settings LIMIT=5
rm -r backups/*
grown '9 days ago' 0
grown '8 days ago' 5
grown '1 hour ago' 5
checks 'an import' 0 'rooms OK'
settings LIMIT=4000
checks 'more than starts' 0 'rooms OK'
settings
rm -r backups/*
backup '1 hour ago' >/dev/null

# Hourly copies, where HOURS isn't 0: whether they come, and whether the disk has space for all.
hour() { # DATE NUMBER: a copy of that time
  local at
  at=backups/office/hours/$(date -d "$1" +%F.%H%M%S)
  mkdir -p "$at"
  cp office/F "$at/F"
  echo "number $2" >"$at/run"
  touch -d "$1" "$at/run"
}
checks 'a room without' 0 'rooms OK'
holds 'says nothing of them' eval '! grep -q hourly "$work/out"'
settings HOURS=24
none='no hourly copy: systemctl enable --now rooms-standby@office.timer'
checks 'none yet' 1 "rooms WARNING - office: $none"
hour '5 hours ago' 1
checks 'they are late' 1 'last hourly copy 5 h ago'
hour '170 minutes ago' 2
checks 'not yet' 0 'last hourly copy 2 h ago'
settings HOURS=0
checks 'none is wanted any more' 0 'rooms OK'
settings HOURS=24
hour '2 hours' 3
checks 'a clock that was set back' 1 'is dated in the future: was the clock set back?'
hour '10 minutes ago' 4
checks 'a newer one, by its number' 0 'last hourly copy 0 h ago'
mkdir -p backups/office/hours/2001-01-01.000000/F
checks 'what no run has left so' 2 "no backup: $PWD/backups/office/hours/2001-01-01.000000/F is"
rm -r backups/office
# No copy is made where less than twice the room and 256 MB are free; before there are all of them,
# the disk has to have space for each.
if mkdir small && mount -t tmpfs -o size=280m,mode=700 none small 2>/dev/null; then
  mv backups kept
  ln -s small backups
  backup '1 hour ago' >/dev/null
  hour '30 minutes ago' 1
  size=$(stat -c %s office/F)
  settings HOURS=1
  checks 'a disk with space' 0 'last hourly copy 0 h ago'
  few=$((24000000 / size))
  settings "HOURS=$few"
  checks 'for as many' 0 'last hourly copy 0 h ago'
  settings HOURS=999
  wants=$(((999 * size + (256 << 20)) >> 20))
  checks 'not for more' 1 "999 hourly copies want $wants MB, and the disk of backups has 279 MB"
  head -c 30000000 /dev/zero >small/other
  settings HOURS=1
  checks 'nor for the next one' 1 '1 hourly copies want 256 MB, and '
  rm backups
  umount small
  checks 'a disk that is gone' 2 "no folder of backups: $PWD/backups"
  mv kept backups
else
  skip 'hourly copies on a disk without space' 'no leave to mount'
fi
settings
