#!/usr/bin/env bash
# Plays a part: its checks go to standard output as TAP, and what it prints itself to standard
# error, at its end if a check failed, and at once where ROOMS_SHOWN is 'yes'.
set -u
export LC_ALL=C
here=$(cd "$(dirname "$0")/.." && pwd)
data=$here/data
repo=$here/..
rooms=$ROOMS_PROGRAM
# No case may change these.
readonly ROOMS_PART=${1%.sh} ROOMS_BEGAN=$SECONDS
ROOMS_NUMBER=$(grep -nxF "$ROOMS_PART" "$ROOMS_TESTS/parts" | cut -d: -f1)
readonly ROOMS_NUMBER ROOMS_WORK=$ROOMS_TESTS/$ROOMS_NUMBER ROOMS_TAP=$ROOMS_TESTS/tap/$ROOMS_NUMBER
readonly ROOMS_SAID=$ROOMS_TESTS/said/$ROOMS_NUMBER
umask 022
mkdir -p "$ROOMS_WORK/in" || exit 1
# What others keep there would be taken for what a run has left whose process is gone.
[ "$ROOMS_APART" = no ] || export TMPDIR=/var/tmp
: >"$ROOMS_TAP"
: >"$ROOMS_SAID"
work=$ROOMS_WORK
server=
proxy=
stand=
others=()
# No settings of the user's, and no proxy between the tests and the server.
export HOME=$work no_proxy='*' NO_PROXY='*'
unset http_proxy HTTP_PROXY https_proxy HTTPS_PROXY all_proxy ALL_PROXY
. "$here/lib/lib.sh"
follow_load
. "$here/lib/http.sh"
. "$here/lib/units.sh"
# The parts have ports of their own where they have one network.
[ "$ROOMS_APART" = yes ] || port=$((10000 + 220 * (ROOMS_NUMBER % 90)))
stop_all() {
  stop_server
  stop_proxy
  stop_unit
  stop_others
}
# What is mounted below the part's folder, the last one first.
mounted() {
  awk -v below="$ROOMS_WORK/" 'index($2, below) == 1 { print $2 }' /proc/self/mounts | tac
}
finish() {
  stop_all
  cd / || exit
  mounted | while IFS= read -r one; do umount -l "$one"; done 2>/dev/null
  [ -n "$(mounted)" ] || rm -rf --one-file-system "$ROOMS_WORK"
  if [ -s "$ROOMS_SAID" ] &&
    { ! grep -q '^1\.\.' "$ROOMS_TAP" || grep -q '^not ok' "$ROOMS_TAP"; }; then
    { echo "$ROOMS_PART:"; cat "$ROOMS_SAID"; } >&2
  fi
  cat "$ROOMS_TAP"
}
trap finish EXIT
trap 'exit 130' INT TERM
if has_loopback; then loopback=yes; else loopback=no; fi
input=/dev/null
cd "$work/in" || exit 1
if [ "$ROOMS_SHOWN" = yes ]; then
  . "$here/$ROOMS_PART.sh" >&2
else
  . "$here/$ROOMS_PART.sh" >"$ROOMS_SAID" 2>&1
fi
stop_all
stand=
printf '1..%s\n# %s s\n' "$(grep -c '^\(not \)\?ok ' "$ROOMS_TAP")" "$((SECONDS - ROOMS_BEGAN))" \
  >>"$ROOMS_TAP"
# What failed is in the lines themselves.
exit 0
