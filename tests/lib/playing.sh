# How tests/run plays the parts in `parts`, and what it says of them.

# The times of before, for the order: 'PART SECONDS passed|failed'. They are no part of the
# repository.
times=${XDG_CACHE_HOME:-${HOME:-/root}/.cache}/rooms-tests
tap_of() { echo "$ROOMS_TESTS/tap/$(grep -nxF "$1" "$ROOMS_TESTS/parts" | cut -d: -f1)"; } # PART

# Those that measure, which nothing else may slow down.
measures() { [[ $1 = nginx/at-once || $1 = web/figures || $1 = services/large-speed ]]; } # PART

# The parts of standard input: what failed, what was never played, and what took longest.
in_order() {
  [ -r "$times" ] || { cat; return; }
  awk 'NR == FNR { last[$1] = $3 == "failed" ? 1e9 + $2 : $2; next }
    { print ($1 in last ? last[$1] : 1e6), FNR, $1 }' "$times" - |
    sort -k1,1nr -k2,2n | cut -d' ' -f3
}

# Makes the folder that parts with a machine copy, once for all of them, beside the first parts.
make_debian() {
  local folder=${ROOMS_DEBIAN:-$ROOMS_TESTS/debian} part needed=no
  export ROOMS_DEBIAN=$folder
  for part in "${parts[@]}"; do
    ! grep -qE '(make|boot|copy)_machine' "$here/$part.sh" || needed=yes
  done
  if [ "$needed" = no ]; then echo 'no part was to need it' >"$ROOMS_TESTS/no-debian"; fi
  if [ "$needed" = no ] || [ -d "$folder" ]; then return; fi
  export -f debootstrap_once
  setsid bash -c debootstrap_once </dev/null &
  maker=$!
}
debootstrap_once() {
  exec 9>"$ROOMS_DEBIAN.lock"
  flock 9
  if [ -d "$ROOMS_DEBIAN" ]; then return; fi
  if ! command -v debootstrap; then
    echo 'no debootstrap, and ROOMS_DEBIAN names no folder'
  elif ! timeout 1200 debootstrap --variant=minbase \
    --include=systemd,dbus,nftables,nginx,apache2-utils,openssl,curl,python3,python3-ldap \
    bookworm "$ROOMS_DEBIAN.part"; then
    rm -rf "$ROOMS_DEBIAN.part"
  else
    mv "$ROOMS_DEBIAN.part" "$ROOMS_DEBIAN"
  fi >"$ROOMS_TESTS/debootstrap" 2>&1
  [ -d "$ROOMS_DEBIAN" ] ||
    tail -n 1 "$ROOMS_TESTS/debootstrap" >"$ROOMS_TESTS/no-debian"
}

# Plays parts by prove, of which nothing goes on once this shell has ended.
play() { # JOBS PART ..
  local words=(setsid)
  [ $# != 1 ] || return 0
  [ "$ROOMS_APART" = no ] ||
    words=(setpriv --pdeathsig KILL unshare --mount --pid --fork --kill-child --mount-proc)
  (cd "$here" && exec "${words[@]}" prove --norc --timer ${verbose[@]+"${verbose[@]}"} \
    --jobs "$1" --exec 'bash lib/alone.sh' "${@:2}") &
  playing=$!
  [ "$ROOMS_APART" = yes ] || playing=-$playing
  wait "$!"
  playing=
}
play_all() {
  local together=() alone=() part
  while read -r part; do
    if measures "$part"; then alone+=("$part.sh"); else together+=("$part.sh"); fi
  done < <(printf '%s\n' "${parts[@]}" | in_order)
  play "$jobs" ${together[@]+"${together[@]}"}
  play 1 ${alone[@]+"${alone[@]}"}
  keep_times
}

# Whether a part has said to its end that all of its checks are well.
is_well() { grep -q '^1\.\.' "$1" && ! grep -q '^not ok ' "$1"; } 2>/dev/null # TAP
failed_parts() {
  local part
  for part in "${parts[@]}"; do is_well "$(tap_of "$part")" || echo "$part"; done
}
# Those that failed have a second try, which counts.
play_again() {
  local part first=()
  mapfile -t first < <(failed_parts)
  [ "${#first[@]}" != 0 ] || return 0
  echo "a second try: ${first[*]}"
  for part in "${first[@]}"; do mv "$(tap_of "$part")" "$ROOMS_TESTS/tap/first"; done 2>/dev/null
  play 1 "${first[@]/%/.sh}"
  for part in "${first[@]}"; do
    ! is_well "$(tap_of "$part")" || echo "passed only at the second try: $part"
  done
}

keep_times() {
  local part tap
  {
    for part in "${parts[@]}"; do
      tap=$(tap_of "$part")
      echo "$part $(sed -n 's/^# \([0-9]*\) s$/\1/p' "$tap") $(is_well "$tap" && echo passed)"
    done | awk 'NF == 2 { print $1, $2, "failed"} NF == 1 { print $1, 0, "failed" } NF == 3'
    cat "$times"
  } 2>/dev/null | awk '!seen[$1]++' >"$ROOMS_TESTS/times"
  { mkdir -p "${times%/*}" && cp "$ROOMS_TESTS/times" "$times.$$" && mv "$times.$$" "$times"; } \
    2>/dev/null || :
}

# Each skip, and how many checks passed and failed. A part that ended before its end failed.
say_all() {
  local part tap
  for part in "${parts[@]}"; do
    tap=$(tap_of "$part")
    sed -n "s|^ok - \(.*\)  *# SKIP \(.*\)|skipped $part: \1: \2|p" "$tap" 2>/dev/null
    grep -q '^1\.\.' "$tap" 2>/dev/null || {
      echo "FAILED $part: it ended before its end"
      echo 'not ok - its end' >>"$tap"
    }
  done
  cat "$ROOMS_TESTS"/tap/[0-9]* | awk '
    /^ok .* # SKIP / { skipped++; next }
    /^ok / { passed++ }
    /^not ok / { failed++ }
    END {
      if (skipped) print skipped " skipped"
      print passed + 0 " passed, " failed + 0 " failed"
      exit failed != 0
    }'
}
