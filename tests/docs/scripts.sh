# The scripts of admin/, deploy/ and tools/: shellcheck has no note on any of them. And no line of
# these, of the web interface, of the cases and of what they share is wider than 100 columns, no
# file has 500 lines, and no function of Python more than 40.

# Lines over 100 columns, where a byte that continues a letter isn't counted. A shell's line may be
# wider for a text between quotes that fills one by itself: it is compared or sent byte by byte.
wide_lines() { # FILE ..
  awk '{
    text = $0; gsub(/[\200-\277]/, "", text)
    if (length(text) <= 100) next
    wide = length(text); gsub(/\\"/, "..", text)
    if (FILENAME ~ /\.sh$/ && text !~ /^ *#/) for (sign = 1; sign <= 2; sign++) {
      n = split(text, part, sign == 1 ? "\047" : "\"")
      for (i = 2; i < n; i++) if (length(part[i]) > 90) next
    }
    print FILENAME ":" FNR ": " wide " columns"
  }' "$@"
}
wide_lines "$here"/run "$here"/*/*.{sh,py,js,mjs} "$repo"/deploy/install \
  "$repo"/admin/rooms_admin/{,*/}*.py "$repo"/services/rooms_services/{,*/,*/*/}*.py \
  "$repo"/web/{,*/}*.{js,css} "$repo"/web/*.html \
  "$repo"/deploy/errors/* "$repo"/deploy/debian/p* "$repo"/admin/completion/* \
  "$repo"/tools/[a-z]* >found
same 'no line is too wide' found /dev/null
long=$(printf 'x%.0s' {1..99})
printf '%s\n' "${long}é" "$long yz" "echo '$long'" "# '$long'" "echo \"\\\"$long\"" \
  "echo 'x' $long" >wide.sh
wide_lines wide.sh >found
printf 'wide.sh:%s columns\n' '2: 102' '4: 103' '6: 108' >wanted
same 'a wide one is found' found wanted

# (what tests compare or send, and the files that name all others, are as long as they have to be)
sizes() { find "$@" -type f -print0 | sort -z | xargs -0r python3 "$here/docs/sizes.py"; }
if has python3; then
  sizes "$repo"/{admin,services,deploy,web,tools} "$here" -not -path "$here/data/*" \
    -not -name '*.pyc' -not -name '*.passed' >found 2>&1
  same 'no file or function is too long' found /dev/null
  { echo 'def one():'; printf '    a = %s\n' {1..40}; } >long.py
  printf 'a = %s\n' {1..500} >many.conf.in
  sizes long.py many.conf.in >found
  printf '%s\n' 'long.py:1: one has 41 lines' 'many.conf.in: 500 lines' >wanted
  same 'a long one is found' found wanted
else
  skip 'sizes' 'python3 is missing'
fi

# A command between a message's quotes has a status of its own, so the one that is meant is kept
# before.
grep -nE '^ *(holds|told|pass|fail) .*\$\(.*\$\?' "$here"/*/*.sh >found
same 'no status is lost in a message' found /dev/null

if ! has shellcheck; then
  skip 'scripts' 'shellcheck is missing'
  return
fi
cd "$repo" || return
# The gate takes files and folders alone.
find . -name .git -prune -o -name out -prune -o -type l -print >"$work/found"
same 'no link in the repository' "$work/found" /dev/null
scripts() {
  grep -lE '^#!(/bin/sh|/usr/bin/env bash)$|^# shellcheck shell=bash' admin/* deploy/* \
    deploy/debian/* admin/completion/* tools/* 2>/dev/null
}
# What is longer is written in Python, under types. dpkg's scripts have their own folder.
scripts | grep -E '^(admin|deploy)/' | grep -v '^deploy/debian/' | xargs -r wc -l |
  awk '$2 != "total" && $1 > 60' >"$work/found"
same 'no long script of a shell beside them' "$work/found" /dev/null
while IFS= read -r file; do
  shellcheck -x "$file" >"$work/found" 2>&1
  same "$file" "$work/found" /dev/null
done < <(scripts)
