# The documents: each link leads to a file or a heading that is there, and lines are no longer than
# 100 columns. The proofs: each lemma is named somewhere, and stated once.

top=$here/..

# What a page says outside of fenced code, with a number before each line.
prose() { awk '/^ *(```|~~~)/ { fenced = !fenced; next } !fenced { print NR ":" $0 }' "$1"; }

# The anchors of a page's headings: small letters, no punctuation, a '-' for each space, and a
# number from the second on.
anchors() { # PAGE
  prose "$1" | sed -n 's/^[0-9]*:##*  *//p' |
    sed -e 's/\xe2\x80.//g' -e 's/\[\([^]]*\)\]([^)]*)/\1/g' -e 's/ *#* *$//' |
    tr 'A-Z' 'a-z' | tr -d '!-,./:-@[-^`{-~' | tr ' ' '-' |
    awk '{ n = seen[$0]++; print n ? $0 "-" n : $0 }'
}

# Where the links of a page lead, as LINE:TARGET; code between backquotes has none.
links() { # PAGE
  prose "$1" | sed -e 's/`[^`]*`//g' | awk '{
    line = $0; sub(/:.*/, "", line); rest = substr($0, length(line) + 2)
    if (match(rest, /^ *\[[^]]*\]: */)) print line ":" substr(rest, RLENGTH + 1)
    while ((at = index(rest, "](")) > 0) {
      rest = substr(rest, at + 2); end = index(rest, ")")
      if (end > 0) {
        target = substr(rest, 1, end - 1); sub(/ +".*/, "", target); print line ":" target
      }
    }
  }'
}

# What is wrong with the links of a page, a line each.
lost_links() { # PAGE
  local line target file anchor
  while IFS=: read -r line target; do
    case $target in http://* | https://* | mailto:*) continue ;; esac
    file=${target%%#*}
    anchor=${target#"$file"}
    file=${file:+$(dirname "$1")/$file}
    file=${file:-$1}
    if [ ! -e "$file" ]; then
      echo "line $line: no file at $target"
    elif [ -n "$anchor" ] && ! anchors "$file" | grep -qxF -e "${anchor#\#}"; then
      echo "line $line: no heading for $target"
    fi
  done < <(links "$1")
}

# Lines over 100 columns, where a byte that continues a letter isn't counted. Tables, and links that
# stand alone, may be wider.
long_lines() { # PAGE
  prose "$1" | awk '{
    line = $0; sub(/:.*/, "", line)
    text = substr($0, length(line) + 2); wide = text; gsub(/[\200-\277]/, "", wide)
    if (length(wide) <= 100 || text ~ /^ *\|/) next
    if (text ~ /^ *([-*] )?(<?https?:[^ ]*>?|\[[^]]*\](\([^ )]*\)|: *[^ ]*))[.,;]?$/) next
    print "line " line ": " length(wide) " columns"
  }'
}

# Cells of tables with more than 60 words, and pages with more than 500 lines.
long_parts() { # PAGE
  prose "$1" | awk '{
    line = $0; sub(/:.*/, "", line); text = substr($0, length(line) + 2)
    if (text !~ /^ *\|/) next
    gsub(/\\\|/, "", text)
    for (i = split(text, cells, "|"); i > 0; i--) {
      words = split(cells[i], each, " ")
      if (words > 60) print "line " line ": a cell of " words " words"
    }
  }'
  awk 'END { if (NR > 500) print NR " lines" }' "$1"
}

none() { # NAME FILE: nothing was found
  if [ -s "$2" ]; then
    fail "$1" "$(wc -l <"$2") found"
    head -n 20 "$2" | sed 's/^/  /'
  else
    pass
  fi
}

for page in "$top"/{,web/,admin/,deploy/,tests/}README.md "$top"/{CONTRIBUTING,CHANGELOG}.md \
  "$top"/docs/*.md; do
  name=${page#"$top"/}
  lost_links "$page" >found
  none "links of $name" found
  { long_lines "$page" && long_parts "$page"; } >found
  none "lines of $name" found
done

holds 'README names the command of all tests' grep -qxF .ci/run "$top/README.md"
# What runs as a user of rooms has a terminal of its own: at root's it could type.
grep -n runuser "$top"/{README,docs/*}.md | grep -v 'runuser --pty -u rooms -- ' >found
none 'commands at the terminal of root' found

# The same of the pages as they are installed, without whatever else is in the repository.
"$repo/deploy/install" --destdir "$PWD/machine" --program "$rooms" >installed 2>&1 </dev/null
holds 'the pages are installed' [ -s machine/usr/share/doc/rooms/README.md ]
find machine -name '*.md' | sort | while IFS= read -r page; do
  lost_links "$page" | sed "s|^|${page#machine}, |"
done >found
none 'links of the installed pages' found

if has python3; then
  (cd "$top" &&
    "$here/docs/twice.py" "$data/twice.txt" README.md CHANGELOG.md CONTRIBUTING.md \
    docs/*.md) >found 2>&1
  none 'what stands on two pages' found
  "$top/tools/crates" --check >found 2>&1
  none 'a crate of which nothing says what it does' found
  "$top/tools/count-definitions" --check >found
  none 'the files of definitions that statement.md counts, and the contracts that it names' found
  # With a list that names machinery, and another that leaves out what a contract names.
  mkdir lists
  cp -R "$top/tools" "$top/docs" lists
  ln -s "$top/crates" lists/crates
  sed -i 's|^- `room_rows/specs/Pass`|- `room_rows/specs/Laws`, `Pass`|' lists/docs/statement.md
  lists/tools/count-definitions --check >found
  holds 'machinery in a list of what is to be read' \
    grep -q 'no contract that is named reaches room_rows/Laws' found
  cp "$top/docs/statement.md" lists/docs
  sed -i '/^- `room_rows\/specs\/Walk`/s|Walk|Content|' lists/docs/statement.md
  lists/tools/count-definitions --check >found
  holds 'a list without what is to be read' grep -q "a list isn't what contracts reach" found
  "$top/tools/count-definitions" --print >found
  holds 'the contracts that statement.md names are printed' grep -q '^pub fn host<' found
  "$top/tools/speed" check >found
  none 'the places of tables of times' found
  "$top/tools/unused" >found 2>&1 && : >found
  none 'lemmas that nothing names' found
  "$top/tools/unused" --twice >found 2>&1 && : >found
  none 'lemmas that are stated more than once' found

  # In a folder with two lemmas that are alike, and named nowhere, it finds both.
  for crate in one two; do
    mkdir -p "spare/crates/$crate/proofs"
    printf '%s\n' 'pub spare : (t : Bool) → t ≡ t' 'spare t = refl' \
      >"spare/crates/$crate/proofs/Spare.antt"
  done
  mkdir spare/tools
  cp "$top/tools/unused" spare/tools
  { spare/tools/unused; spare/tools/unused --twice; } >found
  printf '%s\n' 'crates/one/proofs/Spare.antt:1 spare (2 lines)' \
    'crates/two/proofs/Spare.antt:1 spare (2 lines)' '2 unused, 4 lines' \
    '2 times: crates/one/proofs/Spare.antt:1 spare, crates/two/proofs/Spare.antt:1 spare' \
    '1 stated more than once, 1 copies' >wanted
  same 'lemmas that are spare' found wanted
else
  skip 'the crates, and the lemmas' 'python3 is missing'
fi

# The version stands in the program, and the list of changes has it.
run --version
wanted=$(sed 's/^rooms //' "$work/err")
holds "CHANGELOG.md has version $wanted" \
  [ "$(sed -n 's/^## \[\([0-9][^]]*\)\].*/\1/p' "$top/CHANGELOG.md" | head -n 1)" = "$wanted" ]

# What the page quotes of contracts and definitions stands there.
stripped() { sed 's/^ *//' "$@" | LC_ALL=C sort -u; }
awk '/^```/ { quoted = !quoted; next } quoted && length > 12' "$top"/docs/statement.md |
  stripped >quoted
stripped "$top"/crates/*/src/*.rt "$top"/crates/*/specs/*.antt >stated
LC_ALL=C comm -23 quoted stated >found
none 'the quotes of statement.md' found

# Two pages of which each says something that the other one says too, in other signs and in another
# case; a sentence is excepted.
if has python3; then
  printf '%s\n' 'Six words that are its own. One two *three* four five,' \
    'six [seven](page.md) eight nine ten eleven twelve thirteen.' '' '```' \
    'a b c d e f g h i j k l' '```' \
    '- It'"'"'s one more that is there again, and it is allowed here.' >first.md
  printf '%s\n' '# One Two: three' '' 'One Two: three-four `five` six' \
    'seven eight nine ten eleven twelve' 'thirteen fourteen' '' 'a b c d e f g h i j k l' \
    '| its one more that is there again and it is allowed here | |' >second.md
  echo 'it'"'"'s one more that is there again, and it is allowed here: why' >allowed
  "$here/docs/twice.py" allowed first.md second.md >found
  status=$?
  echo 'first.md:1 and second.md: one two three four five six seven eight nine ten eleven twelve thirteen' >wanted
  same 'what stands on two pages' found wanted
  holds 'is refused' [ "$status" = 1 ]
  echo >second.md
  "$here/docs/twice.py" allowed first.md second.md >found
  echo "no two pages need the exception 'its one more that is there again and it is allowed here'" \
    >wanted
  same 'an exception that nobody needs' found wanted
fi

# The case itself finds what it is for.
printf '%s\n' '# One `two`, three' '# A' '# A' \
  '[x](#one-two-three) [x](#a-1) [x](page.md) [x](page.md#a "T")' '```' '[x](none.md)' '```' \
  '`[x](none.md)` <http://none>' >page.md
lost_links page.md >found
holds 'links that lead somewhere' [ ! -s found ]
printf '%s\n' '[x](#b) and [y](none.md)' '[z]: gone.md' '[w](page.md#a-2)' >bad.md
lost_links bad.md >found
printf '%s\n' 'line 1: no heading for #b' 'line 1: no file at none.md' \
  'line 2: no file at gone.md' 'line 3: no heading for page.md#a-2' >wanted
same 'links that lead nowhere' found wanted
long=$(printf 'x%.0s' {1..99})
printf '%s\n' "| $long |" "[$long](y.md)" "https://$long" "$long ." "$longé" '```' "$long$long" \
  '```' >wide.md
long_lines wide.md >found
printf '%s\n' 'line 4: 101 columns' >wanted
same 'lines that are too long' found wanted
{ printf '| x |' && printf ' word%.0s' {1..61} && echo ' |' && printf '\n%.0s' {1..500}; } >wordy.md
long_parts wordy.md >found
printf '%s\n' 'line 1: a cell of 61 words' '501 lines' >wanted
same 'cells and pages that are too long' found wanted
