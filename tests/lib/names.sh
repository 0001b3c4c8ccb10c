# Odd names that a room can have, one in each line, since no name has a line break.

long() { printf "%$1s" '' | sed "s/ /$2/g"; } # COUNT TEXT
in_shells() {
  printf '%s\n' plan ' plan' 'plan ' '  plan' 'plan  ' ' plan ' ' ' '  ' 'pl an' 'pl  an' PLAN Plan
  printf '%s\n' - -- --- -rf \
    --no-lists '-x y' '- ' ' -' ... '. ' ' .' '.. ' .acl plan.acl .hidden ..x
  printf '%s\n' % %% %20 %2F %2f%00 %s%n 100%25 %zz '?' '#' '# x' '?x=1' a+b 'a&b=c;d' : C:
  # shellcheck disable=SC2016
  printf '%s\n' '$HOME' '$(touch spoilt)' '`touch spoilt`' '; touch spoilt' '&' '|' '*' '[a-z]' \
    '{a,b}' '[1-9]' '~' '!' '!!' '<' '>' , ', ' ' ,' @plan =1+1
}
in_quotes() {
  # shellcheck disable=SC1003
  printf '%s\n' "'" "''" '"' '""' '`' "'\"'" '\' '\\' '\"' '\\"' '\n' '\0' 'a\' \
    '"},{"kind":"folder","name":"x' '"}]' '[]' '[{"kind":"'
}
# An accent in two ways, blanks and line ends beyond ASCII, a command to a terminal, signs without a
# width, four that turn the direction of writing, and longer letters.
beyond_ascii() {
  printf '\303\251\n' && printf 'e\314\201\n' &&
    printf '\302\240\nplan\302\240\n\302\205\n\342\200\250\n\343\200\200plan\n'
  printf '\302\2335m\n\342\200\213\nplan\342\200\213\n\357\273\277\n\302\255\n'
  printf '\342\200\256gnp.xslx\n\327\251\327\234\327\225\327\235\n'
  printf '\331\205\330\261\330\255\330\250\330\247 1\n'
  printf '\360\237\223\204\na\314\200\314\201\314\202\n\344\270\255\346\226\207\n'
}
at_the_limit() {
  printf '%s\n' "$(long 255 a)" "$(long 254 b) " " $(long 254 c)" "$(long 255 ' ')" \
    "$(long 127 "$(printf '\303\244')")d" \
    "$(long 63 "$(printf '\360\237\223\204')")" "$(long 251 e).acl" "$(long 247 f).txt"
}
# Each sign of a keyboard, at each place of a name.
every_sign() {
  local code sign
  for code in {32..46} {48..126}; do
    printf -v sign '\\x%x' "$code"
    printf -v sign %b "$sign"
    printf '%s\n' "_$sign" "${sign}_" "_${sign}_" "$sign$sign" "$sign "
  done
}

special_names() { in_shells && in_quotes && beyond_ascii && at_the_limit; }
