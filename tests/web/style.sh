# The modules of web: types as far as they can be told, by tsc, and style by eslint, of Debian.

says_nothing() { # NAME COMMAND ..
  local name=$1 said
  shift
  said=$("$@" 2>&1)
  if [ -z "$said" ]; then pass; else fail "$name" "${said:0:1500}"; fi
}

# Acts have the names of the requests that they send.
twice() {
  find "$repo/web" -name '*.js' ! -path '*/folder/actions.js' -exec cat {} + |
    sed -nE 's/^export (async )?(const|function|class) ([A-Za-z_]+).*/\3/p' | sort | uniq -d
}
says_nothing 'exports of one name' twice

if has tsc; then
  says_nothing 'types of web' tsc -p "$here/web/tsconfig.json"
else
  skip 'types of web' 'missing: node-typescript'
fi
if has eslint; then
  # Debian's modules, for a node of another origin too.
  says_nothing 'style of web' env -C "$repo" NODE_PATH=/usr/share/nodejs eslint --no-eslintrc \
    -f unix -c "$here/web/eslint.json" web
else
  skip 'style of web' 'missing: eslint'
fi
