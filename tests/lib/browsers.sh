# Plays in a browser, behind nginx: what they need, and how one is run.

for python in python3 /usr/bin/python3 ''; do
  [ -z "$python" ] || ! "$python" -c 'import selenium' 2>/dev/null || break
done
lacking=
[ -n "$nginx" ] || lacking='nginx'
has curl || lacking="$lacking curl"
has chromium || has chromium-browser || has google-chrome || lacking="$lacking chromium"
has chromedriver || lacking="$lacking chromedriver"
[ -n "$python" ] || lacking="$lacking python3-selenium"

# The modules by themselves, which plays ask for beside the page.
[ -n "$lacking" ] || "$repo/tools/bundle.py" "$installed/share/rooms/page"

# Runs a play, and counts each check that it prints. A play that ends before its last line has
# failed.
play() { # NAME SCRIPT ARGUMENT ..
  local name=$1 word check why ended=
  shift
  while IFS=$'\t' read -r word check why; do
    case $word in
      pass) pass "$check" ;;
      fail) fail "$check" "$why" ;;
      skip) skip "$check" "$why" ;;
      end) ended=yes ;;
    esac
  done < <(LC_ALL=C.UTF-8 PYTHONDONTWRITEBYTECODE=1 timeout -k 10 1800 \
    "$python" "$here/web/$1" "${@:2}" 2>play.err)
  [ -n "$ended" ] || fail "$name" "it broke off: $(tail -c 600 play.err)"
}
