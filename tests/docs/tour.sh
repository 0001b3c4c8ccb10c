# The tour, and the question of the README, as pasted: after each command stands what the page
# shows.

if [ "$loopback" = no ] || ! has curl; then
  skip 'the tour' 'this machine has no loopback, or curl is missing'
  return
fi
mkdir -p top/crates/rooms/out top/docs rooms
ln -s "$rooms" top/crates/rooms/out/rooms
ln -s "$here/../docs/examples" top/docs/examples

# Runs a script at the top of a repository, at a port of the tests.
paste_script() { # SCRIPT
  port=$((port + 1))
  sed -e "s/8780/$port/g" -e "s/rooms serve office.rooms/& --port $port/" "$1" >pasted.sh
  : >pasted
  (cd top && OUT=$PWD/../pasted TMPDIR=$PWD/../rooms \
    timeout "$patience" bash "$OLDPWD/pasted.sh") </dev/null >pasted 2>&1
  tr -d '\r' <pasted | grep -v '^$' | sed "s/$port/8780/g"
}

from_consoles "$here/../docs/tour.md" tour.sh | grep -v '^$' >wanted
paste_script tour.sh >got
holds 'the tour has commands' [ "$(grep -c '^@' wanted)" -gt 15 ]
same 'the tour' got wanted

# The question of the README, with its answer.
from_consoles "$here/../README.md" readme.sh | grep -v '^$' >wanted
sed -i '1i export PATH="$PWD/crates/rooms/out:$PATH"' readme.sh
paste_script readme.sh >got
holds 'the README has commands' [ "$(grep -c '^@' wanted)" = 2 ]
same 'the README' got wanted
