# Words that are no command, help, and the order in which words come before everything else.

refuses_words 'no subcommand'
refuses_words 'unknown subcommand' paint
refuses_words 'help is no subcommand' help
refuses_words 'check takes nothing' check more
refuses_words 'would takes nothing' would more
refuses_words 'init wants three' init F root
refuses_words 'init takes three' init F root staff more
refuses_words 'serve wants a file' serve
refuses_words 'groups wants a file' groups
refuses_words 'a pair has two names' groups F --join sales
refuses_words 'reset wants a list' reset F /
refuses_words 'dump wants a file' dump
refuses_words 'get wants a path' get F
refuses_words 'review wants a path' review F
refuses_words 'review takes two' review F / more
refuses_words 'unknown option' serve F --host x
holds 'nothing was made' is_missing F

# The value of an option, and the list's name, are words too.
for words in '--port 0' '--port 65536' '--port x' '--port -1' '--count 0' '--count 1000001' \
  '--count x' '--port' '--count 1 --count 2' \
  '--socket' '--socket a --socket b' '--socket a --port 8780' '--port 8781 --socket a'; do
  run serve missing $words
  holds "serve $words" [ "$status" = 2 ]
  holds "serve $words (standard output)" [ ! -s "$work/out" ]
  holds "serve $words (standard error)" [ -s "$work/err" ]
done
gives 'a port and a socket' 2 \
  '' "error: the argument '--port <port>' cannot be used with '--socket <socket>'\n
Usage: rooms serve [OPTIONS] <FILE>\n
For more information, try '--help'.\n" serve missing --socket a --port 8780
holds 'no socket was made' is_missing a
gives 'the default of the port is no port that was given' 3 '' 'fault: file\n' \
  serve missing --socket a
run reset missing / xacl
holds 'reset of no such list' [ "$status" = 2 ]
holds 'reset of no such list (standard output)' [ ! -s "$work/out" ]

run --help
holds 'help' [ "$status" = 2 ]
holds 'help (standard output)' [ ! -s "$work/out" ]
cp "$work/err" help
for name in check would init serve groups groups-out audit dump get review reset verify migrate; do
  holds "help names $name" grep -q "^  $name " help
  run "$name" --help
  holds "help of $name" [ "$status" = 2 ]
  holds "help of $name (standard output)" [ ! -s "$work/out" ]
  holds "help of $name (usage)" grep -q "^Usage: $(basename "$rooms") $name" "$work/err"
done
gives 'version' 2 '' 'rooms 1.1.0\n' --version
gives 'an argument that is no text' 2 '' 'error: an argument is not UTF-8\n' dump $'F\xff'
