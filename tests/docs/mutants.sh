# What tools/mutants says of mutants that can't be tried as they are. Nothing is proved here.

if ! has rt || ! has python3 || ! has git; then
  skip 'mutants' 'rt, python3 or git is missing'
  return
fi

mkdir -p house/crates/low/src house/crates/low/wrong
cp -r "$here/../tools" house/
rm -f house/tools/mutants.passed
git init -q house
echo 'low:' >house/crates.txt
cat >house/crates/low/src/lib.rt <<'END'
#![tactic(auto)]
ghost use Rattle.std.specs.Prelude.{◌≡◌};

const LIMIT: u8 = 7;

pub fn limit() -> u8
    ensures { result ≡ 7 }
{
    LIMIT
}

pub struct Pair;

impl Pair {
    pub fn first(x: u8, _y: u8) -> u8
        ensures { result ≡ x }
    {
        x
    }
}

pub fn second(_x: u8, y: u8) -> u8
    ensures { result ≡ y }
{
    y
}
END

# A mutant of the crate, as a file.
mutant() { # NAME OLD NEW [FILE]
  printf 'file: %s\nold: %s\nnew: %s\n' "${4:-src/lib.rt}" "$2" "$3" \
    >"house/crates/low/wrong/$1.edit"
}

# What is said of the mutants that are there, and the status.
lists() { # NAME STATUS LINE ..
  local name=$1 wanted=$2 status
  shift 2
  house/tools/mutants low --list >said 2>&1
  status=$?
  holds "$name (status)" [ "$status" = "$wanted" ]
  for line; do holds "$name ($line)" grep -qxF "$line" said; done
  rm -f house/crates/low/wrong/*
}

mutant often u8 u16
mutant turns_second '{ result ≡ y }' '{ result ≡ _x }'
lists 'a text that stands often' 1 \
  "mutants: low/often: BAD EDIT: an 'old:' text is in src/lib.rt 8 times, and not once" \
  'low 1: turns_second' '0 passed, 1 failed'

mutant gone '    z' '    x'
lists 'a text that is not there' 1 \
  "mutants: low/gone: BAD EDIT: an 'old:' text is in src/lib.rt 0 times, and not once" \
  '0 passed, 1 failed'

mutant no_file 'x' 'y' src/other.rt
lists 'a file that is not there' 1 'mutants: low/no_file: BAD EDIT: there is no file src/other.rt' \
  '0 passed, 1 failed'

mutant one 'pub fn second(_x: u8, y: u8)' 'pub fn second(y: u8, _x: u8)'
mutant two '{ result ≡ y }' '{ result ≡ _x }'
mutant three '{ result ≡ x }' '{ result ≡ _y }'
lists 'two of one function go into two checks' 0 'low 1: one three' 'low 2: two' \
  '0 passed, 0 failed'

mutant constant 'LIMIT: u8 = 7' 'LIMIT: u8 = 8'
mutant other '{ result ≡ x }' '{ result ≡ _y }'
lists 'a constant stands in no function' 0 'low 1: constant' 'low 2: other'

# Once the first is applied, the second's text would stand twice: both places are sought in the
# unchanged text.
mutant makes_it_twice '{ result ≡ x }' '{ result ≡ y }'
mutant stands_once '{ result ≡ y }' '{ result ≡ _x }'
lists 'a text that another makes ambiguous' 0 'low 1: makes_it_twice stands_once'

printf 'new: x\n' >house/crates/low/wrong/headless.edit
lists 'a line without what goes before it' 1 \
  "mutants: low/headless: BAD EDIT: a 'new:' line stands before any 'file:' or 'old:' line"

house/tools/mutants high --list >said 2>&1
holds 'no such crate (status)' [ $? = 1 ]
holds 'no such crate' grep -qF 'neither an option nor a crate with mutants: high' said

# What an expression says, among the names of tools/mutants, with `rt` and all crates at hand.
asked() { # EXPRESSION
  (cd house && python3 - "$1" <<'END'
import importlib.machinery, importlib.util, sys
sys.path.insert(0, "tools")
loader = importlib.machinery.SourceFileLoader("mutants", "tools/mutants")
wrong = importlib.util.module_from_spec(importlib.util.spec_from_loader("mutants", loader))
loader.exec_module(wrong)
rt = wrong.load_rt("test")
crates = wrong.crates_in_order(rt)
print(*eval(sys.argv[1], vars(wrong) | globals()))
END
  )
}

# The check names a function after the file that declares its type, or that has its trait's impl.
printf 'impl Pair {\n    pub fn other() {}\n}\n\nimpl Model for Pair {\n    fn third() {}\n}\n' \
  >house/crates/low/src/other.rt
mutant in_type 'other() {}' 'other() {;}' src/other.rt
mutant in_trait 'third() {}' 'third() {;}' src/other.rt
found=$(asked 'sorted(f for it in edits_in(crates[0]) for f in Mutant(crates[0], it).functions)')
holds "names of functions ($found)" \
  [ "$found" = 'low::Pair::other low::other::PairModel::third' ]
rm house/crates/low/wrong/* house/crates/low/src/other.rt

# What the files of a crate say decides whether it has changed, and not their comments.
digest() { asked '[digest_of(rt, it) for it in crates]'; }
before=$(digest)
holds 'a sum of a crate' [ -n "$before" ]
printf '    // A comment.\n/// And another.\n' >>house/crates/low/src/lib.rt
holds 'comments change no sum' [ "$(digest)" = "$before" ]
printf 'pub fn third() {}\n' >>house/crates/low/src/lib.rt
holds 'a function changes it' [ "$(digest)" != "$before" ]
mkdir -p house/crates/low/specs
printf '%s\n' '-- A comment.' >house/crates/low/specs/Lib.antt
before=$(digest)
printf '%s\n' '-- Another one.' '  -- And one more.' >house/crates/low/specs/Lib.antt
holds 'nor do those of definitions' [ "$(digest)" = "$before" ]
