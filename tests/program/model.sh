# The program beside a room of some 600 lines of Python (tests/model), which was written from the
# pages: requests at random, by two seeds that stay and one of this commit, and every case of who
# may remove, of what is passed down, and of what comes of lists and moves in any order.

if ! has python3; then
  skip 'the model' 'python3 is missing'
  return
fi
against() { # NAME LINE ARGUMENT ..
  local name=$1 line=$2
  shift 2
  python3 -B "$here/model/against.py" "$rooms" "$@" >"$work/out" 2>&1
  status=$?
  holds "$name: $(tail -c 1500 "$work/out")" [ "$status" = 0 ]
  grep -qxE -e "$line" "$work/out"
  status=$?
  holds "$name plays all: $(tail -n 1 "$work/out")" [ "$status" = 0 ]
}
commit=$(git -C "$repo" rev-parse HEAD 2>/dev/null)
for seed in first second "${commit:-third}"; do
  against "at random, $seed" '6 rooms, 7200 requests, 0 differ' random "$seed" 6
done
against 'every deletion' 'deletions: 7776 requests, 0 differ' every deletions
against 'every set of flags' 'inheritance: [0-9]+ requests, 0 differ' every inheritance
against 'every order of lists and a move' 'linking: [0-9]+ requests, 0 differ' every linking
against 'the largest document' 'largest: 7 requests, 0 differ' every largest
# What would be a mistake of the program is seen: here the other room makes it.
against 'planted mistakes' '10 mistakes, 0 unseen' planted first
if has mypy && has flake8; then
  (cd "$here/model" && mypy --strict --cache-dir "$work/mypy" ./*.py &&
    flake8 --isolated --max-line-length 100 .) >"$work/out" 2>&1
  status=$?
  holds "its style: $(head -n 5 "$work/out")" [ "$status" = 0 ]
fi
