# A search in texts: its types and style; how texts are read, kept and compared; what is answered
# over a room in memory, and what never is.

if ! has python3; then
  skip 'a search in texts' 'python3 is missing'
  return
fi
services=$repo/services
printf '%s\n' '[mypy]' 'strict = True' "cache_dir = $PWD/mypy" >mypy.ini
if has mypy; then
  MYPYPATH=$services:$repo/admin:$here/services mypy --config-file mypy.ini \
    "$services"/rooms_services/{document_texts,door/search} \
    "$here"/services/{papers,searching,searched,hostile_papers}.py \
    "$here"/services/test_{texts,store,search}.py >"$work/out" 2>&1
  status=$?
  holds "mypy --strict: $(tail -n 5 "$work/out")" [ "$status" = 0 ]
else
  skip 'types of a search' 'mypy is missing'
fi
if has flake8; then
  flake8 --isolated --max-line-length 100 "$services"/rooms_services/{document_texts,door/search} \
    >"$work/out" 2>&1
  status=$?
  holds "flake8: $(head -n 5 "$work/out")" [ "$status" = 0 ]
else
  skip 'style of a search' 'flake8 is missing'
fi
has pdftotext || skip 'texts of PDF' 'pdftotext is missing'
has tesseract || skip 'texts of scans' 'tesseract is missing'
for suite in test_texts test_store test_search test_search_large; do
  (cd "$here/services" &&
    PYTHONPATH=$services:$repo/admin python3 -B -m unittest "$suite") >"$work/out" 2>&1
  status=$?
  holds "$suite: $(tail -n 20 "$work/out")" [ "$status" = 0 ]
done
# Hostile documents, each by a process under the limits of the unit.
if PYTHONPATH=$services:$repo/admin python3 -B "$here/services/hostile_papers.py" \
  "$repo/deploy/rooms-service" >"$work/out" 2>&1; then
  passes 'hostile documents' "$(grep -c '' "$work/out")"
else
  fail 'hostile documents' "$(grep -v ' s$' "$work/out"; grep WRONG "$work/out")"
fi
# Over the program.
searched() { # NAME WHAT COUNT
  if PYTHONPATH=$services:$repo/admin python3 -B "$here/services/searched.py" "$rooms" "$PWD/$2" \
    "$2" "$3" >"$work/out" 2>&1; then
    passes "$1" "$(grep -c '' "$work/out")"
  else
    fail "$1" "$(tail -n 12 "$work/out")"
  fi
}
searched 'two rooms that differ behind barred folders' pairs 60
searched 'against what each user finds by reading' grep 120
