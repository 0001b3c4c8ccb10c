# What plays access lists: it takes them out of the pages, sends requests of many users over one
# connection, and compares the answers with what tables say. A case that uses it has the file
# groups.csv, and in `users` who plays.

serial=0
closed=$(printf '%s\n' list:p "A::alice:$ALL")
members=$'\n'$(<groups.csv)$'\n'
in_group() { [[ $members = *$'\n'"$1,$2"$'\n'* ]]; } # GROUP USER

# From a page: what is pasted to set a list, as N.sh, where what rooms-admin does is done by the
# program alone; the list alone, as N.txt; its rows of a table, as N.table, which are those of the
# table below it, or those of its folder and of each folder in a table of all lists; and a line 'N
# PATH dacl' or 'N PATH sacl' each, which is printed.
take_lists() { # PAGE FOLDER
  mkdir -p "$2"
  awk -v into="$2" \
    -v header="| who | read | add | change | remove own | remove others' | manage |" '
    /^(\$ )?rooms reset office\.rooms [^ ]+ [ds]acl <<END$/ {
      sub(/^\$ /, ""); file = into "/" ++n; pasted = 1; print n, $4, $5; print >(file ".sh")
      place[n] = $5 == "dacl" ? $4 : ""; next
    }
    /^rooms-admin list set (--sacl )?[^ ]+ <<END$/ {
      which = $4 == "--sacl" ? "sacl" : "dacl"; path = $(NF - 1); file = into "/" ++n; pasted = 1
      print n, path, which; print "rooms reset office.rooms", path, which, "<<END" >(file ".sh")
      place[n] = which == "dacl" ? path : ""; next
    }
    pasted { print >(file ".sh"); if ($0 == "END") pasted = 0; else print >(file ".txt"); next }
    $0 == "| " substr(header, 7) { table = 1; next }
    $0 == "| folder " header { table = 2; next }
    table && /^\|-/ { next }
    table && /^\|/ {
      gsub(/^\| *| *\|$/, ""); gsub(/ *\| */, "|")
      if (table == 1) print >(file ".table"); else row[++rows] = $0
      next
    }
    { table = 0 }
    END {
      for (list = 1; list <= n; list++) for (turn = 1; turn <= 2; turn++)
      for (each = 1; each <= rows; each++) {
        of = row[each]; sub(/\|.*/, "", of); gsub(/`/, "", of)
        said = row[each]; sub(/^[^|]*\|/, "", said)
        named = index(", " of ", ", ", " place[list] ", ")
        if (named) here[list] = 1
        if (turn == 2 && here[list] && (named || of == "each")) print said >(into "/" list ".table")
      }
    }' "$1"
}

# Pastes lines of a page into a shell that finds the program as `rooms`.
paste_lines() { # NAME FILE STATUS OUT
  PATH=$PWD/bin:$PATH bash "$2" >"$work/out" 2>"$work/err"
  status=$?
  wants "$1" "$3" "$4" ''
}

number_of() { # PATH [dacl|sacl]
  awk -v path="$1" -v which="${2-dacl}" '$2 == path && $3 == which { print $1 }' index
}
list_of() { cat "lists/$(number_of "$@").txt"; }

# The row of a user: the first one that means the user at this place.
row_of() { # USER PLACE TABLE
  local row label group
  while IFS= read -r row; do
    label=${row%%|*}
    if [[ $label = *', in folders below' ]]; then
      [[ $2 = */below ]] || continue
      label=${label%, in folders below}
    fi
    [ "$label" = "$1" ] || [ "$label" = 'anyone else' ] || {
      for group in ${label/ who are / }; do in_group "$group" "$1" || continue 2; done
    }
    echo "$row"
    return
  done <"$3"
}

# One request of the user at the place, whose answer counts for a column. CLASS is d for documents,
# f for folders, n for the names in a folder.
tries() { # COLUMN CLASS METHOD TARGET [BODY]
  echo "$place|$user|$1|$2|$3 $4" >&4
  message "$3" "$4" "$user" "${5-}"
}

# What has to be answered so: a status, or 2 for any that begins so, or ? for any at all.
expects() { # STATUS METHOD TARGET USER [BODY]
  echo "|$4|$1||$2 $3" >&4
  message "$2" "$3" "$4" "${5-}"
}
prepares() { expects 2 "$1" "$2" alice "${3-}"; } # METHOD TARGET [BODY]
belongs_to() { prepares PUT "/attr$1" "{\"owner\":\"$2\",\"group\":\"staff\"}"; } # PATH USER

# The names of three things of which each is gone where the cell grants it, and of one that stays
# where it doesn't.
three() { # CELL NAME OTHER
  if [ "$1" = no ]; then names=("$3" "$3" "$3"); else names=("$2.1" "$2.2" "$2.3"); fi
}

# Removing, renaming and moving away.
tries_removing() { # COLUMN CLASS
  serial=$((serial + 1))
  tries "$1" "$2" DELETE "/object$p/${names[0]}"
  tries "$1" "$2" POST "/move$p/${names[1]}" "{\"to\":\"$p/${names[1]}.renamed\"}"
  tries "$1" "$2" POST "/move$p/${names[2]}" "{\"to\":\"/elsewhere/$serial\"}"
}

# What others have at a place: a document and a folder of pat, and a document and a folder that only
# alice may read. In a folder that is to be removed there is nothing.
furnish() { # ENDING [empty]
  prepares PUT "/doc$p/paper$1" x
  belongs_to "$p/paper$1" pat
  prepares POST "/folder$p/shelf$1"
  belongs_to "$p/shelf$1" pat
  prepares PUT "/doc$p/letter$1" x
  prepares PUT "/dacl$p/letter$1" "$closed"
  prepares POST "/folder$p/vault$1"
  [ $# = 2 ] || prepares PUT "/doc$p/vault$1/salaries" x
  prepares PUT "/dacl$p/vault$1" "$private"
}

# Adding, by moving something here and by making it. What the user has made is the user's own.
plays_adding() {
  local document=/elsewhere/sample folder=/elsewhere/tray
  serial=$((serial + 1))
  if [ "$add" != no ]; then
    document=/elsewhere/sample.$serial
    prepares PUT "/doc$document" x
  fi
  if [ "$add" = yes ]; then
    folder=/elsewhere/tray.$serial
    prepares POST "/folder$folder"
  fi
  tries add d POST "/move$document" "{\"to\":\"$p/moved.$name\"}"
  tries add f POST "/move$folder" "{\"to\":\"$p/moved.folder.$name\"}"
  if [ "$add" = no ]; then tries add d PUT "/doc$p/new.$name" x; fi
  if [ "$add" != yes ]; then tries add f POST "/folder$p/new.folder.$name"; fi
}

# The user's own documents and folders, made by the user; where that isn't granted, alice gives some
# to the user.
makes_own() { # NUMBER
  if [ "$add" != no ]; then
    tries add d PUT "/doc$p/mine.$name.$1" x
  else
    prepares PUT "/doc$p/mine.$name.$1" x
    belongs_to "$p/mine.$name.$1" "$user"
  fi
  if [ "$add" = yes ]; then
    tries add f POST "/folder$p/mine.folder.$name.$1"
  else
    prepares POST "/folder$p/mine.folder.$name.$1"
    belongs_to "$p/mine.folder.$name.$1" "$user"
  fi
}

plays_own() {
  local number
  makes_own 1
  [ "$own" = no ] || for number in 2 3; do makes_own "$number"; done
  tries read d GET "/doc$p/mine.$name.1"
  tries change d PUT "/doc$p/mine.$name.1" y
  tries manage d PUT "/dacl$p/mine.$name.1" list:a
  tries manage d PUT "/attr$p/mine.$name.1" "{\"owner\":\"$user\",\"group\":\"sales\"}"
  tries manage f PUT "/dacl$p/mine.folder.$name.1" list:a
  three "$own" "mine.$name" "mine.$name.1"
  tries_removing 'remove own' d
  three "${own/documents/no}" "mine.folder.$name" "mine.folder.$name.1"
  tries_removing 'remove own' f
}

plays_with_others() {
  if [ "$others" != no ]; then
    furnish ".$name.1" empty
    furnish ".$name.2"
    furnish ".$name.3"
  fi
  three "$others" "paper.$name" paper
  tries_removing "remove others'" d
  three "$others" "letter.$name" letter
  tries_removing "remove others'" d
  three "$others" "shelf.$name" shelf
  tries_removing "remove others'" f
  three "$others" "vault.$name" vault
  tries_removing "remove others'" f
}

# Lists and owners of a document and of the folder itself; and removing, renaming and moving the
# folder itself.
plays_managing() { # LIST
  tries manage d PUT "/dacl$p/paper" list:a
  tries manage d PUT "/sacl$p/paper" list:a
  tries manage d PUT "/attr$p/paper" '{"owner":"pat","group":"staff"}'
  tries manage f PUT "/dacl${p:-/}" "$1"
  tries manage f PUT "/sacl${p:-/}" list:a
  tries manage f PUT "/attr${p:-/}" '{"owner":"alice","group":"staff"}'
  if [[ $place = / || $place = */below ]]; then return; fi
  tries manage f POST "/move$p" "{\"to\":\"$p.renamed\"}"
  expects '?' POST "/move$p.renamed" alice "{\"to\":\"$p\"}"
  tries manage f POST "/move$p" '{"to":"/elsewhere/taken"}'
  expects '?' POST /move/elsewhere/taken alice "{\"to\":\"$p\"}"
  tries manage f DELETE "/object$p"
}

# A user tries everything at a place.
plays() { # CELLS LIST
  local name=${user/#-/nobody} read add change own others manage
  IFS='|' read -r read add change own others manage <<<"$1"
  echo "$place|$user|read|$read|add|$add|change|$change|remove own|$own|remove others'|$others|manage|$manage" >&5
  plays_adding
  tries read n GET "/folder${p:-/}"
  tries read d GET "/doc$p/paper"
  tries read d GET "/attr$p/paper"
  tries read d GET "/dacl$p/paper"
  tries change d PUT "/doc$p/paper" y
  tries change d POST "/doc$p/paper" z
  # Nobody without a name owns anything.
  if [ "$user" = - ]; then three no '' paper && tries_removing 'remove own' d; else plays_own; fi
  plays_with_others
  plays_managing "$2"
}

# Compares what was answered with what was expected, and with the cells that were said. Prints a
# line for each difference, and last the number of all that agree. Only who may remove a folder is
# told that it isn't empty.
judge() { # NAME
  paste -d'|' asked "$work/statuses" | awk -F'|' '
    FILENAME == "-" && $1 == "" {
      if ($3 == "?" || index($6, $3) == 1) agree++; else print $5 " by " $2 ": " $6 ", wanted " $3
      next
    }
    FILENAME == "-" {
      cell = $1 "|" $2 "|" $3
      sign = $6 == 403 ? "-" : $6 ~ /^20[014]$/ || $6 == 409 && $5 ~ /^DELETE/ ? "+" : "?"
      got[cell] = got[cell] $4 sign
      tried[cell] = tried[cell] "; " $5 " " $6
      next
    }
    function verdict(answers) {
      if (answers ~ /\?/ || answers == "") return "something else"
      if (answers !~ /-/) return "yes"
      if (answers !~ /\+/) return "no"
      if (answers !~ /n-|d\+|f/) return "names"
      if (answers !~ /d-|f\+|n/) return "documents"
      return "partly"
    }
    {
      for (i = 3; i < NF; i += 2) {
        cell = $1 "|" $2 "|" $i; is = verdict(got[cell])
        if (is == $(i + 1)) agree++
        else print $2 " at " $1 ", " $i ": the page says " $(i + 1) ", the room answers " is \
          substr(tried[cell], 2)
      }
    }
    END { print agree + 0 }' - said >judged
  passes "$1" "$(tail -n 1 judged)"
  sed '$d' judged >differences
  # What went with one mistake is missing in many a later answer.
  while IFS= read -r line; do fail "$1" "$line"; done < <(head -n 10 differences)
  [ "$(wc -l <differences)" -le 10 ] ||
    fail "$1" "and $(tail -n +11 differences | wc -l) more differences"
}

# Everybody plays at a place by a table; in the folder below it, one user of each row does.
play_table() { # NAME TABLE LIST PLACE ..
  local name=$1 table=$2 list=$3 row played
  shift 3
  for place in "$@"; do
    p=${place%/}
    played=$'\n'
    furnish ''
    for user in $users; do
      row=$(row_of "$user" "$place" "$table")
      [[ $place = */below && $played = *$'\n'"$row"$'\n'* ]] || plays "${row#*|}" "$list"
      played+=$row$'\n'
    done
    list=list:a
  done >"$work/sent" 4>asked 5>said
  converse
  judge "$name"
}

# The requests of a function are answered as it expects.
play() { # NAME FUNCTION
  : >said
  "$2" >"$work/sent" 4>asked
  converse
  judge "$1"
}
