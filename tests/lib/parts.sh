# Which parts there are, and which a file of the repository has. `here` is the folder of the tests.

# Prints all of them, as program/groups.
all_parts() {
  (cd "$here" && ls {docs,program,admin,nginx,machine,services,web}/*.sh) | sed 's/[.]sh$//'
}
# Prints the parts that a file of the repository has.
parts_for() { # FILE
  local file pattern named
  file=$(realpath --relative-to "$here/.." -- "$1")
  while IFS=: read -r pattern named; do
    # shellcheck disable=SC2053
    [[ $pattern = \#* || $file != $pattern ]] || { echo "$named"; return; }
  done <"$here/parts.txt"
}
