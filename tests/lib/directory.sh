# A directory: slapd with what a case gives it, at $ldap of 127.0.0.1, and with TLS at $ldaps.

write_slapd() {
  printf 'include /etc/ldap/schema/%s.schema\n' core cosine inetorgperson nis
  printf '%s\n' 'modulepath /usr/lib/ldap' 'moduleload back_mdb' \
    'moduleload memberof' "pidfile $PWD/slapd.pid" "TLSCACertificateFile $PWD/directory-ca.pem" \
    "TLSCertificateFile $PWD/directory.pem" "TLSCertificateKeyFile $PWD/directory.key" \
    'sizelimit size.prtotal=unlimited' 'database mdb' 'maxsize 268435456' \
    'suffix dc=example,dc=net' 'rootdn cn=root,dc=example,dc=net' 'rootpw root-word' \
    "directory $PWD/entries" 'index objectClass,uid,cn,memberOf eq' 'overlay memberof' \
    'memberof-group-oc groupOfNames'
}

entry() { # DN CLASS LINE ..
  printf 'dn: %s\nobjectClass: %s\n' "$1" "$2"
  printf '%s\n' "${@:3}" ''
}
person() { # NAME PASSWORD [LINE ..]
  entry "uid=$1,ou=people,dc=example,dc=net" inetOrgPerson "uid: $1" "cn: $1" 'sn: x' \
    "userPassword: $2" "${@:3}"
}
group() { # NAME MEMBER ..: a name of a person, or the DN of a group
  local one lines=()
  for one in "${@:2}"; do
    case $one in *=*) ;; *) one=uid=$one,ou=people,dc=example,dc=net ;; esac
    lines+=("member: $one")
  done
  entry "cn=$1,ou=groups,dc=example,dc=net" groupOfNames "cn: $1" "${lines[@]}"
}
group_dn() { printf 'cn=%s,ou=groups,dc=example,dc=net' "$1"; } # NAME

# A certificate for 127.0.0.1, by an authority of its own.
certify_directory() {
  openssl req -x509 -newkey ec -pkeyopt ec_paramgen_curve:P-256 -noenc -days 9 -subj /CN=authority \
    -keyout authority.key -out directory-ca.pem 2>/dev/null &&
    openssl req -newkey ec -pkeyopt ec_paramgen_curve:P-256 -noenc -subj /CN=directory \
      -keyout directory.key -out directory.csr 2>/dev/null &&
    openssl x509 -req -in directory.csr -days 9 -CA directory-ca.pem -CAkey authority.key \
      -CAcreateserial -extfile <(echo subjectAltName=IP:127.0.0.1) -out directory.pem 2>/dev/null
}

# Entries on standard input are there from the start. Where it can't, `why` says why.
load_directory() {
  { has slapd && has slapadd && has ldapsearch && has openssl; } || {
    why='no slapd, ldap-utils or openssl'
    return 1
  }
  certify_directory || { why='no certificate'; return 1; }
  mkdir entries
  write_slapd >slapd.conf
  { entry dc=example,dc=net dcObject 'objectClass: organization' 'dc: example' 'o: office'
    entry ou=people,dc=example,dc=net organizationalUnit 'ou: people'
    entry ou=groups,dc=example,dc=net organizationalUnit 'ou: groups'
    cat; } >entries.ldif
  slapadd -q -f slapd.conf -l entries.ldif >said 2>&1 || {
    why="slapadd fails: $(head -c 300 said)"
    return 1
  }
}
start_directory() {
  local turn began
  for turn in {1..20}; do
    [ -n "${ldap-}" ] || ldap=$((port + 20 + 2 * turn)) ldaps=$((port + 21 + 2 * turn))
    rm -f slapd.pid
    slapd -d 0 -f slapd.conf -h "ldap://127.0.0.1:$ldap/ ldaps://127.0.0.1:$ldaps/" \
      >slapd.out 2>&1 &
    slapd=$!
    others+=("$slapd")
    began=$SECONDS
    until [ -s slapd.pid ] || ! kill -0 "$slapd" 2>/dev/null ||
      [ $((SECONDS - began)) -ge "$patience" ]; do
      sleep 0.05
    done
    until ldapwhoami -x -H "ldap://127.0.0.1:$ldap" >said 2>&1 || ! kill -0 "$slapd" 2>/dev/null ||
      [ $((SECONDS - began)) -ge "$patience" ]; do sleep 0.05; done
    ! kill -0 "$slapd" 2>/dev/null || return 0
    ldap=
  done
  why="slapd doesn't start: $(head -c 300 slapd.out)"
  return 1
}
stop_directory() {
  kill -CONT "$slapd" 2>/dev/null
  kill "$slapd" 2>/dev/null
  wait "$slapd" 2>/dev/null
}
as_root_of_directory() {
  "$1" -x -H "ldap://127.0.0.1:$ldap" -D cn=root,dc=example,dc=net -w root-word "${@:2}" >said 2>&1
}

# Passwords that it checks: rooms-admin below ./machine, an Apache at $apache, and the front end of
# front.sh in this folder.
apache2=$(command -v apache2 || ls /usr/sbin/apache2 2>/dev/null)
modules=/usr/lib/apache2/modules

# The user of Apache, where the machine has it.
checker=rooms-passwords
getent passwd "$checker" >/dev/null || checker=nobody
by_checker() {
  sed -e "s/^User rooms-passwords\$/User $checker/" \
    -e "s/^Group rooms-passwords\$/Group $(id -gn "$checker")/" "$@"
}
good() {
  printf '%s\n' '# where it is' "URI=ldap://127.0.0.1:${ldap-389}" \
    'BASE=ou=people,dc=example,dc=net' 'BIND=uid=reader,ou=people,dc=example,dc=net' \
    "SECRET=$PWD/secret" 'USERS=(&(objectClass=person)(!(employeeType=gone)))'
}
start_apache() { # FILE-OF-SETTINGS
  local began
  admin setup --directory "$1"
  # Who may enter a further room, as directory.md says it.
  mkdir -p directory.d
  awk '/^cat >.*invoices.apache/ { on = 1; next } /^END/ { on = 0 } on' \
    "$here/../docs/directory.md" >directory.d/invoices.apache
  sed -e "s#/etc/rooms/directory.d#$PWD/directory.d#" \
    -e "s#/run/rooms-directory#$PWD/run#; s#127.0.0.1:8778#127.0.0.1:$apache#" \
    -e "s#^ErrorLog .*#ErrorLog $PWD/apache.log#" \
    machine/etc/rooms/directory.apache | by_checker >apache.conf
  mkdir -p run
  chmod 755 "$work" . machine
  rm -f run/pid
  # As its unit has it.
  mapfile -t -d ' ' surroundings < <(sed -n 's/^Environment=//p' \
    "$repo/deploy/systemd/rooms-passwords.service" | tr '\n' ' ')
  env "${surroundings[@]}" "$apache2" -f "$PWD/apache.conf" -DFOREGROUND >apache.out 2>&1 &
  httpd=$!
  others+=("$httpd")
  began=$SECONDS
  until [ "$(curl -s -o /dev/null \
    -w '%{http_code}' "http://127.0.0.1:$apache/password/rooms")" != 000 ] ||
    ! kill -0 "$httpd" 2>/dev/null || [ $((SECONDS - began)) -ge "$patience" ]; do sleep 0.1; done
  kill -0 "$httpd" 2>/dev/null
}
ask_directory() {
  take_front
  reload_front
}
# Apache answers only who sends what nginx sends.
key_of_nginx() {
  sed -n 's/^proxy_set_header \(Rooms-Key\) \(.*\);$/\1: \2/p' machine/etc/rooms/passwords.key
}
answers() {
  [ "$(curl -s -m 20 -o "$work/body" -w '%{http_code}' ${2:+-u "$2"} "$base$3")" = "$1" ]
}
awaits() { # SECONDS COMMAND ..: until it succeeds
  local began=$SECONDS most=$1
  shift
  until "$@" || [ $((SECONDS - began)) -ge "$most" ]; do sleep 0.3; done
  "$@"
}
