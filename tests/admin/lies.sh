# A directory that was taken over: whatever it answers ends, takes no memory, and is told.

. "$here/lib/directory.sh"
if ! /usr/bin/python3 -c 'import ldap' 2>/dev/null || ! has openssl || [ "$loopback" = no ]; then
  skip 'a directory that lies' 'no loopback, or python3-ldap or openssl is missing'
  return
fi
certify_directory
CERTIFICATE=$PWD/directory.pem KEY=$PWD/directory.key CA=$PWD/directory-ca.pem \
  PYTHONPATH=$here/admin /usr/bin/python3 -B -m unittest test_lies >"$work/out" 2>&1
status=$?
holds "a directory that lies: $(tail -n 20 "$work/out")" [ "$status" = 0 ]
