# Records of audit and alarm entries, with the clock of each connection.

if [ "$loopback" = no ]; then
  skip 'records' 'this machine has no loopback'
  return
fi
open_room F
if start_server F 6; then
  asks 'a document' made PUT /doc/f root hello
  asks 'its dacl' done_reply PUT /dacl/f root 'list:a
D::ANONYMOUS@:r
A::AUTHENTICATED@:r
'
  asks 'its sacl' done_reply PUT /sacl/f root 'list:a
L:F:ANONYMOUS@:r
U:SF:EVERYONE@:r
'
  began=$(date +%s)
  asks 'nobody' "denied /f r 1 '\"D::ANONYMOUS@:r\"'" GET /doc/f -
  asks 'alice' "reply '200 OK' application/octet-stream hello" GET /doc/f alice
  ended=$(date +%s)
  asks 'a path with a comma' made PUT /doc/a,b root x
  server_ends 'the server ends' 0 ''
fi

run audit F
moments=$(tail -n +2 "$work/out" | cut -d, -f1)
for moment in $moments; do
  holds 'the moment of a record' [ "$moment" -ge $((began - 1)) -a "$moment" -le $((ended + 1)) ]
done
# The moments are those of the server's clock. The shell's clock may be a little before or after it.
# All else is compared.
sed 's/^[0-9][0-9]*,/T,/' "$work/out" >records
cat >wanted <<'END'
at,user,path,bits,granted,entry,kind
T,,/f,r,no,1,alarm
T,,/f,r,no,2,audit
T,alice,/f,r,yes,2,audit
END
same alarm-and-audit-records records wanted
set_list F /a,b sacl list:a U:F:EVERYONE@:r
if start_server F 1; then
  asks 'a denied read' "denied /a,b r null null" GET /doc/a,b alice
  server_ends 'the server ends' 0 ''
fi
run audit F
tail -1 "$work/out" | sed 's/^[0-9][0-9]*,/T,/' >records
echo 'T,alice,"/a,b",r,no,1,audit' >wanted
same audit-path-quoted records wanted
gives 'sound' 0 'sound\n' '' verify F
