# Sessions by OpenID Connect, by the blocks of directory.md: a small provider, and Apache. The front
# end of front.sh has TLS, $base is its site, and `reach` leads there.

pasted() { # TEXT-IN-THE-BLOCK: a block of the page, in this folder
  block docs/directory.md "$1" |
    sed -e "s#/etc/rooms/\(office.conf\|passwords.key\)#$PWD/machine&#g" \
      -e "s# /etc/\(nginx\|rooms\|systemd/system\)/# $PWD/#g" \
      -e "s#>/etc/\(rooms\|systemd/system\)/#>$PWD/#g; s#127.0.0.1:8777#127.0.0.1:$apache#" \
      -e "s#rooms-admin set #$installed/sbin/&--destdir $PWD/machine #" \
      -e "s#rooms-admin setup#$installed/sbin/& --destdir $PWD/machine#" \
      -e '/^apt-get /d; /^systemctl /d; /^nginx -t/d' >block
  [ -s block ] || echo "echo no block with: $1 >&2; exit 1" >block
  bash -eu block >"$work/out" 2>"$work/err" </dev/null ||
    fail "the block with $1" "$(head -c 400 "$work/out" "$work/err")"
}

# The provider at $provider signs in whoever the claims say.
says_claims() { printf '{"sub": "1", %s}\n' "$1" >claims; } # LINE
make_provider() {
  provider=$((port + 6))
  openssl genrsa -out provider.key 2048 2>/dev/null
}
start_provider() { # [KEY-THAT-SIGNS]
  local began=$SECONDS
  python3 "$here/lib/provider.py" "$provider" provider.key claims "$@" >provider.out 2>&1 &
  idp=$!
  others+=("$idp")
  until curl -s -o "$work/body" "http://127.0.0.1:$provider/keys" || ! kill -0 "$idp" 2>/dev/null ||
    [ $((SECONDS - began)) -ge "$patience" ]; do
    sleep 0.1
  done
  kill -0 "$idp" 2>/dev/null
}

# Apache as the page has it, but for ports, folders and TLS.
write_sessions() {
  pasted OIDCProviderMetadataURL
  sed -i -e "s#/run/rooms-session#$PWD/run#; s#^ErrorLog .*#ErrorLog $PWD/apache.log#" \
    -e "s#https://id.example.net#http://127.0.0.1:$provider#" \
    -e "s#https://rooms.example#$base#; s#/usr/share/rooms/signed-in#$repo/deploy/signed-in#" \
    session.apache
  by_checker -i session.apache
  cp session.apache machine/etc/rooms/
  mkdir -p run
}
start_sessions() {
  local began=$SECONDS
  rm -f run/pid
  "$apache2" -f "$PWD/session.apache" -DFOREGROUND >apache.out 2>&1 &
  httpd=$!
  others+=("$httpd")
  until [ "$(curl -s -o "$work/body" -w '%{http_code}' \
    -H "$(key_of_nginx)" "http://127.0.0.1:$apache/rooms/session/rooms")" = 401 ] ||
    ! kill -0 "$httpd" 2>/dev/null || [ $((SECONDS - began)) -ge "$patience" ]; do sleep 0.1; done
  kill -0 "$httpd" 2>/dev/null
}

# A browser that has no session is led to the provider, and comes back to where it was.
browser=(-H 'Accept: text/html,application/xhtml+xml')
signs_in() { # JAR [TARGET]: the last answer is in $work/body, and where it ended in $ended
  rm -f "$1"
  ended=$(curl -s -m 60 -L -o "$work/body" -D "$work/head" -w '%{http_code} %{url_effective}' \
    "${reach[@]}" "${browser[@]}" -b "$1" -c "$1" "$base${2-/folder/}")
}
