# A room's server that somebody has taken over, who judges earlier nights, or who changes passwords,
# behind nginx: what they say is no page of the site, and neither nginx nor a browser does for them
# what no room has them do.

. "$here/lib/front.sh"
if [ -z "$nginx" ] || ! has curl || ! has python3; then
  skip 'a room that was taken over' 'nginx, curl or python3 is missing'
  return
fi
cat >liar.py <<'END'
import http.server
import re
import socketserver
import sys

FIELDS = {"X-Accel-Redirect": "/rooms/start.html",
          "Set-Cookie": "mod_auth_openidc_session=theirs; Path=/",
          "Refresh": "0; url=//evil.example",
          "Location": "//evil.example/", "WWW-Authenticate": 'Basic realm="rooms"',
          "Clear-Site-Data": '"*"', "Alt-Svc": 'h2="evil.example:443"',
          "Service-Worker-Allowed": "/", "Access-Control-Allow-Origin": "https://evil.example",
          "Access-Control-Allow-Credentials": "true"}
# All others that nginx has to keep for itself, too.
with open(sys.argv[2], encoding="ascii") as rows:
    for row in rows:
        if not row.startswith("#"):
            FIELDS.setdefault(row.strip(), "theirs")
PAGE = b"<script src=/invoices/doc/evil.js></script>"


class Liar(http.server.BaseHTTPRequestHandler):
    def do_GET(self):
        self.send_response_only(int(self.path.rpartition("/")[2] or 200))
        self.send_header("Content-Type", "text/html")
        self.send_header("Content-Length", str(len(PAGE)))
        for name, value in FIELDS.items():
            self.send_header(name, value)
        self.end_headers()
        self.wfile.write(PAGE)

    def address_string(self):
        return ""

    def log_message(self, *given):
        pass


class Service(socketserver.StreamRequestHandler):
    """By SCGI."""

    def handle(self):
        length = b""
        while not length.endswith(b":"):
            length += self.rfile.read(1)
        fields = self.rfile.read(int(length[:-1]) + 1)
        size = re.search(rb"CONTENT_LENGTH\0(\d+)", fields)
        self.rfile.read(int(size[1]))
        status = re.search(rb"/(\d{3})\0", fields)
        said = {"Status": status[1].decode() if status else "200", "Content-Type": "text/html",
                **FIELDS}
        self.wfile.write("".join(f"{name}: {text}\r\n" for name, text in said.items()).encode()
                         + b"\r\n" + PAGE)


class Server(socketserver.ThreadingMixIn, socketserver.UnixStreamServer):
    pass


Server(sys.argv[1], Service if len(sys.argv) > 3 else Liar).serve_forever()
END
mkdir -p run/rooms/office run/rooms-earlier
lies_at() { # SOCKET [scgi]
  python3 liar.py "$1" "$repo/deploy/nginx/hidden-fields.txt" "${@:2}" &
  others+=("$!")
  until [ -S "$1" ]; do sleep 0.05; done
  chmod 777 "$1"
}
place=$PWD/run/rooms/office/socket
lies_at "$place"
lies_at "$PWD/run/rooms-earlier/socket" scgi
lies_at "$PWD/socket" scgi
printf 'alice:{PLAIN}a\n' >rooms.htpasswd
start_front 'a room that was taken over' || return
page='<script src=/invoices/doc/evil.js></script>'
lies() { # STATUS TARGET ARGUMENT ..
  ask "$2 comes as it is" "$1" "$page" alice:a "${@:2}"
  answer alice:a "${@:2}"
  holds "$2 is no page of the site" grep -qxF "$policy; sandbox"$'\r' "$work/head"
  # What a browser gets is nginx's own, each field once, and what an answer is.
  sed -n 's/:.*//p' "$work/head" | tr 'A-Z' 'a-z' | sort >found
  grep -vx -e 'content-\(disposition\|encoding\|length\|type\)' -e transfer-encoding -e date \
    -e server -e connection -e content-security-policy -e x-content-type-options \
    -e cross-origin-resource-policy -e cross-origin-opener-policy -e referrer-policy \
    -e room-largest found >more
  uniq -d found >>more
  same "$2 has a browser do nothing" more /dev/null
  holds "$2 keeps what nginx says" grep -qx $'X-Content-Type-Options: nosniff\r' "$work/head"
}
# The fields that are known to be obeyed for more than the one answer.
for field in NEL Report-To Reporting-Endpoints Strict-Transport-Security Set-Cookie \
  Clear-Site-Data Alt-Svc Service-Worker-Allowed Link Refresh Location; do
  holds "$field is among those" grep -qxF "$field" "$repo/deploy/nginx/hidden-fields.txt"
done
for target in /folder/200 /doc/200 /can/403 /attr/302 /dacl/401; do
  lies "${target##*/}" "$target"
done
for status in 200 302 403; do lies "$status" "/earlier/2026-11-01.030000/doc/$status"; done
lies 200 /password -X POST -H 'Content-Type: application/json' --data-binary '{}'
