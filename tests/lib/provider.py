"""A small provider of OpenID Connect for tests: whoever comes is signed in with the claims of a
file.

    provider.py PORT KEY CLAIMS [KEY]

KEY is an RSA key, and CLAIMS a file with a JSON object, which is read anew at each sign-in. Where
it has "error", the provider refuses the sign-in with that word; "nonce", "aud", "iss" and "exp"
replace what belongs there. A second KEY, where there is one, signs in its place, and isn't among
the keys that it tells. While there is a file 'hangs', what asks for a token waits, and is a byte of
the file 'waiting'.
"""

import base64
import json
import os
import secrets
import subprocess
import sys
import time
import urllib.parse
from http.server import BaseHTTPRequestHandler, ThreadingHTTPServer

PORT, KEY, CLAIMS, SIGNS = int(sys.argv[1]), sys.argv[2], sys.argv[3], sys.argv[-1]
if len(sys.argv) == 4:
    SIGNS = KEY
ISSUER = f'http://127.0.0.1:{PORT}'
codes = {}


def encoded(data):
    return base64.urlsafe_b64encode(data).rstrip(b'=').decode()


def openssl(*words, data=None):
    return subprocess.run(('openssl', *words), input=data, capture_output=True, check=True).stdout


def key_set():
    modulus = openssl('rsa', '-in', KEY, '-noout', '-modulus').decode().strip().partition('=')[2]
    return {'keys': [{'kty': 'RSA', 'kid': 'k', 'use': 'sig', 'alg': 'RS256', 'e': 'AQAB',
                      'n': encoded(bytes.fromhex(modulus))}]}


def signed(claims):
    text = '.'.join(encoded(json.dumps(part).encode())
                    for part in ({'alg': 'RS256', 'kid': 'k', 'typ': 'JWT'}, claims))
    return text + '.' + encoded(openssl('dgst', '-sha256', '-sign', SIGNS, data=text.encode()))


class Provider(BaseHTTPRequestHandler):
    protocol_version = 'HTTP/1.1'

    def log_message(self, *_):
        pass

    def reply(self, status, body, **fields):
        data = json.dumps(body).encode()
        self.send_response(status)
        for name, value in fields.items():
            self.send_header(name, value)
        self.send_header('Content-Type', 'application/json')
        self.send_header('Content-Length', str(len(data)))
        self.end_headers()
        self.wfile.write(data)

    def do_GET(self):
        path, _, query = self.path.partition('?')
        asked = dict(urllib.parse.parse_qsl(query))
        if path == '/.well-known/openid-configuration':
            self.reply(200, {
                'issuer': ISSUER, 'authorization_endpoint': ISSUER + '/in',
                'token_endpoint': ISSUER + '/token', 'jwks_uri': ISSUER + '/keys',
                'end_session_endpoint': ISSUER + '/out', 'response_types_supported': ['code'],
                'subject_types_supported': ['public'],
                'id_token_signing_alg_values_supported': ['RS256'],
                'token_endpoint_auth_methods_supported': ['client_secret_basic']})
        elif path == '/keys':
            self.reply(200, key_set())
        elif path == '/in':
            with open(CLAIMS, encoding='utf-8') as file:
                claims = json.load(file)
            answer = {'state': asked['state']}
            if 'error' in claims:
                answer['error'] = claims['error']
            else:
                answer['code'] = secrets.token_hex(8)
                codes[answer['code']] = (asked, claims)
            self.reply(302, {},
                       Location=asked['redirect_uri'] + '?' + urllib.parse.urlencode(answer))
        else:
            self.reply(404, {})

    def do_POST(self):
        body = self.rfile.read(int(self.headers['Content-Length'])).decode()
        if os.path.exists('hangs'):
            with open('waiting', 'a', encoding='utf-8') as file:
                file.write('.')
        while os.path.exists('hangs'):
            time.sleep(0.1)
        asked, claims = codes.pop(dict(urllib.parse.parse_qsl(body)).get('code'), (None, None))
        if asked is None:
            self.reply(400, {'error': 'invalid_grant'})
            return
        now = int(time.time())
        token = {'iss': ISSUER, 'aud': asked['client_id'], 'nonce': asked.get('nonce'), 'iat': now,
                 'exp': now + 300, **claims}
        self.reply(200, {'access_token': 'x', 'token_type': 'Bearer', 'expires_in': 300,
                         'id_token': signed(token)})


ThreadingHTTPServer(('127.0.0.1', PORT), Provider).serve_forever()
