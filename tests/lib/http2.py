"""A connection by TLS and HTTP/2 that never waits, for a play that has many of them. It says no
more than it has to: fields stand in no table, and a request follows the reply to the one before."""
import socket
import ssl
import struct

# More than anybody gets over one connection, so that nobody waits for leave to send.
WINDOW = 2**31 - 1
ENOUGH = 1 << 16
FRAME = 1 << 14
DATA, HEADERS, RESET, SETTINGS, PING, AWAY, UPDATE = 0, 1, 3, 4, 6, 7, 8
END, ACK, WHOLE = 1, 1, 4
INITIAL_WINDOW = 4
# Of the table that everybody has.
STATUS = {8: 200, 9: 204, 10: 206, 11: 304, 12: 400, 13: 404, 14: 500}


class Broken(Exception):
    """The other side has ended the connection, or says what it shouldn't."""


def frame(kind, flags, stream, payload=b''):
    return struct.pack('>HBBBI', len(payload) >> 8, len(payload) & 255, kind, flags,
                       stream) + payload


PREFACE = (b'PRI * HTTP/2.0\r\n\r\nSM\r\n\r\n'
           + frame(SETTINGS, 0, 0, struct.pack('>HI', INITIAL_WINDOW, WINDOW))
           + frame(UPDATE, 0, 0, struct.pack('>I', WINDOW - 65535)))


def text_of(value):
    """A text as HPACK has it, in plain letters."""
    data = value.encode()
    rest = len(data) - 127
    if rest < 0:
        return bytes([len(data)]) + data
    length = b'\x7f'
    while rest > 127:
        length += bytes([rest & 127 | 128])
        rest >>= 7
    return length + bytes([rest]) + data


def head_of(*fields):
    return b''.join(b'\0' + text_of(name) + text_of(value) for name, value in fields)


def status_of(block):
    """The status, which every server says first, perhaps behind the size of the table."""
    at = 0
    while block[at] & 0xe0 == 0x20:
        at += 1
    if block[at] & 0x80:
        return STATUS[block[at] & 0x7f]
    if block[at] & 0x0f != 8 or block[at + 1] != 3:
        raise Broken('a reply without a status')
    return int(block[at + 2:at + 5])


def context_of(authority):
    """What all lines of a process share."""
    made = ssl.create_default_context(cafile=authority)
    made.set_alpn_protocols(['h2'])
    return made


class Line:
    """Who has it calls go_on() whenever there is something to read, or where it `writes` may."""

    def __init__(self, port, host, context, source):
        plain = socket.create_connection(('127.0.0.1', port), source_address=(source, 0))
        plain.setsockopt(socket.IPPROTO_TCP, socket.TCP_NODELAY, 1)
        plain.setblocking(False)
        self.tls = context.wrap_socket(plain, server_hostname=host, do_handshake_on_connect=False)
        self.out, self.got = bytearray(PREFACE), bytearray()
        self.shaken = self.is_last = self.is_over = False
        self.writes = True
        self.stream, self.status, self.body, self.sent = -1, 0, memoryview(b''), 0
        # What may be sent: in all, in one stream, and in a stream that begins.
        self.whole = self.window = self.first = 65535

    def fileno(self):
        return self.tls.fileno()

    def close(self):
        self.tls.close()

    def ask(self, head, body=b''):
        """Begins a request."""
        self.stream += 2
        self.status, self.is_over = 0, False
        self.body, self.sent, self.window = memoryview(body), 0, self.first
        self.out += frame(HEADERS, WHOLE | (0 if body else END), self.stream, head)
        self.write()

    def go_on(self):
        """Does what can be done; returns whether the reply is there as a whole."""
        try:
            if not self.shaken:
                self.writes = False
                self.tls.do_handshake()
                self.shaken = True
            self.read()
            self.write()
        except ssl.SSLWantReadError:
            pass
        except ssl.SSLWantWriteError:
            self.writes = True
        return self.is_over

    def read(self):
        """Up to the end of a reply: what comes behind it is read before the next one."""
        try:
            while part := self.tls.recv(ENOUGH):
                self.got += part
                self.take()
                if self.is_over:
                    return
        except ssl.SSLWantReadError:
            return
        self.is_last = True
        if not self.is_over:
            raise Broken('the connection has ended')

    def write(self):
        if not self.shaken:
            return
        self.fill()
        try:
            while self.out:
                del self.out[:self.tls.send(self.out)]
                self.fill()
            self.writes = False
        except (ssl.SSLWantWriteError, ssl.SSLWantReadError):
            self.writes = True

    def fill(self):
        """What is left of the body, as far as it may be sent."""
        while self.sent < len(self.body) and len(self.out) < ENOUGH:
            size = min(FRAME, len(self.body) - self.sent, self.whole, self.window)
            if size <= 0:
                return
            part = self.body[self.sent:self.sent + size]
            self.sent += size
            self.whole -= size
            self.window -= size
            self.out += frame(DATA, END if self.sent == len(self.body) else 0, self.stream,
                              bytes(part))

    def take(self):
        """Takes the frames that are there."""
        while len(self.got) >= 9:
            high, low, kind, flags, stream = struct.unpack_from('>HBBBI', self.got)
            size = 9 + (high << 8) + low
            if len(self.got) < size:
                return
            payload = bytes(self.got[9:size])
            del self.got[:size]
            self.understand(kind, flags, stream, payload)

    def understand(self, kind, flags, stream, payload):
        if kind == HEADERS and stream == self.stream:
            self.status = self.status or status_of(payload)
        elif kind == RESET:
            raise Broken(f'a stream was reset by {payload.hex()}')
        elif kind == SETTINGS and not flags & ACK:
            for at in range(0, len(payload), 6):
                name, value = struct.unpack_from('>HI', payload, at)
                if name == INITIAL_WINDOW:
                    self.window += value - self.first
                    self.first = value
            self.out += frame(SETTINGS, ACK, 0)
        elif kind == PING and not flags & ACK:
            self.out += frame(PING, ACK, 0, payload)
        elif kind == AWAY:
            self.is_last = True
        elif kind == UPDATE:
            more = struct.unpack('>I', payload)[0]
            if stream == 0:
                self.whole += more
            elif stream == self.stream:
                self.window += more
        if kind in (HEADERS, DATA) and stream == self.stream and flags & END:
            self.is_over = True
