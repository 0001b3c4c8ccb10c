"""Plays requests in rooms whose stored rows are damaged, and holds each answer against the rows.

    damage.py PROGRAM FOLDER PORT SECONDS

For each way of damage and each caller a room is served in FOLDER, on ports from PORT on. All rows
are read before and after each request. What is expected comes from those rows and the pages of
docs alone. Each broken rule is printed with what was asked and what came; the last line says how
many checks held. The status is 0.
"""

import json
import os
import shutil
import socket
import sqlite3
import subprocess
import sys

from damage_rules import ALL, Ask, Rows, check, differences

ROUTES = {'read': 'GET /doc', 'list': 'GET /folder', 'put': 'PUT /doc', 'append': 'POST /doc',
          'make folder': 'POST /folder', 'remove': 'DELETE /object', 'move': 'POST /move',
          'read list': 'GET /dacl', 'set list': 'PUT /dacl', 'read attributes': 'GET /attr',
          'set owners': 'PUT /attr', 'can': 'GET /can'}


class Served:
    def __init__(self, program, file, port, patience):
        self.file, self.patience, self.connection = file, patience, None
        for self.port in range(port, port + 200):
            words = ['serve', file, '--port', str(self.port), '--count', '1000']
            self.process = subprocess.Popen(
                [program, *words], stdin=subprocess.DEVNULL, stdout=subprocess.PIPE,
                stderr=subprocess.PIPE)
            if self.process.stdout.readline():
                return
            said = self.process.communicate()[1]
            # The port may be another program's.
            if said != b'fault: net\n':
                raise OSError(f'it is not served: {said}')
        raise OSError('no port')

    def end(self):
        if self.connection:
            self.connection.close()
        self.process.kill()
        self.process.communicate()

    def ask(self, ask, caller):
        """The status and the body of the answer."""
        method, route = ROUTES[ask.what].split()
        sent = ask.sent
        if ask.what == 'move':
            sent = json.dumps({'to': ask.sent})
        elif ask.what == 'set owners':
            sent = json.dumps(dict(zip(('owner', 'group'), ask.sent.split())))
        query = '?' + ALL if ask.what == 'can' else ''
        sent = sent.encode()
        head = (f'{method} {route}{ask.path}{query} HTTP/1.1\r\nRoom-User: {caller}\r\n'
                f'Content-Length: {len(sent)}\r\n\r\n')
        if self.connection is None:
            self.connection = socket.create_connection(('127.0.0.1', self.port), self.patience)
            self.reader = self.connection.makefile('rb')
        self.connection.sendall(head.encode() + sent)
        status = int(self.reader.readline().split()[1])
        fields = {}
        while (line := self.reader.readline().strip()):
            name, _, value = line.partition(b': ')
            fields[name] = value
        body = self.reader.read(int(fields.get(b'Content-Length', 0)))
        if fields.get(b'Connection') == b'close':
            self.connection.close()
            self.connection = None
        return status, body

    def rows(self):
        """All rows, from a copy of both files: an answer comes after its commit."""
        copy(self.file, self.file + '.copy')
        return Rows(self.file + '.copy')


def copy(file, to):
    for end in ('', '-wal', '-shm'):
        if os.path.exists(to + end):
            os.remove(to + end)
    for end in ('', '-wal'):
        if os.path.exists(file + end):
            shutil.copyfile(file + end, to + end)


# The room: /a/m and /a/e are what is damaged. root has all rights, alice some, a stranger none.

TREE = ('/a/', '/b/', '/a/m/', '/a/m/f/', '/a/m/d', '/a/m/g', '/a/s/', '/a/s/f/', '/a/s/d',
        '/a/s/g', '/a/e', '/b/d')
CALLERS = ('root', 'alice', 'stranger')


def make_room(program, file, port, patience):
    def call(sent, *words):
        subprocess.run([program, *words], input=sent.encode(), stdout=subprocess.DEVNULL,
                       check=True)
    call('', 'init', file, 'root', 'staff')
    call(f'list:a\nA:fd:root:{ALL}\nA:fdg:team:rxt\n', 'reset', file, '/', 'dacl')
    call('list:a\nU:fdSF:EVERYONE@:rcC\n', 'reset', file, '/', 'sacl')
    with open(file + '.csv', 'w', encoding='utf-8') as members:
        members.write('group,user\nteam,alice\n')
    call('', 'groups', file, file + '.csv')
    served = Served(program, file, port, patience)
    for path in TREE:
        what = 'make folder' if path.endswith('/') else 'put'
        served.ask(Ask(what, path.rstrip('/'), '' if path.endswith('/') else 'bytes'), 'root')
    for path in ('/a', '/a/s'):
        served.ask(Ask('set list', path, 'list:a\nA:fd:alice:waDc\n'), 'root')
    served.end()


M, E = "(id = (SELECT id FROM nodes WHERE name = 'm'))", "(name = 'e')"
BOTH = f'UPDATE nodes SET {{}} WHERE {M} OR {E}'
WAYS = {
    'none': '',
    'a list that is none': BOTH.format("dacl_own = 'A::alice'"),
    'an entry that may not stand there': BOTH.format("dacl_own = 'U:S:alice:r' || char(10)"),
    'flags out of range': BOTH.format('dacl_flags = 9'),
    'a kind out of range': BOTH.format('kind = 7'),
    'an owner that is no name': BOTH.format("owner = 'bad name'"),
    'a parent that is not there': 'INSERT INTO nodes SELECT -1, 1, \'lost\', 1, owner, grp, 1, 1, '
                                  "'', '', '', '' FROM nodes WHERE id = 1; "
                                  + BOTH.format('parent = -1'),
    'two roots': f'UPDATE nodes SET parent = NULL WHERE {M}',
    'no root': "UPDATE nodes SET parent = (SELECT id FROM nodes WHERE name = 'm') WHERE id = 1",
    'a loop': f"UPDATE nodes SET parent = (SELECT id FROM nodes WHERE name = 'f' AND parent = "
              f"(SELECT id FROM nodes WHERE name = 'm')) WHERE {M}",
    'no bytes': "DELETE FROM bodies WHERE node IN (SELECT id FROM nodes WHERE name IN ('d', 'e') "
                "AND parent IN (SELECT id FROM nodes WHERE name IN ('a', 'm')))",
    'a broken law': BOTH.format("dacl_inh = 'A:I:alice:rwaxtcCoDd' || char(10)"),
}


def twelve(folder, document, other, moved, to):
    """The twelve requests: those that read come first, and what is removed or moved last."""
    return [Ask('read', document), Ask('list', folder), Ask('read list', folder),
            Ask('read attributes', document), Ask('can', document),
            Ask('put', document, 'new bytes'), Ask('append', document, ' and more'),
            Ask('make folder', folder + '/n'), Ask('set owners', folder, 'carol team'),
            Ask('set list', folder, 'list:a\nA:fd:alice:rwaxtcC\nA:dn:bob:rt\nA:f:carol:r\n'),
            Ask('remove', other), Ask('move', moved, to)]


PLACES = {
    'beside': twelve('/a/s', '/a/s/d', '/a/s/g', '/a/s/d', '/a/s/f/moved'),
    'on the way': twelve('/a/m/f', '/a/m/d', '/a/m/g', '/a/m/d', '/a/m/f/moved'),
    'at it': twelve('/a/m', '/a/e', '/a/e', '/a/m', '/b/m'),
    'above': twelve('/a', '/b/d', '/a/s/f/moved', '/a', '/b/a'),
}
# Each of these works on what those before it left.
RUN = [Ask('make folder', '/a/s/r'), Ask('put', '/a/s/r/x', 'one'), Ask('append', '/a/s/r/x', '!'),
       Ask('set list', '/a', 'list:a\nA:fd:alice:rwaxDtcC\n'), Ask('move', '/a/s/r', '/a/m/r'),
       Ask('set owners', '/a/m/r', 'alice team'), Ask('move', '/a/m', '/a/s/m'),
       Ask('list', '/a'), Ask('read', '/a/s/m/r/x'), Ask('remove', '/a/e')]


class Play:
    def __init__(self, program, folder, port, patience):
        self.program, self.folder, self.patience = program, folder, patience
        self.port, self.held, self.broken = port, 0, 0
        self.sound = {}

    def holds(self, name, what, holds):
        self.held += bool(holds)
        self.broken += not holds
        if not holds:
            print(f'FAILED {name}: {what}')

    def serve(self, file):
        self.port += 1
        return Served(self.program, file, self.port, self.patience)

    def requests(self, served, name, caller, asks):
        """Plays requests one after the other, and answers what came."""
        answers = []
        before = served.rows()
        for ask in asks:
            status, body = served.ask(ask, caller)
            after = served.rows()
            for what, holds in check(before, after, ask, caller, status, body):
                self.holds(f'{name}, {caller} asks {tuple(ask)}, {status} {body!r}', what, holds)
            answers.append((ask, status, body))
            before = after
        return answers

    def way(self, way, damaged_file, caller):
        """The requests at each place in one room, and the run in another."""
        for played, places in (('one by one', PLACES), ('run', {'run': RUN})):
            file = os.path.join(self.folder, 'played')
            copy(damaged_file, file)
            served = self.serve(file)
            for place, asks in places.items():
                name = f'{way}, {place}'
                answers = self.requests(served, name, caller, asks)
                self.compare(name, way, place, caller, answers)
            self.ends(f'{way}, {played}, {caller}', way, served, damaged_file)

    def compare(self, name, way, place, caller, answers):
        if way == 'none':
            self.sound[place, caller] = answers
            return
        for (ask, status, body), sound in zip(answers, self.sound[place, caller]):
            if way == 'no root':
                self.holds(name, f'{ask}: {status} without a root', status == 500)
            elif place == 'beside':
                self.holds(name, f'{ask}: {status} {body!r}, and {sound} in a sound room',
                           (ask, status, body) == sound)

    def ends(self, name, way, served, damaged_file):
        """The server still answers, and the damage is still told, unless it is gone."""
        # What is refused in any room shows that a server without a root still answers.
        ask, wanted = Ask('can', '/b'), 200
        if way == 'no root':
            ask, wanted = Ask('make folder', '/'), 409
        status, body = served.ask(ask, 'root')
        self.holds(name, f'{ask} is answered by {status} {body!r}', status == wanted)
        served.end()
        rows = served.rows()
        told, sound = self.verify(served.file)
        if way == 'none':
            self.holds(name, 'it is sound at the end', sound)
        elif remains(self.undamaged, Rows(damaged_file), rows):
            self.holds(name, 'verify still tells of the damage', told)
        else:
            self.holds(name, 'verify has an answer', told or sound)

    def verify(self, file):
        """Whether a fault is told, and whether all is sound."""
        ran = subprocess.run([self.program, 'verify', file], capture_output=True, check=False)
        return (ran.returncode == 1 and ran.stdout.startswith(b'fault '),
                ran.returncode == 0 and ran.stdout == b'sound\n')

    def all(self):
        sound = os.path.join(self.folder, 'sound')
        make_room(self.program, sound, self.port, self.patience)
        self.undamaged = Rows(sound)
        for way, statements in WAYS.items():
            file = os.path.join(self.folder, 'damaged')
            copy(sound, file)
            base = sqlite3.connect(file)
            base.executescript('PRAGMA foreign_keys=off; ' + statements)
            base.close()
            copy(file, file + '.verified')
            told, _ = self.verify(file + '.verified')
            self.holds(way, 'verify tells of the damage', told == (way != 'none'))
            for caller in CALLERS:
                self.way(way, file, caller)


def remains(sound, damage, rows):
    """Whether any of the damage is still in the rows."""
    for number, column in differences(sound, damage):
        if column == 'bytes':
            if number in rows.nodes and number not in rows.bodies:
                return True
        elif number > 0 and number in rows.nodes and (
                getattr(rows.nodes[number], column) == getattr(damage.nodes[number], column)):
            return True
    return False


def main():
    program, folder, port, patience = sys.argv[1:]
    play = Play(program, folder, int(port), float(patience))
    play.all()
    print(f'{play.held} held, {play.broken} broken')


main()
