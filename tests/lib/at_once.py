#!/usr/bin/env python3
"""Users who come through nginx all at once, by HTTP/2: what they meet, and what that takes.

    at_once.py fill SOCKET PEOPLE
    at_once.py day|read|door|beside [OPTION ..] LABEL SIZE ..

`fill` has alice make what is asked for: ten folders of 100 documents. The others have so many users
at work for some seconds; each has an address, a connection and a password or a session of their
own, and asks as soon as the request before is answered: by `day` what an office asks for, by `read`
documents, by `door` what is closed in a folder. By `beside` some read, and four others upload 1 MiB
each meanwhile, without pause. PEOPLE has a line for each user: a name, a password, perhaps a
cookie. What they met is printed, and is a row of TABLE. All come at the same moment; what counts
begins a little later, but for the first request of each, which wants a new connection and a check
who it is."""
import argparse
import base64
import multiprocessing
import os
import random
import re
import selectors
import sys
import time
from concurrent.futures import ProcessPoolExecutor

import http2
from pipelined import Room

HOST = 'rooms.example'
FOLDERS, DOCUMENTS = 10, 100
KIBIBYTE = 1024
DOCUMENT = b'd' * (20 * KIBIBYTE)
UPLOAD = os.urandom(1024 * KIBIBYTE)
UPLOADS = 4
# What is asked for of each folder, where all ask for one thing.
ONE = {'read': '/doc/team{0}/document{0}', 'door': '/door/closed/team{0}'}
# Nobody waits longer for an answer.
PATIENCE = 60
# How many processes the users are in, so that none of them waits for another's turn.
PROCESSES = 2
# Of a hundred requests: these are spread over the day, and for the others the page is opened once.
REST = {'listing': 20, 'document': 30, 'can': 20, 'list': 13, 'write': 5}
TICK = os.sysconf('SC_CLK_TCK')


def fill(place, people):
    with open(people, encoding='ascii') as lines:
        names = [line.split()[0] for line in lines]
    room = Room(place)
    for folder in range(FOLDERS):
        room.ask('POST', f'/folder/team{folder}')
        for number in range(DOCUMENTS):
            room.ask('PUT', f'/doc/team{folder}/document{number}', DOCUMENT)
    room.ask('POST', '/folder/own')
    for name in names:
        room.ask('PUT', f'/doc/own/{name}', DOCUMENT)
    room.send()


def named_in(file):
    with open(file, encoding='utf-8') as text:
        found = re.findall(r'page-[0-9a-f]+[.](?:css|svg|js)', text.read())
    return list(dict.fromkeys(found))


def opened(folder):
    """What a browser asks for when somebody opens the page who was never there, up to the moment
    when the folder is there."""
    return ['/', *(f'/{name}' for name in named_in(f'{folder}/index.html')), '/me', '/people',
            '/can/?rxwaDtcCo', '/earlier/', '/folder/', '/mine', '/me']


class Asks:
    """The requests of one user, again and again, each as it is sent."""

    def __init__(self, name, password, cookie=None):
        word = base64.b64encode(f'{name}:{password}'.encode()).decode()
        self.who = ('cookie', cookie) if cookie else ('authorization', f'Basic {word}')
        self.name, self.kinds, self.turn, self.is_new = name, [], 0, True

    def add(self, kind, target, body=b''):
        fields = [(':method', 'PUT' if body else 'GET'), (':scheme', 'https'),
                  (':authority', HOST), (':path', target), self.who,
                  ('accept-encoding', 'gzip'), ('sec-fetch-site', 'same-origin')]
        if body:
            fields.append(('content-length', str(len(body))))
        self.kinds.append((kind, http2.head_of(*fields), body))

    def spend_a_day(self, page):
        """Some days, of which none is like another one, beginning within one."""
        chosen = random.Random(self.name)
        for _ in range(2):
            for target in page:
                self.add('page', target)
            rest = [kind for kind, count in REST.items() for _ in range(count)]
            chosen.shuffle(rest)
            for kind in rest:
                folder = f'/team{chosen.randrange(FOLDERS)}'
                document = f'{folder}/document{chosen.randrange(DOCUMENTS)}'
                self.add(kind, {'listing': f'/folder{folder}', 'document': f'/doc{document}',
                                'can': f'/can{document}?rwaxtc', 'list': f'/dacl{folder}',
                                'write': f'/doc/own/{self.name}'}[kind],
                         DOCUMENT if kind == 'write' else b'')
        self.turn = chosen.randrange(len(self.kinds))

    def repeat(self, work):
        for folder in range(FOLDERS):
            self.add(work, ONE[work].format(folder))

    def upload(self):
        self.add('upload', f'/doc/own/{self.name}', UPLOAD)

    def next(self):
        if self.is_new:
            self.is_new = False
            return 'first', *self.kinds[0][1:]
        self.turn = (self.turn + 1) % len(self.kinds)
        return self.kinds[self.turn]


class User:
    """Asks one thing after the other; `taken` has when each began, what it was, how long it took,
    and its status."""

    def __init__(self, asks, connect, source):
        self.asks, self.connect, self.source = asks, connect, source
        self.line, self.taken, self.is_idle = None, [], True

    def begin(self, waiting):
        self.kind, head, body = self.asks.next()
        self.began, self.is_idle = time.monotonic(), False
        if self.line is None or self.line.is_last:
            self.leave(waiting)
            self.line = self.connect(self.source)
            self.waits = selectors.EVENT_READ | selectors.EVENT_WRITE
            waiting.register(self.line, self.waits, self)
        self.line.ask(head, body)
        self.wait(waiting)

    def wait(self, waiting):
        waits = selectors.EVENT_READ | (selectors.EVENT_WRITE if self.line.writes else 0)
        if waits != self.waits:
            waiting.modify(self.line, waits, self)
            self.waits = waits

    def leave(self, waiting):
        if self.line is not None:
            waiting.unregister(self.line)
            self.line.close()
            self.line = None

    def go_on(self, waiting):
        """Returns whether a request is over."""
        try:
            over = self.line.go_on()
        except (http2.Broken, OSError, KeyError) as fault:
            self.note(0, str(fault))
            self.leave(waiting)
            return True
        if over and not self.is_idle:
            self.note(self.line.status)
        else:
            over = False
        self.wait(waiting)
        return over

    def note(self, status, why=''):
        self.taken.append((self.began, self.kind, time.monotonic() - self.began, status, why))
        self.is_idle = True


def process_of(port, authority, members, start, end):
    """What these users took, and the processor time for that; each a pair of number and requests.
    """
    context = http2.context_of(authority)
    connect = lambda source: http2.Line(port, HOST, context, source)
    users = [User(asks, connect, f'127.0.{1 + number // 250}.{1 + number % 250}')
             for number, asks in members]
    time.sleep(max(0, start - time.monotonic()))
    with selectors.DefaultSelector() as waiting:
        for user in users:
            user.begin(waiting)
        spent = time.process_time()
        while (now := time.monotonic()) < end + PATIENCE:
            for key, _ in waiting.select(0.1):
                if key.data.go_on(waiting) and time.monotonic() < end:
                    key.data.begin(waiting)
            if now > end and all(user.is_idle for user in users):
                break
        spent = time.process_time() - spent
    late = [(user.began, user.kind, PATIENCE, 0, 'no reply') for user in users if not user.is_idle]
    return [each for user in users for each in user.taken] + late, spent


def family(process):
    """A process and those that it has started."""
    with open(f'/proc/{process}/task/{process}/children', encoding='ascii') as children:
        return [process, *(one for child in children.read().split() for one in family(int(child)))]


def spent(processes):
    """The processor time that these and theirs have taken, in seconds, also those that are gone."""
    ticks = 0
    for process in (one for parent in processes for one in family(parent)):
        with open(f'/proc/{process}/stat', encoding='utf-8', errors='replace') as stat:
            of_it = stat.read().rpartition(')')[2].split()
        ticks += sum(map(int, of_it[11:15]))
    return ticks / TICK


def waited(process):
    """How long a process that could go on had no processor, in seconds."""
    with open(f'/proc/{process}/schedstat', encoding='ascii') as stat:
        return int(stat.read().split()[1]) / 1e9


class Taken:
    """What was measured of a run: requests that began in it, and processor time."""

    def __init__(self, given, begin, end, times):
        self.all, self.seconds = given, end - begin
        self.front, self.room, self.waited = times
        self.first = [one[2] for one in given if one[1] == 'first']
        self.counted = [one for one in given if begin <= one[0] < end]
        self.bad = [one for one in given if one[3] not in (200, 201, 204)]

    def of(self, *kinds):
        return sorted(one[2] for one in self.counted if one[1] in kinds or not kinds)

    def row(self, label, users, *kinds):
        """Where it is about a kind alone, nothing is said of what all of them took."""
        took = self.of(*kinds)
        if not took:
            return [label, f'{users}', *[''] * 4]
        of_all = ['', ''] if kinds else [
            rounded(1000 * max(self.first)),
            '+'.join(rounded(1e6 * it / len(took)) for it in (self.front, self.room))]
        return [label, f'{users}', rounded(len(took) / self.seconds),
                '/'.join(within(took, part) for part in (50, 95, 100)), *of_all]


def rounded(number):
    """Two digits, or three of what begins with a 1."""
    if number >= 100:
        size = 10 ** (len(f'{number:.0f}') - 2 - (f'{number:.0f}'[0] == '1'))
        return f'{round(number / size) * size:,}'
    return f'{number:.0f}' if number >= 10 else f'{number:.1f}'


def measured(given, members):
    """Has them come, and returns what they met. What counts begins once most have been let in."""
    start = time.monotonic() + min(1, given.seconds / 2)
    begin = start + given.seconds / 2
    end = begin + given.seconds
    numbered, context = list(enumerate(members)), multiprocessing.get_context('fork')
    shares = [it for it in (numbered[one::PROCESSES] for one in range(PROCESSES)) if it]
    with ProcessPoolExecutor(len(shares), mp_context=context) as pool:
        parts = [pool.submit(process_of, given.port, given.authority, share, start, end)
                 for share in shares]
        times = []
        for moment in (begin, end):
            time.sleep(max(0, moment - time.monotonic()))
            times.append([spent(given.front), spent([given.room]), waited(given.room)])
        done = [part.result() for part in parts]
    of_them = [after - before for before, after in zip(*times)]
    users = sum(part[1] for part in done) / (end - start)
    print(f'told\tthe users themselves took {users:.2f} processors', flush=True)
    return Taken([one for part in done for one in part[0]], begin, end, of_them)


def within(took, part):
    """How long at most that part of them took, of a hundred; in milliseconds."""
    return rounded(1000 * took[min(len(took) - 1, len(took) * part // 100)]) if took else ''


class Play:
    def __init__(self, given):
        self.given, self.label, self.page = given, given.label, opened(given.page)
        with open(given.people, encoding='ascii') as lines:
            self.people = [line.split() for line in lines]

    def come(self, users, work, uploads=0):
        """Those of the list that nobody was yet; each by what their requests are."""
        new, self.people = self.people[:users + uploads], self.people[users + uploads:]
        members = [Asks(*one) for one in new]
        for number, one in enumerate(members):
            if number >= users:
                one.upload()
            elif work == 'day':
                one.spend_a_day(self.page)
            else:
                one.repeat(work)
        return measured(self.given, members)

    def tell(self, name, taken, row):
        faults = sorted({f'status {one[3]} {one[4]}' for one in taken.bad})
        if self.given.table and not row[2]:
            faults.append('nobody was answered while it counted')
        print(f'fail\t{name}\t{len(taken.bad)} of {len(taken.all)}: {faults}' if faults
              else f'pass\t{name}', flush=True)
        print('told\t' + ' | '.join(row), flush=True)
        if self.given.table:
            with open(self.given.table, 'a', encoding='utf-8') as table:
                print(' | '.join(row), file=table)

    def play(self, users):
        taken = self.come(users, self.given.work)
        self.tell(f'{self.given.label}, {users}', taken, taken.row(self.label, users))
        self.label = ''
        for kind in sorted({one[1] for one in taken.counted}):
            took = taken.of(kind)
            print(f'told\t  {kind}: {len(took)}, half within {within(took, 50)} ms, 95 of 100 '
                  f'within {within(took, 95)} ms, all within {within(took, 100)} ms', flush=True)

    def play_beside(self, users):
        taken = self.come(users, 'read', UPLOADS)
        self.tell(self.given.label, taken, taken.row(self.label, users, 'read'))
        print('told\t  ' + ' | '.join(taken.row('these uploads', UPLOADS, 'upload')), flush=True)
        front, room, waited = (100 * it / taken.seconds
                               for it in (taken.front, taken.room, taken.waited))
        print(f'told\t  of the time the room was {room:.0f} % on a processor and {waited:.0f} % '
              f'waiting for one; the front end took {front:.0f} %', flush=True)


def main():
    if sys.argv[1:2] == ['fill']:
        fill(*sys.argv[2:])
        return
    words = argparse.ArgumentParser()
    words.add_argument('work', choices=['day', 'beside', *ONE])
    words.add_argument('label')
    words.add_argument('sizes', type=int, nargs='+')
    for name in ('port', 'room', 'seconds'):
        words.add_argument(f'--{name}', type=int, required=True)
    for name in ('authority', 'page', 'people'):
        words.add_argument(f'--{name}', required=True)
    words.add_argument('--front', type=int, action='append', required=True)
    words.add_argument('--table')
    play = Play(words.parse_args())
    for users in play.given.sizes:
        (play.play_beside if play.given.work == 'beside' else play.play)(users)
    print('end', flush=True)


if __name__ == '__main__':
    main()
