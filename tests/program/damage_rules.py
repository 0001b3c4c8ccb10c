"""The rules that the answers of a damaged room are held against, worked out from its stored rows.

What they say comes from the pages access-lists.md, requests.md and storage.md of docs.
"""

import json
import re
import sqlite3
from collections import namedtuple

ALL = 'rwanNxDtThHdcCoy'
COLUMNS = ('id', 'parent', 'name', 'kind', 'owner', 'grp', 'dacl_flags', 'sacl_flags',
           'dacl_own', 'dacl_inh', 'sacl_own', 'sacl_inh')
Node = namedtuple('Node', COLUMNS)
# What is asked: one of the twelve requests, its path, and what is sent.
Ask = namedtuple('Ask', ('what', 'path', 'sent'), defaults=('',))
READS = ('read', 'list', 'read list', 'read attributes', 'can')


# The rows: nodes by number, bytes by number, and all else as it is.

class Rows:
    def __init__(self, file):
        base = sqlite3.connect(file)
        base.text_factory = lambda text: text.decode('utf-8', 'surrogateescape')
        self.nodes = {row[0]: Node(*row) for row in
                      base.execute(f'SELECT {", ".join(COLUMNS)} FROM nodes')}
        self.bodies = dict(base.execute('SELECT node, bytes FROM bodies'))
        self.members = list(base.execute('SELECT grp, user FROM members ORDER BY 1, 2'))
        self.meta = list(base.execute('SELECT * FROM meta ORDER BY 1'))
        self.audits = list(base.execute('SELECT * FROM audits ORDER BY seq'))
        base.close()

    def children(self, number):
        return [node for node in self.nodes.values() if node.parent == number and node.id > 0]

    def walk(self, path):
        """The rows along a path, the root first, and how many names are left over."""
        roots = [number for number, node in self.nodes.items()
                 if node.parent is None and number > 0]
        chain = [self.nodes[min(roots)]] if roots else []
        names = [name for name in path.split('/') if name]
        while chain and names:
            found = [node for node in self.children(chain[-1].id) if node.name == names[0]]
            if not found:
                break
            chain.append(found[0])
            names.pop(0)
        return chain, len(names)

    def below(self, number):
        """All rows below an object, each once."""
        found, waiting = [], [number]
        while waiting:
            for child in self.children(waiting.pop()):
                if child.id != number and child not in found:
                    found.append(child)
                    waiting.append(child.id)
        return found


# What the stored lists grant, by access-lists.md.

NAME = re.compile(r'[A-Za-z0-9._\-+$\\]{1,64}(@[A-Za-z0-9.\-]{1,64})?')
SPECIAL = ('OWNER@', 'GROUP@', 'EVERYONE@', 'ANONYMOUS@', 'AUTHENTICATED@')
Entry = namedtuple('Entry', ('type', 'flags', 'who', 'mask'))


def entries(column):
    """The entries of a list column, or None where it is no list."""
    found = []
    for line in column.split('\n'):
        if not line.strip(' \t') or line.startswith('#'):
            continue
        parts = line.split(':')
        if len(parts) != 4:
            return None
        entry = Entry(*parts)
        if not (entry.type in tuple('ADUL') and set(entry.flags) <= set('fdniSFgI')
                and set(entry.mask) <= set(ALL)
                and (entry.who in SPECIAL or NAME.fullmatch(entry.who))):
            return None
        found.append(entry)
    return found


def readable(node):
    return ((node.parent is None or node.parent > 0) and node.kind in (0, 1)
            and node.dacl_flags in range(4) and node.sacl_flags in range(4)
            and bool(NAME.fullmatch(node.owner)) and bool(NAME.fullmatch(node.grp))
            and all(entries(column) is not None for column in node[8:]))


def ruling(rows, node, caller, bit):
    """True or False by the first entry in force that matches and has the bit, or None."""
    groups = [group for group, user in rows.members if user == caller]
    for entry in entries(node.dacl_own) + entries(node.dacl_inh):
        matches = {'OWNER@': caller == node.owner, 'GROUP@': node.grp in groups,
                   'EVERYONE@': True, 'ANONYMOUS@': False, 'AUTHENTICATED@': True}
        named = entry.who in groups if 'g' in entry.flags else entry.who == caller
        if (entry.type in 'AD' and 'i' not in entry.flags and bit in entry.mask
                and matches.get(entry.who, named)):
            return entry.type == 'A'
    return None


def passes(rows, chain, caller):
    """Whether the caller comes through all of these rows."""
    return all(readable(node) and node.kind == 1 and ruling(rows, node, caller, 'x')
               for node in chain)


def may_delete(rows, target, parent, caller):
    target_says, parent_says = ruling(rows, target, caller, 'd'), ruling(rows, parent, caller, 'D')
    if target_says or parent_says:
        return True
    return (target_says, parent_says) == (None, None) and ruling(rows, parent, caller, 'w')


def may(rows, ask, caller):
    """Whether the stored lists grant all that the request needs."""
    chain, rest = rows.walk(ask.path)
    makes = ask.what in ('put', 'make folder') and rest == 1
    if not chain or rest != (1 if makes else 0):
        return False
    way = chain if makes else chain[:-1]
    if not passes(rows, way, caller) or not readable(chain[-1]):
        return False
    if makes:
        return ruling(rows, chain[-1], caller, 'w' if ask.what == 'put' else 'a')
    if ask.what in ('remove', 'move'):
        if len(chain) < 2 or not may_delete(rows, chain[-1], chain[-2], caller):
            return False
        if ask.what == 'remove':
            return True
        to, rest = rows.walk(ask.sent.rpartition('/')[0])
        return (rest == 0 and passes(rows, to, caller)
                and ruling(rows, to[-1], caller, 'a' if chain[-1].kind == 1 else 'w'))
    bit = {'read': 'r', 'list': 'r', 'put': 'w', 'append': 'a', 'read list': 'c',
           'set list': 'C', 'read attributes': 't', 'set owners': 'o', 'can': ''}.get(ask.what)
    # What is there can't be made.
    return bit is not None and (not bit or ruling(rows, chain[-1], caller, bit))


# What a request looks at, and what it may change, by requests.md.

def damaged(rows, node):
    return not readable(node) or (node.kind == 0 and node.id not in rows.bodies)


def may_fail(rows, ask):
    """Whether a row that the request has to look at is damaged."""
    chain, rest = rows.walk(ask.path)
    seen = list(chain)
    if chain and rest == 0:
        seen += rows.children(chain[-1].id) if ask.what in ('list', 'remove') else []
        seen += rows.below(chain[-1].id) if ask.what in ('set list', 'move') else []
    if ask.what == 'move':
        seen += rows.walk(ask.sent)[0]
    return not chain or any(damaged(rows, node) for node in seen)


def linked_below(rows, number, which):
    """The numbers of the rows below that are linked by a chain of linked lists."""
    flags = which + '_flags'
    found, waiting = set(), [number]
    while waiting:
        parent = rows.nodes[waiting.pop()]
        if not readable(parent) or not getattr(parent, flags) & 1:
            continue
        for child in rows.children(parent.id):
            if readable(child) and not getattr(child, flags) & 2 and child.id not in found:
                found.add(child.id)
                waiting.append(child.id)
    return found


def passed(node, kind, which):
    """The column of what an object's stored list passes to a child of this kind."""
    lines = []
    for entry in entries(getattr(node, which + '_own') + getattr(node, which + '_inh')):
        flags, kept = set(entry.flags), set(entry.flags) & set('SFg') | {'I'}
        to_folders = 'd' in flags or ('f' in flags and 'n' not in flags)
        if not (to_folders if kind == 1 else 'f' in flags):
            continue
        if kind == 1 and 'n' not in flags:
            kept |= flags & set('fd') | (set() if 'd' in flags else {'i'})
        lines.append(':'.join((entry.type, ''.join(it for it in 'fdniSFgI' if it in kept),
                               entry.who, ''.join(it for it in ALL if it in entry.mask))) + '\n')
    return ''.join(lines)


def inherits(rows, number, which):
    """Whether a row stores what its parent's stored list passes, or nothing where none passes."""
    node = rows.nodes[number]
    parent = rows.nodes.get(node.parent)
    column = getattr(node, which + '_inh')
    return column == '' if parent is None else column == passed(parent, node.kind, which)


def differences(before, after):
    """The columns and bytes that differ, as (number, column); 'row' where one came or went."""
    found = set()
    for number in before.nodes.keys() | after.nodes.keys():
        old, new = before.nodes.get(number), after.nodes.get(number)
        if old is None or new is None:
            found.add((number, 'row'))
            continue
        found |= {(number, column) for column in COLUMNS
                  if (type(getattr(old, column)), getattr(old, column))
                  != (type(getattr(new, column)), getattr(new, column))}
    for number in before.bodies.keys() | after.bodies.keys():
        if before.bodies.get(number) != after.bodies.get(number):
            found.add((number, 'bytes'))
    return found


def allowed(before, after, ask, caller):
    """Which differences a served change may make, and whether what it wrote is what was sent."""
    chain, rest = before.walk(ask.path)
    target = chain[-1].id
    if rest == 1:
        new = set(after.nodes) - set(before.nodes)
        if len(new) != 1:
            return set(), False
        number = new.pop()
        node = after.nodes[number]
        kind = 0 if ask.what == 'put' else 1
        wanted = (target, ask.path.rpartition('/')[2], kind, caller, chain[-1].grp)
        body = ask.sent.encode() if kind == 0 else None
        return ({(number, 'row'), (number, 'bytes')},
                node[1:6] == wanted and after.bodies.get(number) == body)
    if ask.what in ('put', 'append'):
        old = before.bodies.get(target, b'') if ask.what == 'append' else b''
        return {(target, 'bytes')}, after.bodies.get(target) == old + ask.sent.encode()
    if ask.what == 'remove':
        return {(target, 'row'), (target, 'bytes')}, target not in after.nodes
    node = after.nodes.get(target)
    if ask.what == 'set owners':
        return ({(target, 'owner'), (target, 'grp')},
                (node.owner, node.grp) == tuple(ask.sent.split()))
    if ask.what == 'set list':
        first, _, own = ask.sent.partition('\n')
        flags = ('a' in first[5:]) + 2 * ('p' in first[5:])
        linked = {(number, 'dacl_inh') for number in linked_below(after, target, 'dacl')}
        return (linked | {(target, column) for column in ('dacl_flags', 'dacl_own', 'dacl_inh')},
                (node.dacl_flags, node.dacl_own) == (flags, own))
    to, _, name = ask.sent.rpartition('/')
    linked = {(number, which + '_inh') for which in ('dacl', 'sacl')
              for number in linked_below(after, target, which)}
    return (linked | {(target, column) for column in ('parent', 'name', 'dacl_inh', 'sacl_inh')},
            (node.parent, node.name) == (before.walk(to)[0][-1].id, name))


# The rules, each with what it is called where it is broken.

def check(before, after, ask, caller, status, body):
    """The rules that an answer is held against: pairs of a name and whether it holds."""
    served = status in (200, 201, 204)
    yield 'a status of the room', served or status in (403, 404, 409, 413, 422, 500)
    if served:
        yield 'no more than the stored lists grant', bool(may(before, ask, caller))
        yield 'nothing for a stranger', caller != 'stranger'
    if status == 500:
        yield 'a fault has its cause', may_fail(before, ask)
    yield 'records only grow', after.audits[:len(before.audits)] == before.audits
    yield 'no record of a fault', status != 500 or after.audits == before.audits
    yield 'members and meta', (after.members, after.meta) == (before.members, before.meta)
    changed = differences(before, after)
    if served and ask.what not in READS and may(before, ask, caller):
        columns, written = allowed(before, after, ask, caller)
        yield f'nothing else is changed: {sorted(changed - columns)}', changed <= columns
        yield 'what was sent is there', written
        written = {(number, which) for number, column in changed for which in ('dacl', 'sacl')
                   if number in after.nodes and column in ('row', which + '_inh')}
        yield 'what is inherited', all(inherits(after, *one) for one in written)
    else:
        yield f'nothing is changed: {sorted(changed)}', not changed
    unread = {number for number, node in before.nodes.items()
              if number < 1 or not readable(node)}
    yield 'rows that can\'t be read stay', not any(number in unread for number, _ in changed)
    if served and ask.what == 'list':
        yield 'a listing', listing_holds(before, ask, body)
    if served and ask.what == 'read':
        yield 'the bytes', body == before.bodies.get(before.walk(ask.path)[0][-1].id)


def listing_holds(rows, ask, body):
    told = [(one['name'], one['kind']) for one in json.loads(body)]
    children = rows.children(rows.walk(ask.path)[0][-1].id)
    kinds = {node.name: {0: 'document', 1: 'folder'}.get(node.kind) for node in children}
    names = [name.encode() for name, _ in told]
    return (names == sorted(set(names)) and all(kinds.get(name) == kind for name, kind in told)
            and all(node.name in dict(told) for node in children if readable(node)))
