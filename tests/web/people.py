"""The files that the front end has beside the room, /people and /mine: whole, old, and not what
they should be."""

import json
import os
from datetime import datetime, timedelta, timezone

USERS = ['alice', 'bob', 'carol', 'dana', 'kim', 'lea', 'mo', 'noa', 'zoe']
GROUPS = {'staff': ['bob', 'carol', 'kim', 'lea', 'mo'], 'sales': ['dana']}
NAMES = {'alice': 'Alice Moreau', 'bob': 'Bob Lindqvist', 'noa': 'נועה כהן'}


def day(ago=0):
    return (datetime.now(timezone.utc) - timedelta(days=ago)).strftime('%Y-%m-%dT%H:%M:%SZ')


def people(ago=0, members=True, users=None):
    groups = GROUPS if members else {group: [] for group in GROUPS}
    return {'made': day(ago), 'members': members, 'users': users or USERS, 'groups': groups,
            'names': NAMES}


class Names:
    """The folder of these files, which nginx serves."""

    def __init__(self, folder):
        self.folder = folder
        os.makedirs(f'{folder}/mine', exist_ok=True)

    def put(self, name, value):
        """Text as it is, anything else as JSON; nothing for None."""
        path = f'{self.folder}/{name}'
        if value is None:
            if os.path.exists(path):
                os.remove(path)
            return
        with open(path, 'w', encoding='utf-8') as file:
            file.write(value if isinstance(value, str) else json.dumps(value, ensure_ascii=False))
        os.chmod(path, 0o644)
