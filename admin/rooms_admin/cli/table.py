"""The verbs by what they are for, and what each does. Its arguments, and all that help says of it,
stand in verb_NAME.py, in the folder of what it is about."""

KINDS: dict[str, dict[str, str]] = {
    "people": {
        "user": "somebody joins, leaves, changes groups, gets a new password; who is there",
        "members": "who is in which group, by a file of a spreadsheet",
        "groups": "groups of the directory into a room",
        "handover": "all that belongs to one user to another one",
        "until": "accesses whose end date is over, taken back",
        "people": "the names that the web interface offers",
        "mine": "what each user was given further down, for the web interface",
    },
    "who may do what, and who did": {
        "who": "who could do what at a place last night, and by which entries",
        "would": "who could do more or less by a list or a move, before it is made",
        "list": "one list, as it is now, or set without a right",
        "lists": "lists of last night, what names a user or a group",
        "records": "records of last night, of a user or a place",
    },
    "files and backups": {
        "import": "files into a room",
        "export": "a folder of a room, or of a backup, as files",
        "get": "one document out of a backup",
        "backup": "copy, verify, keep; the nightly run",
        "backups": "which backups there are, from the oldest to the newest",
        "latest": "the folder of the newest backup",
        "restore": "a backup put back, or what a machine has beside its rooms",
        "standby": "a copy for another machine",
    },
    "rooms and the machine": {
        "rooms": "the rooms of this machine, and whether each is served",
        "add": "a further room, or the place of one on another machine",
        "remove": "a room is not served any more, and stays",
        "set": "settings of a room or of the site",
        "setup": "the machine and nginx's site, as the settings say",
        "certificate": "a certificate by an authority of the office's own",
    },
    "what is wrong": {
        "check": "whether all is well, for monitoring: 0, 1 or 2 in one line",
        "doctor": "why a room can't be opened",
        "full": "how much of a room is in use, for nginx",
    },
}
VERBS = {verb: about for kind in KINDS.values() for verb, about in kind.items()}
# Units call these, and nobody types them.
OF_UNITS = {"await": "wait until a room's server answers; its unit calls it",
            "tell": "mail what a unit said last; units call it when they fail"}
# Those that change something, or the parts of one that do: each run of them is in the journal.
CHANGE = {"groups", "handover", "until", "import", "restore", "add", "remove", "set", "setup",
          "certificate"}
PARTS_THAT_CHANGE = {"user": {"add", "change", "remove"}, "list": {"set"}}
# What these verbs were called before.
OLD = {"rooms-export": "export", "rooms-import": "import", "rooms-handover": "handover",
       "rooms-get": "get", "rooms-nightly": "backup", "rooms-restore": "restore",
       "rooms-standby": "standby", "rooms-directory": "groups", "rooms-full": "full",
       "rooms-setup": "setup", "rooms-add": "add", "rooms-doctor": "doctor"}


_FOLDERS = {
    "backup": {"backup", "backups", "get", "latest", "restore", "standby"},
    "check": {"check", "doctor", "tell"},
    "directory": {"groups"},
    "lists": {"list", "lists", "records", "who", "would"},
    "people": {"handover", "members", "mine", "people", "until", "user"},
    "room": {"await", "full", "rooms"},
    "site": {"add", "certificate", "remove", "set", "setup"},
    "transfer": {"export", "import"},
}


def module_of(verb: str) -> str:
    folder = next(name for name, verbs in _FOLDERS.items() if verb in verbs)
    return f"rooms_admin.{folder}.verb_{verb}"
