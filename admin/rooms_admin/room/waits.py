"""How long whoever asks a room waits, and so how long a copy may hold it: nginx's site, the door
and copies all go by these numbers, in seconds."""

# Bytes of a room that a second of its copy is for; how long a copy may hold a room at least, and
# at most. Nobody waits for longer than ANSWER: so what is before a copy, or behind it, has a part.
SPEED = 50 << 20
SHORTEST, LONGEST = 30.0, 90.0
ANSWER = LONGEST + 30.0
# The same of an earlier night, which may have to be opened once the room has answered.
NIGHT = ANSWER + 70.0
# How long who asks waits for a server that is started anew, from when it went; and how long one
# that is to end goes on for those who asked before.
START, LAST = LONGEST, 10.0
# How long a copy waits for its own turn, and one of a server that is stopped may take.
TURN, STOPPED = 60.0, 3600.0


def of_copy(size: int) -> float:
    """How long the copy of a room of so many bytes may hold it; more than LONGEST is too long."""
    return max(SHORTEST, size / SPEED)
