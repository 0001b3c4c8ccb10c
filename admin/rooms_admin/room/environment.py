"""How systemd reads a room's settings, which are the environment of its units."""
import re

# What systemd takes off the beginning of a value, and what goes on behind that.
_QUOTED = re.compile(r"""([ \t\r]*('[^']*'|"([^"\\]|\\.)*"))*[ \t\r]*""")
_CONTROL = re.compile(r"[\0-\x08\x0b-\x1f\x7f]")


def fault_of(line: str) -> str:
    """systemd reads a room's file for its units by rules of its own: a quote goes on to the next
    one, a backslash at the end, also of a comment, joins the next line, and a carriage return ends
    a line: what is behind it could be any variable of a process of root's."""
    if _CONTROL.search(line):
        return "has a control character, such as those with which Windows ends lines"
    value = "" if line.startswith("#") else line.partition("=")[2]
    if line.endswith("\\") or _QUOTED.sub("", value, count=1)[:1] in ("'", '"'):
        return ("goes on in the next one for systemd: no backslash at the end, and no quote at the "
                "beginning alone")
    return ""
