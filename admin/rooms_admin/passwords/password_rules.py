"""What can be a password, which new one root may give, and which one a user may choose."""
import re
import unicodedata

# What bcrypt looks at; the rest would not count.
LONGEST = 72
SHORTEST = 10
# What is left of the most frequent ones without digits and signs: with some of these around it, or
# twice, each is as easy to guess.
_COMMON = re.compile("(" + "|".join("""
    abc(d(e(f(g(hi?j?)?)?)?)?)? admin administrator baseball changeme dragon football iloveyou
    letmein login master monkey office pass passw passwor[dt] princess qwer(ty?(uiop)?)?
    qwertz(uiop)? rooms secret sommer start sunshine superman test welcome willkommen winter
    asdf(gh(jkl)?)? yxcvbnm zxcvbnm
""".split()) + ")*")


def can_be(password: str) -> bool:
    """What htpasswd takes on a line, and bcrypt looks at as a whole."""
    try:
        size = len(password.encode())
    except UnicodeEncodeError:
        return False
    return 0 < size <= LONGEST and password.isprintable()


def can_be_given(password: str) -> bool:
    """By root, to somebody who types it on another machine: there a letter in two parts would be
    other bytes."""
    return can_be(password) and unicodedata.normalize("NFC", password) == password


def fault_of(user: str, old: str, new: str) -> str:
    """Why a user's new one isn't taken, as a word; nothing if it is. No kinds of signs are asked
    for: they make passwords that people write down, and no better ones."""
    if not can_be_given(new):
        return "form"
    if len(new.encode()) < SHORTEST:
        return "short"
    if new == old:
        return "same"
    plain = re.sub(r"[\W\d_]", "", new.lower())
    name = re.sub(r"[\W\d_]", "", user.partition("@")[0].lower())
    if len(set(new)) < 5 or _COMMON.fullmatch(plain) or (len(name) > 2 and name in new.lower()):
        return "weak"
    return ""
