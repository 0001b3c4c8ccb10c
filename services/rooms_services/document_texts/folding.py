"""How names and texts are compared: capitals, marks on letters, how a letter is written and which
blanks stand between words don't matter. It goes sign by sign, so that a place in a folded text is
found again in the text. The page filters an open folder by the same rule
(web/folder/sorting.js)."""
import re
import unicodedata

# Of a query: of how many letters and more a word is, and how many there are at most.
SHORTEST, MOST_WORDS = 2, 8
# What is shown of a text, before and behind the word that was found, and of that itself: any number
# of marks may belong to a letter.
BEFORE, BEHIND, WORD = 60, 100, 1000
_BLANKS = re.compile(r"[\s\x00-\x1f\x7f]+")
# A word that is parted at a line's end. What follows a 'Haupt-' is another word. (It is sought by
# its hyphen, which most texts have less often than letters.)
_PARTED = re.compile(r"[-\u2010]\n(?<=[^\W\d_][-\u2010]\n)\s*"
                     r"(?!(?:und|oder|bzw|sowie|and|or|et|ou)\b)(?=[a-z\u00df-\u00ff])")
_STEP = 1000
# Of so many signs at once: others have turns of the processor in between, also who has the room for
# themselves.
_PIECE = 10_000
# Of so many signs it is remembered what they become: all that there are take 160 MB.
REMEMBERED = 20_000


def _of(sign: str) -> str:
    plain = "".join(one for one in unicodedata.normalize("NFKD", sign)
                    if not unicodedata.category(one).startswith("M"))
    return plain.upper().lower().replace("ς", "σ")


class _Table(dict[int, str]):
    def __missing__(self, code: int) -> str:
        if len(self) >= REMEMBERED:
            self.clear()
        self[code] = found = _of(chr(code))
        return found


_TABLE = _Table()


def folded(text: str) -> str:
    if len(text) <= _PIECE:
        return text.translate(_TABLE)
    return "".join(text[place:place + _PIECE].translate(_TABLE)
                   for place in range(0, len(text), _PIECE))


def plain(text: str) -> str:
    """Without soft hyphens, with parted words joined, and single blanks. (A function says what each
    becomes, so that others have turns of the processor.)"""
    joined = _PARTED.sub(lambda _: "", text.replace("\u00ad", ""))
    return _BLANKS.sub(lambda _: " ", joined).strip()


def words_of(text: str) -> list[str]:
    """What has to be in a text: words, or what stands in quotes. Nothing where that isn't a
    question: a word of a single letter would be in each."""
    found: list[str] = []
    for quoted, word in re.findall(r'"([^"]*)"|([^\s"]+)', text):
        one = folded(plain(quoted or word))
        if len(one) < SHORTEST:
            return []
        if one not in found:
            found.append(one)
    return found if len(found) <= MOST_WORDS else []


def around(text: str, word: str) -> list[str]:
    """What stands before the first place of a folded word, the word as it is written, and what
    follows; nothing where it isn't."""
    at = folded(text).find(word)
    if at < 0:
        return []
    begin = _place(text, at)
    most = min(len(text), begin + WORD)
    end = min(_place(text, at + len(word) - 1) + 1, most)
    # What belongs to the last letter, such as a mark of its own.
    while end < most and not folded(text[end]):
        end += 1
    return [text[max(0, begin - BEFORE):begin], text[begin:end], text[end:end + BEHIND]]


def _place(text: str, at: int) -> int:
    """Of which sign the one at this place of the folded text comes."""
    seen = begin = 0
    while begin < len(text):
        length = len(folded(text[begin:begin + _STEP]))
        if seen + length > at:
            break
        seen, begin = seen + length, begin + _STEP
    while begin < len(text) and seen + len(folded(text[begin])) <= at:
        seen, begin = seen + len(folded(text[begin])), begin + 1
    return begin
