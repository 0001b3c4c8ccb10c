"""The text of one scan from standard input, to standard output, for rooms-scan.socket: as extract,
by pictures of its pages and tesseract. It takes seconds for each page, so only a night has scans
read, and no longer than its settings say."""
import os
import tempfile

from rooms_admin.host import commands

from .extract import PICTURES, answer
from .sink import Full, Sink, State

# Pages of a document, and the longest side of their pictures: 200 points an inch of A4.
PAGES, LONGEST_SIDE, SECONDS = 20, 2400, 100.0
# Of which languages there may be words, as far as they are installed.
_LANGUAGES = ("deu", "eng", "fra")


def is_pdf(data: bytes) -> bool:
    return b"%PDF-" in data[:1024]


def is_scan(data: bytes) -> bool:
    """Of what has no text: whether there may be pictures of some."""
    return is_pdf(data) or data.startswith(PICTURES)


def _languages() -> str:
    there = commands.run(["tesseract", "--list-langs"]).out.split()
    return "+".join(one for one in _LANGUAGES if one in there) or "eng"


def _page(picture: str, languages: str, sink: Sink) -> None:
    done = commands.run(["tesseract", picture, "stdout", "-l", languages], seconds=SECONDS)
    sink.add(done.out + "\n")


def _pages(folder: str, data: bytes, languages: str, sink: Sink) -> State:
    picture, document = f"{folder}/page", f"{folder}/document"
    with open(document, "wb") as out:
        out.write(data)
    for page in range(1, PAGES + 1):
        commands.run(["pdftoppm", "-q", "-gray", "-singlefile", "-scale-to", str(LONGEST_SIDE),
                      "-f", str(page), "-l", str(page), document, picture], seconds=SECONDS)
        if not os.path.exists(f"{picture}.pgm"):
            return State.WHOLE
        _page(f"{picture}.pgm", languages, sink)
        os.unlink(f"{picture}.pgm")
    return State.CUT


def read(data: bytes) -> tuple[State, str]:
    """BLANK where there is no text."""
    sink = Sink()
    # A page has one processor: several that wait for one another are slower on a busy machine.
    os.environ["OMP_THREAD_LIMIT"] = "1"
    try:
        languages = _languages()
        with tempfile.TemporaryDirectory() as folder:
            if is_pdf(data):
                state = _pages(folder, data, languages, sink)
            else:
                with open(f"{folder}/picture", "wb") as out:
                    out.write(data)
                _page(f"{folder}/picture", languages, sink)
                state = State.WHOLE
    except FileNotFoundError:
        return State.LACKS, ""
    except commands.Slow:
        return State.LATE, ""
    except Full:
        state = State.CUT
    text = sink.text()
    return (state, text) if text.strip() else (State.BLANK, "")


def run() -> int:
    return answer(read, State.BLANK)
