"""XML that clients send. No document type is read, so no entity can grow or name a file."""
from dataclasses import dataclass, field
from xml.parsers import expat
from xml.sax.saxutils import escape, quoteattr

from ...room.answers import Stop

LARGEST = 65_536
DEEPEST = 32
LONGEST_SPACE = 1000
DAV = "DAV:"
# No other prefix may mean it.
XML = "http://www.w3.org/XML/1998/namespace"
Tag = tuple[str, str]


@dataclass
class Node:
    tag: Tag
    attributes: dict[str, str]
    text: str = ""
    children: list["Node"] = field(default_factory=list)

    def first(self, local: str) -> "Node | None":
        return next((child for child in self.children if child.tag == (DAV, local)), None)


def _tag(name: str) -> Tag:
    space, _, local = name.rpartition("\n")
    return space, local


class _Builder:
    def __init__(self) -> None:
        self.root = Node(("", ""), {})
        self.open = [self.root]

    def start(self, name: str, attributes: dict[str, str]) -> None:
        if len(self.open) > DEEPEST:
            raise Stop(400, "bad-xml", "XML that is nested too deeply")
        tag = _tag(name)
        # Expat gives each element a copy of it, and each answer repeats it.
        if len(tag[0]) > LONGEST_SPACE:
            raise Stop(400, "bad-xml", "XML with a namespace that is too long")
        node = Node(tag, attributes)
        self.open[-1].children.append(node)
        self.open.append(node)

    def end(self, _name: str) -> None:
        self.open.pop()

    def text(self, text: str) -> None:
        self.open[-1].text += text

    def doctype(self, *_what: object) -> None:
        raise Stop(400, "bad-xml", "XML with a document type")


def read(body: bytes, wanted: str) -> Node:
    """The root element, which has to be that one of DAV."""
    if len(body) > LARGEST:
        raise Stop(413, "too-large", "too much XML")
    builder = _Builder()
    parser = expat.ParserCreate(namespace_separator="\n")
    parser.StartElementHandler = builder.start
    parser.EndElementHandler = builder.end
    parser.CharacterDataHandler = builder.text
    # Else each line end is a call, which copies all before it.
    parser.buffer_text = True
    parser.StartDoctypeDeclHandler = builder.doctype
    try:
        parser.Parse(body, True)
    except (expat.ExpatError, ValueError, LookupError):
        raise Stop(400, "bad-xml", "XML that can't be read") from None
    root = builder.root.children[0]
    if root.tag != (DAV, wanted):
        raise Stop(400, "bad-xml", f"not a {wanted} of WebDAV")
    return root


def legal(text: str) -> str:
    """As text in XML. What XML has no way to write is replaced."""
    return escape("".join("\ufffd" if letter in "\ufffe\uffff" or letter < " " else letter
                          for letter in text))


def element(tag: Tag, content: str = "") -> str:
    space, local = tag
    name = f"D:{local}" if space == DAV else f"xml:{local}" if space == XML else local
    where = "" if space in (DAV, XML) else f" xmlns={quoteattr(space)}"
    return f"<{name}{where}>{content}</{name}>" if content else f"<{name}{where}/>"


def copied(node: Node) -> str:
    """An element as it was sent, without its attributes."""
    return element(node.tag, legal(node.text) + "".join(copied(child) for child in node.children))
