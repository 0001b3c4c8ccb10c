"""Which definitions of crates/*/specs a contract reaches: those that it names, those that these
name, and so on. Names are followed through the `use` lines of each file; the Rust types of
`specs.declared`, and the toolchain's definitions, are not followed."""
import functools
import os
import re
from collections.abc import Iterable, Iterator
from typing import NamedTuple

TOP = os.path.dirname(os.path.dirname(os.path.realpath(__file__)))
WORD = r"[^\s(){},:;.`\"]+"
DECLARES = re.compile(rf"(?:(?:abbrev|unfoldable|pub|record|data) )+({WORD})")
MADE_OF = re.compile(rf"\s+((?:{WORD} )*{WORD}) : ")
USE = re.compile(r"^(?:pub |ghost )?use (Rattle\.[^{;\n]*(?:\{[^;]*?\}(?=;?$))?)", re.M)


class Name(NamedTuple):
    """A definition: its file, as `CRATE/FILE`, and its name."""
    file: str
    name: str


class File(NamedTuple):
    """Of a file of definitions: the text of each, the data that each constructor is one of, and
    the whole path of each name that it imports."""
    texts: dict[str, str]
    makes: dict[str, str]
    imports: dict[str, str]


def text_of(path: str) -> str:
    with open(path, encoding="utf-8") as lines:
        return lines.read()


def parts_of_group(text: str) -> Iterator[str]:
    """Yields the parts of `A, B.{C, D}`."""
    depth, part = 0, ""
    for sign in text + ",":
        depth += (sign == "{") - (sign == "}")
        if sign == "," and not depth:
            yield part.strip()
            part = ""
        else:
            part += sign


def paths_in(text: str, before: str = "") -> Iterator[tuple[str, str]]:
    """Yields each name that a `use` brings, with its whole path."""
    if at := re.fullmatch(r"(.*?)\.?\{(.*)\}", text, re.S):
        inside = f"{before}{at[1]}." if at[1] else before
        for part in filter(None, parts_of_group(at[2])):
            yield from paths_in(part, inside)
    elif at := re.fullmatch(r"(\S+)\s+as\s+(\S+)", text):
        yield at[2], before + at[1]
    else:
        yield text.rpartition(".")[2], before + text


def imports_of(text: str) -> dict[str, str]:
    return {name: path for use in USE.findall(text) for name, path in paths_in(use.strip())}


def without_comments(text: str) -> list[str]:
    lines = text.split("\n")
    return [it for it in lines if it.strip() and not it.lstrip().startswith(("--", "//"))]


@functools.cache
def file_of(file: str) -> File:
    """Returns what `CRATE/FILE` has. In `module _ .. where` definitions stand two columns in."""
    crate, name = file.split("/")
    text = text_of(f"{TOP}/crates/{crate}/specs/{name}.antt")
    texts: dict[str, str] = {}
    makes: dict[str, str] = {}
    now, margin, is_data = "", 0, False
    for line in without_comments(USE.sub("", text)):
        indent = len(line) - len(line.lstrip())
        if not indent:
            margin = 2 if line.startswith("module ") else 0
        at = DECLARES.match(line, indent) if indent == margin else None
        first = re.match(WORD, line.lstrip())
        if at:
            now, is_data = at[1], " data " in f" {line}"
        elif indent == margin and first and first[0] in texts:
            now = first[0]
        elif is_data and (made := MADE_OF.match(line)):
            makes |= {it: now for it in made[1].split()}
        if now:
            texts[now] = texts.get(now, "") + line + "\n"
    return File(texts, makes, imports_of(text))


def name_at(path: str) -> Name | None:
    """Returns the definition of the repository at `Rattle.CRATE.specs.FILE.NAME`, if one is."""
    words = path.split(".")
    if len(words) < 5 or words[2] != "specs" or not os.path.exists(
            f"{TOP}/crates/{words[1]}/specs/{words[3]}.antt"):
        return None
    file = file_of(f"{words[1]}/{words[3]}")
    name = file.makes.get(words[4], words[4])
    if name in file.texts:
        return Name(f"{words[1]}/{words[3]}", name)
    # (a file may hand on what it imports)
    return name_at(".".join([file.imports[name], *words[5:]])) if name in file.imports else None


def named_in(text: str, imports: dict[str, str], file: str = "") -> Iterator[Name]:
    """Yields the definitions that a text names, by these imports, or in this file."""
    own = file_of(file) if file else File({}, {}, {})
    for words in re.findall(rf"{WORD}(?:\.{WORD})*", text):
        first, _, rest = words.partition(".")
        if first in own.texts or first in own.makes:
            yield Name(file, own.makes.get(first, first))
        elif first in imports and (name := name_at(f"{imports[first]}.{rest}".rstrip("."))):
            yield name


def reached(roots: Iterable[Name]) -> set[Name]:
    """Returns these definitions, those that they name, and so on."""
    found: set[Name] = set()
    more = set(roots)
    while more:
        found |= more
        more = {name for at in more for name in named_in(
            file_of(at.file).texts[at.name], file_of(at.file).imports, at.file)} - found
    return found


def contract_of(path: str, name: str) -> str:
    """Returns a function's head, from its name to its body; or what an `impl` says of a type."""
    lines = text_of(path).split("\n")
    begins = rf"\s*(pub(\(\w+\))? )?fn {name}\b|impl\b.* for {name}\b"
    at = next((i for i, it in enumerate(lines) if re.match(begins, it)), None)
    if at is None:
        return ""
    if lines[at].startswith("impl"):
        # (behind the first function stand laws, which are proofs)
        end = next(i for i in range(at, len(lines)) if re.match(r"    fn |\}", lines[i]))
        return "\n".join(lines[at:end]).rstrip()
    end = next(i for i in range(at, len(lines))
               if lines[i].strip() in ("{", "{}") or lines[i].endswith((";", " {")))
    return "\n".join(without_comments("\n".join(lines[at:end + 1])))


def of_contract(path: str, name: str) -> set[Name]:
    """Returns the definitions that a function's contract names."""
    return set(named_in(contract_of(path, name), imports_of(text_of(path))))
