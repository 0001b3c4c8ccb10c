#!/usr/bin/env python3
"""The web interface as nginx serves it: a small script that begins, one of all other modules, one
of the texts of each language, all without comments, and all styles in one sheet, under names that
tell their bytes, so that a browser asks for each once.

  tools/bundle.py DIR

lays the modules beside one another in DIR, as they are, for tests and for whoever changes them."""
import glob
import gzip
import hashlib
import os
import re
import sys
from graphlib import TopologicalSorter

WEB = os.path.join(os.path.dirname(os.path.dirname(os.path.realpath(__file__))), "web")
_IMPORT = re.compile(r"^import (?:\* as (\w+)|\{([^}]*)\}) from '([^']+)';\n", re.MULTILINE)
_EXPORT = re.compile(r"^export ((?:async )?(?:function|const|class) (\w+))", re.MULTILINE)
# A script that a module waits for: the page, or the texts of the language that was chosen.
_LOADED = re.compile(r"\bimport\('([^']+)'\)")
_OTHER = re.compile(r"^(?:import|export)\b.*|\bimport\((?!'\./page-)", re.MULTILINE)
# Lines that are for whoever reads web.
_COMMENT = re.compile(r"^ *(?://|/\*\* .* \*/$).*\n", re.MULTILINE)
_PATH = re.compile(r"(?<=')(?:\.{1,2}/)+(?:[a-z_]+/)*(?=[a-z_]+\.js')")
_STYLE = re.compile(r' *<link rel="stylesheet" href="([a-z_/]+\.css)">\n')
_SCRIPT = '<script type="module" src="start.js"></script>\n'
_BESIDE = '  <link rel="modulepreload" href="{}">\n'
_TEXTS = re.compile(r"language/([a-z]+)\.js")
# Of whoever asks for no language that there is.
_FIRST = "en"


def _read(name: str) -> str:
    with open(f"{WEB}/{name}", encoding="utf-8") as source:
        return source.read()


def _modules() -> dict[str, str]:
    return {name: _read(name)
            for name in sorted(glob.glob("**/*.js", root_dir=WEB, recursive=True))}


def _named(name: str, target: str) -> str:
    return os.path.normpath(os.path.join(os.path.dirname(name), target))


def _variable(name: str) -> str:
    return "of_" + name.removesuffix(".js").replace("/", "_")


def _as_function(name: str, source: str, loaded: dict[str, str]) -> str:
    """A module as a function that is called at once, so that its names stay its own. 'loaded' has
    the names of the scripts that it may wait for."""
    def brought(found: re.Match[str]) -> str:
        whole, some, target = found.groups()
        names = whole or "{ " + " ".join((some or "").split()).replace(" as ", ": ") + " }"
        return f"const {names} = {_variable(_named(name, target))};\n"

    def awaited(found: re.Match[str]) -> str:
        return f"import('./{loaded[_named(name, found[1])]}')"
    names = [given for _, given in _EXPORT.findall(source)]
    body = _COMMENT.sub("", _EXPORT.sub(r"\1", _IMPORT.sub(brought, source)))
    waits = _LOADED.search(body)
    body = _LOADED.sub(awaited, body)
    left = _OTHER.search(body)
    if left:
        raise ValueError(f"web/{name} has a line of another form: {left[0]}")
    begin = "await (async () => {" if waits else "(() => {"
    return (f"const {_variable(name)} = {begin}\n{body.rstrip()}\n"
            f"return {{ {', '.join(names)} }};\n}})();\n")


def _needed(top: str, found: dict[str, str]) -> dict[str, list[str]]:
    """Each module that this one needs to begin, with those that it names."""
    graph: dict[str, list[str]] = {}
    waiting = [top]
    while waiting:
        name = waiting.pop()
        if name not in graph:
            graph[name] = [_named(name, target) for _, _, target in _IMPORT.findall(found[name])]
            waiting += graph[name]
    return graph


class Scripts:
    """The bytes of each by its name, and their names by the modules that they begin with."""

    def __init__(self) -> None:
        self.made: dict[str, bytes] = {}
        self.names: dict[str, str] = {}
        self._found = _modules()
        self._add("start.js")

    def _add(self, top: str) -> None:
        """All modules of a script, each after those that it names: the same bytes each time. What
        it waits for is made before, since it has the names of that."""
        graph = {name: sorted(named) for name, named in sorted(_needed(top, self._found).items())}
        for name in graph:
            for target in _LOADED.findall(self._found[name]):
                if _named(name, target) not in self.names:
                    self._add(_named(name, target))
        text = "".join(_as_function(name, self._found[name], self.names)
                       for name in TopologicalSorter(graph).static_order())
        given = ", ".join(name for _, name in _EXPORT.findall(self._found[top]))
        if given:
            text += f"export const {{ {given} }} = {_variable(top)};\n"
        self.names[top] = _name_of(text.encode(), "js")
        self.made[self.names[top]] = text.encode()


def _name_of(data: bytes, kind: str) -> str:
    return f"page-{hashlib.sha256(data).hexdigest()[:16]}.{kind}"


def _pages(index: str, names: dict[str, str]) -> dict[str, bytes]:
    """The page by its names, one for each language: a browser asks for all scripts at once, and
    doesn't have to read the one to know of the next. No two have one length: by that and the date
    nginx says whether a browser has it already."""
    made: dict[str, bytes] = {}
    for file, texts in names.items():
        if language := _TEXTS.fullmatch(file):
            beside = "".join(map(_BESIDE.format, (names["app.js"], texts)))
            name = "index.html" if language[1] == _FIRST else f"index.{language[1]}.html"
            page = index.replace("</script>\n", f"</script>\n{beside}")
            made[name] = (page + "\n" * len(made)).encode()
    return made


def files() -> dict[str, bytes]:
    """What is installed, by its name: the last are the pages that name the others."""
    index = _read("index.html")
    sheet = "".join(_read(name) for name in _STYLE.findall(index)).encode()
    scripts, sign = Scripts(), _read("icon.svg").encode()
    names = {"js": scripts.names["start.js"], "css": _name_of(sheet, "css"),
             "svg": _name_of(sign, "svg")}
    index = _STYLE.sub("", index).replace(
        f"  {_SCRIPT}", f'  <link rel="stylesheet" href="{names["css"]}">\n  {_SCRIPT}')
    index = index.replace('"start.js"', f'"{names["js"]}"').replace(
        '"icon.svg"', f'"{names["svg"]}"')
    made = {names["css"]: sheet, **scripts.made, names["svg"]: sign,
            "style.css": _read("style.css").encode(), "me": _read("me").encode()}
    for name in (names["css"], *scripts.made):
        made[f"{name}.gz"] = gzip.compress(made[name], mtime=0)
    return {**made, **_pages(index, scripts.names)}


def lay_apart(place: str) -> None:
    """The modules, beside one another: no two of them have one name."""
    os.makedirs(place, exist_ok=True)
    for name, source in _modules().items():
        with open(f"{place}/{os.path.basename(name)}", "w", encoding="utf-8") as out:
            out.write(_PATH.sub("./", source))


if __name__ == "__main__":
    if len(sys.argv) != 2:
        sys.exit(__doc__)
    lay_apart(sys.argv[1])
