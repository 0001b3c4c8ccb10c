"""Tables that the web interface and rooms-admin both read: web/tables in the repository, tables
beside the package once it is installed. Each is a module of the page that is JSON from its first
brace on."""
import functools
import json
import os
from typing import Any

_SHARE = os.path.dirname(os.path.dirname(os.path.dirname(os.path.abspath(__file__))))
_PLACES = (f"{_SHARE}/tables", f"{os.path.dirname(_SHARE)}/web/tables")


@functools.cache
def table(name: str) -> Any:
    place = next(one for one in _PLACES if os.path.isdir(one))
    with open(f"{place}/{name}.js", encoding="utf-8") as source:
        text = source.read()
    return json.loads(text[text.index("{"):text.rindex("}") + 1])
