"""Prints which of the files FILE .. have 500 lines or more, and which functions of those in Python
have more than 40."""
import ast
import sys
from collections.abc import Iterator


def _found(file: str) -> Iterator[str]:
    with open(file, encoding="utf-8") as source:
        text = source.read()
    if (count := len(text.splitlines())) >= 500:
        yield f"{file}: {count} lines"
    if not file.endswith(".py") and not text.startswith(("#!/usr/bin/python3",
                                                         "#!/usr/bin/env python3")):
        return
    for one in ast.walk(ast.parse(text)):
        if isinstance(one, (ast.FunctionDef, ast.AsyncFunctionDef)):
            count = (one.end_lineno or one.lineno) - one.lineno + 1
            if count > 40:
                yield f"{file}:{one.lineno}: {one.name} has {count} lines"


for name in sys.argv[1:]:
    print("".join(f"{row}\n" for row in _found(name)), end="")
