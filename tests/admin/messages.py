"""For tests: each message of rooms-admin stands on docs/messages.md, or among those that need no
remedy (plain-lines.txt). PACKAGE PAGE: prints those that don't. A table has them between
backquotes: .. stands for anything, a word in capitals for a name, and anything may follow."""
import ast
import glob
import itertools
import os
import re
import sys

package, page = sys.argv[1:]
# What is said by: the faults, and what prints, mails or logs a line. The number says which argument
# it is, and the text what a line has before it.
SAID = {"Stop": (0, ""), "Refused": (0, ""), "Busy": (0, ""), "NoGroup": (0, ""),
        "Slow": (0, ""), "say": (0, ""), "failed": (0, ""), "NoFile": (0, "X: "),
        "report": (1, "X: "),
        "not_done": (2, "not taken back: X: X: "), "Changed": (0, "not taken back: X: X: "),
        "cause": (0, "")}
# Lists of lines that are told.
LISTS = {"undone", "failures", "lacks", "wrong"}
# Modules whose functions give a line, or a level and a line.
GIVES = {"health.py", "watched.py", "front.py", "certificates.py"}
# And what these return is a line, or several.
RETURNS = {"health.py", "front.py", "tidying.py"}
# These hand on what was caught, or what somebody else said.
NOTHING = re.compile(r"[X:; ]*")


def texts(node):
    """What a text can be, with X for what isn't known before it runs."""
    if isinstance(node, ast.Constant) and isinstance(node.value, str):
        return [node.value]
    if isinstance(node, ast.JoinedStr):
        return ["".join(parts) for parts in itertools.product(*map(texts, node.values))]
    if isinstance(node, ast.FormattedValue):
        return texts(node.value) if isinstance(node.value, ast.IfExp) else ["X"]
    if isinstance(node, ast.BinOp) and isinstance(node.op, ast.Add):
        return [a + b for a in texts(node.left) for b in texts(node.right)]
    if isinstance(node, ast.IfExp):
        return texts(node.body) + texts(node.orelse)
    if isinstance(node, ast.BoolOp):
        return [text for value in node.values for text in texts(value)]
    return ["X"]


def name_of(function):
    return getattr(function, "id", getattr(function, "attr", ""))


def given(node, file):
    """The texts of a message that begins at this node, if one does."""
    if isinstance(node, ast.Call):
        name = name_of(node.func)
        if name in SAID and len(node.args) > SAID[name][0]:
            number, before = SAID[name]
            return [before + text for text in texts(node.args[number])]
        if name == "append" and name_of(node.func.value) in LISTS:
            return texts(node.args[0])
    if file in GIVES and isinstance(node, ast.Tuple) and len(node.elts) == 2:
        level, text = node.elts
        if name_of(level) in ("WARNING", "CRITICAL") or (
                isinstance(level, ast.Constant) and level.value in (1, 2)):
            return texts(text)
    if file in RETURNS and isinstance(node, ast.Return):
        lines = node.value.elts if isinstance(node.value, ast.List) else [node.value]
        return [text for one in lines if isinstance(one, (ast.JoinedStr, ast.BinOp))
                for text in texts(one)]
    return []


def pattern(one):
    one = re.sub(r"\\\.\\\.", ".*", re.escape(one).replace(r"\ ", " "))
    return re.compile(re.sub(r"\b[A-Z]{1,}\b", ".+", one) + ".*", re.DOTALL)


def patterns():
    with open(page, encoding="utf-8") as source:
        for line in source:
            if line.startswith("| "):
                cell = line.replace(r"\|", "|").split(" | ")[0]
                yield from map(pattern, re.findall(r"`([^`]+)`", cell))
    plain = os.path.join(os.path.dirname(__file__), "plain-lines.txt")
    with open(plain, encoding="utf-8") as source:
        for line in source:
            if line.strip() and not line.startswith("#"):
                yield pattern(line.strip())


known = list(patterns())
for path in sorted(glob.glob(os.path.join(package, "**", "*.py"), recursive=True)):
    file = os.path.basename(path)
    with open(path, encoding="utf-8") as source:
        tree = ast.parse(source.read())
    for node in ast.walk(tree):
        for text in given(node, file):
            if not NOTHING.fullmatch(text) and not any(one.fullmatch(text) for one in known):
                print(f"{file}:{node.lineno}: {text}")
