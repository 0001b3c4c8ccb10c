"""The examples of lists that stand in the pages of docs, so that both are tested by the same
ones."""

import glob
import re


def blocks(text):
    """The indented and fenced pieces that begin with a list line. A here-document ends them,
    too."""
    lines = text.split('\n')
    for index, line in enumerate(lines):
        begun = re.match(r'( {4})?list:[ap]*$', line)
        if not begun:
            continue
        indent = begun[1] or ''
        entry = re.compile(re.escape(indent) + r'[^\s:`]*:[^:`]*:[^:`]*:[^:`]*$')
        piece = [line]
        for follower in lines[index + 1:]:
            if not entry.match(follower):
                break
            piece.append(follower)
        yield ''.join(one[len(indent):] + '\n' for one in piece)


def shown_text(cell):
    """A text in a table of docs, where ' / ' is LF."""
    if cell == 'nothing':
        return ''
    written = re.match(r'`(.*?)`', cell)[1]
    return re.sub(r' ?/ ?$', '\n', written).replace(' / / ', '\n\n').replace(
        ' / ', '\n').replace(' /  ', '\n ')


def of_docs(docs):
    texts = []
    for path in sorted(glob.glob(f'{docs}/*.md')):
        with open(path, encoding='utf-8') as file:
            texts += blocks(file.read())
    rules = ''
    for page in ('access-lists', 'list-text'):
        with open(f'{docs}/{page}.md', encoding='utf-8') as file:
            rules += file.read()
    entries = [[written, told or code] for written, told, code in
               re.findall(r'^\| `([^`]*)` \| (?:printed `([^`]*)`|(A\d+))', rules, re.M)]
    entries.append(['A:g:OWNER@:r', 'A:g:OWNER@:r'])
    faults = [[shown_text(cell), int(line), code] for cell, line, code in
              re.findall(r'^\| (nothing|`[^`]* /`.*?|`list: a /`) \| line (\d+), (A\d+)',
                         rules, re.M)]
    long = re.search(r'So this text\n\n(.*?)\n\nis read, and printed as\n\n(.*?)\n\n', rules, re.S)
    printed = [re.sub(r'^ {4}', '', one, flags=re.M) + '\n' for one in long.groups()]
    below = re.search(r'^\| the parent\'s entry \|.*\n\|.*\n((?:\|.*\n)+)', rules, re.M)[1]
    passed = [[cell.strip(' `') for cell in line.strip('|').split('|')]
              for line in below.splitlines()]
    return {'texts': texts, 'entries': entries, 'faults': faults, 'printed': printed,
            'passed': passed}
