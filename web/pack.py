#!/usr/bin/env python3
"""pack.py MODULE.wasm VERSION OUT.html: the one file. It puts the style, the scripts, the worker, the module and what the page shows of
the repository in place of page.html's markers. The same module and texts give the same bytes."""
import base64
import gzip
import json
import pathlib
import re
import sys

HERE = pathlib.Path(__file__).resolve().parent
TOP = HERE.parent
# A yes, a broken rule and a disputed point.
EXAMPLES = ['play', 'late-reply', 'disputed-in-point']


def text_of(path):
    return path.read_text(encoding='utf-8')


def script(*paths):
    """Texts of scripts, one behind the other, as they may stand in an element."""
    text = '\n'.join(text_of(path) for path in paths)
    if '</script' in text or '<!--' in text:
        sys.exit(f'pack.py: an element would end inside {", ".join(path.name for path in paths)}')
    return text


def as_json(value):
    """Text for a script element: no end tag, nor what begins a comment, can stand in it."""
    return json.dumps(value, ensure_ascii=False, separators=(',', ':')).replace('<', '\\u003c')


def plain(markdown):
    """A paragraph of a page as plain text in one line."""
    return re.sub(r'\*\*|`', '', ' '.join(markdown.split()))


def reasons():
    """Of each reason of docs/REASONS.md its name, the sentence that says what happened, and who is at fault."""
    found = {}
    for section in re.split(r'^## ', text_of(TOP / 'docs' / 'REASONS.md'), flags=re.M)[1:]:
        head, *paragraphs = re.split(r'\n\s*\n', section)
        named = re.fullmatch(r'([A-Z]\d) (.*)', head.strip())
        if named:
            fault = re.search(r'^- \*\*At fault\*\*: (.*?)(?=^- |\Z)', section, flags=re.M | re.S)
            found[named[1]] = {'name': named[2], 'says': plain(paragraphs[0]), 'fault': plain(fault[1]) if fault else ''}
    if not found:
        sys.exit('pack.py: docs/REASONS.md names no reason')
    return found


def examples():
    return [{'name': f'{name}.csv', 'text': text_of(TOP / 'examples' / f'{name}.csv')} for name in EXAMPLES]


def parts(module, version):
    sheet = TOP / 'decks' / 'nine-pin-commands.toml'
    return {
        'STYLE': text_of(HERE / 'style.css'),
        'SCRIPTS': script(*sorted(HERE.glob('page/*.js'))),
        'WORKER': script(HERE / 'host.js', HERE / 'worker.js'),
        'WASM': base64.b64encode(gzip.compress(module, 9, mtime=0)).decode(),
        'REASONS': as_json(reasons()),
        'EXAMPLES': as_json(examples()),
        'SHEET': as_json({'name': sheet.name, 'text': text_of(sheet)}),
        'VERSION': version,
    }


def main():
    module, version, out = sys.argv[1:]
    put = parts(pathlib.Path(module).read_bytes(), version)
    page = re.sub(r'@([A-Z]+)@', lambda found: put[found[1]], text_of(HERE / 'page.html'))
    pathlib.Path(out).write_text(page, encoding='utf-8')


if __name__ == '__main__':
    main()
