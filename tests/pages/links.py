"""Reads the pages: each name of a page is a link, each link leads to a file and a heading that are there, each picture is there, and no
line of code is longer than a forge shows. What is wrong stands before the last line, 'N passed, M failed'."""

import os, re, sys
from marked import LINK, headings, lines_of, pages

# A forge shows about so many characters of a line of code, and cuts what is behind them.
LONGEST = 98


def leads_nowhere(page, target, read):
    """Why a link of this page leads nowhere, or nothing."""
    if '://' in target:
        return 'an address outside of the repository'
    file, _, heading = target.partition('#')
    path = os.path.normpath(os.path.join(os.path.dirname(page), file)) if file else page
    text = read(path)
    if text is None:
        return 'no such file'
    if heading and heading not in headings(text):
        return 'no such heading'
    return None


def faults(page, text, read):
    """What is wrong on this page, a line each."""
    rest = []
    for line, code in lines_of(text):
        if not code:
            rest.append(line)
        elif len(line.removeprefix('    ')) > LONGEST:
            yield f'{len(line.removeprefix("    "))} characters of code: {line.strip()[:60]}'
    # A link may go on in the next line.
    rest = '\n'.join(rest)
    for _, target in LINK.findall(rest):
        why = leads_nowhere(page, target, read)
        if why:
            yield f'{target}: {why}'
    # What stands in code marks with a blank is a command, or a text of the program.
    words = re.sub(r'`[^`]*`', lambda mark: '' if re.search(r'\s', mark[0]) else mark[0], LINK.sub('', rest))
    for name in re.findall(r'[\w/.-]*[A-Z]+\.md\b', words):
        yield f'{name} is no link'


def read_file(path):
    """The text of a file, empty for a folder or a picture, or nothing where there is none."""
    if not os.path.exists(path):
        return None
    return open(path, encoding='utf-8').read() if path.endswith('.md') else ''


# Pages with one fault each, and one without, so that a fault that is no longer found is told.
PLANTED = [
    ('See [A](A.md#a-heading-of-a) and ![a picture](p.png).\n\n    short\n', None),
    ('See `docs/A.md`.', 'docs/A.md is no link'),
    ('See A.md.', 'A.md is no link'),
    ('It says `see A.md`.', None),
    ('[B](B.md)', 'B.md: no such file'),
    ('[A](A.md#another)', 'A.md#another: no such heading'),
    ('[here](#another)', '#another: no such heading'),
    ('![a picture](q.png)', 'q.png: no such file'),
    ('[out](https://example.org/)', 'https://example.org/: an address outside of the repository'),
    ('Text:\n\n    ' + 'x' * 99 + '\n', '99 characters of code: ' + 'x' * 60),
    ('```\n' + 'x' * 99 + '\n```', '99 characters of code: ' + 'x' * 60),
]


def main():
    passed = failed = 0
    planted = {'A.md': '# A\n\n## A heading, of `A`\n', 'p.png': ''}
    for text, want in PLANTED:
        found = list(faults('P.md', text, {'P.md': text, **planted}.get))
        passed += found == [want] * bool(want)
        if found != [want] * bool(want):
            failed += 1
            print(f'FAILED a planted page: {text[:40]!r} has {found}')
    for page in pages():
        found = list(faults(page, open(page, encoding='utf-8').read(), read_file))
        passed += not found
        failed += bool(found)
        for what in found:
            print(f'FAILED {page}: {what}')
    print(f'{passed} passed, {failed} failed')
    return failed > 0


sys.exit(main())
