"""The pages, read as Markdown: which lines are code and which are text, and what their headings are called in a link."""

import glob, re

# A link or an image, whose text may have brackets in code marks: its text and where it leads.
LINK = re.compile(r'!?\[((?:`[^`]*`|[^\]`])*)\]\(([^)\s]+)\)')


def pages():
    return ['README.md', 'CONTRIBUTING.md', *sorted(glob.glob('docs/*.md'))]


def lines_of(text):
    """Each line with whether it is code: between fences, or after four blanks below an empty line and outside of a list."""
    fenced = code = False
    item = False
    before = ''
    for line in text.split('\n'):
        if line.startswith('```'):
            fenced = not fenced
            yield line, True
        elif fenced:
            yield line, True
        else:
            code = line.startswith('    ') and not item and (code or not before) or code and not line
            item = bool(re.match(r'\s*([-*]|\d+\.) ', line)) and not code or item and (not line or line[0] == ' ')
            yield line, code
        before = line


def name_of(heading):
    """What a link calls a heading: small letters, digits, strokes, and a stroke for each blank."""
    return re.sub(r'[^\w\- ]', '', heading.strip().lower()).replace(' ', '-')


def headings(text):
    """The names of a page's headings: one that comes again has a number behind it."""
    names = []
    for line, code in lines_of(text):
        if not code and re.match(r'#+ ', line):
            name = name_of(line.lstrip('#'))
            again = sum(1 for other in names if other == name)
            names.append(f'{name}-{again}' if again else name)
    return names
