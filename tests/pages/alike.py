"""Counts pairs of sentences on two different pages that say the same: alike.py TABLE. A pair is one where the words that both have in
the same order are at least 6 of 10 of the longer one's, and 7 at least; words in code marks count as words, code and tables do not. The
pairs that may stay are rows `PAGE PAGE: WORDS: WHY` of the table, where WORDS are the first six that both have; any other pair has
failed, and so has a row without a pair. The last line is 'N passed, M failed'."""

import re, sys
from marked import LINK, lines_of, pages

LEAST = 7
MOST = 30


def least_shared(one, other):
    """How many words two sentences of so many have to share."""
    return max(LEAST, -(-max(one, other) * 6 // 10))


def sentences(text):
    """The sentences of a page, each a list of its words in small letters."""
    paragraphs = ['']
    for line, code in lines_of(text):
        if code or not line or line[0] in '|#!':
            paragraphs.append('')
        elif re.match(r'\s*([-*]|\d+\.) ', line):
            paragraphs.append(line)
        else:
            paragraphs[-1] += ' ' + line
    for paragraph in paragraphs:
        for sentence in re.split(r'(?<=[.;:?!])\s+', LINK.sub(r'\1', paragraph)):
            words = re.findall(r"[a-z0-9'=+-]+", sentence.lower())
            if len(words) >= LEAST:
                yield words


def shared(one, other):
    """The words that both have, in the same order: a longest such list."""
    rows = [[0] * (len(other) + 1) for _ in range(len(one) + 1)]
    for i in range(len(one) - 1, -1, -1):
        for j in range(len(other) - 1, -1, -1):
            rows[i][j] = rows[i + 1][j + 1] + 1 if one[i] == other[j] else max(rows[i + 1][j], rows[i][j + 1])
    i = j = 0
    words = []
    while i < len(one) and j < len(other):
        if one[i] == other[j]:
            words.append(one[i])
            i, j = i + 1, j + 1
        elif rows[i + 1][j] >= rows[i][j + 1]:
            i += 1
        else:
            j += 1
    return words


def may_be_alike(one, other):
    """Whether two sentences, each with the set of its words, have enough in common to be compared: this takes little time."""
    least = least_shared(len(one[0]), len(other[0]))
    return min(len(one[0]), len(other[0])) >= least and len(one[1] & other[1]) * 10 >= least * 7


def pairs(texts):
    """Each pair, as it stands in the table."""
    said = [(page, (words, frozenset(words))) for page, text in texts for words in sentences(text)]
    for at, (page, one) in enumerate(said):
        for other_page, other in said[at + 1:]:
            if page != other_page and may_be_alike(one, other):
                words = shared(one[0], other[0])
                if len(words) >= least_shared(len(one[0]), len(other[0])):
                    yield f'{page} {other_page}: {" ".join(words[:6])}'


def main():
    rows = [row for row in open(sys.argv[1], encoding='utf-8').read().split('\n') if row and row[0] != '#']
    kept = [row.rsplit(': ', 1)[0] for row in rows]
    found = sorted(set(pairs([(page, open(page, encoding='utf-8').read()) for page in pages()])))
    planted = 'Somebody may have touched the panel of this deck in the night.'
    wrong = [f'said on both: {pair}' for pair in found if pair not in kept]
    wrong += [f'in the table, and no longer on the pages: {row}' for row in kept if row not in found]
    if not list(pairs([('A.md', planted), ('B.md', f'In the night {planted}')])):
        wrong.append('a sentence that stands on two pages is not found')
    if len(kept) > MOST:
        wrong.append(f'more than {MOST} pairs may stay')
    for what in wrong:
        print(f'FAILED {what}')
    print(f'{len([pair for pair in found if pair in kept]) + 2 - (len(wrong) > 0)} passed, {len(wrong)} failed')
    return len(wrong) > 0


if __name__ == '__main__':
    sys.exit(main())
