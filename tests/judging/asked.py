"""Compares what came with what is wanted: asked.py WANT CAME. Both have a line for each thing that was asked, which begins with
`capture `, and then what was written. The last line is 'N passed, M failed'."""
import sys


def read(path):
    """What was written, by what was asked."""
    written, asked = {}, None
    with open(path) as file:
        for line in file:
            if line.startswith('capture '):
                asked = line
                written[asked] = ''
            else:
                written[asked] += line
    return written


def main(want_path, came_path):
    want, came = read(want_path), read(came_path)
    wrong = [asked for asked, text in want.items() if came.get(asked) != text]
    for asked in wrong:
        print(f'FAILED {asked}{came.get(asked, "")}wanted\n{want[asked]}', end='')
    print(f'{len(want) - len(wrong)} passed, {len(wrong)} failed')


if __name__ == '__main__':
    main(*sys.argv[1:])
