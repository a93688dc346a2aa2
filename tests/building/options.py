"""Which options each word takes, by the sources: options.py writes a line for each word, parted by bars: its name, the options that help
offers, and those that it only takes. It reads `arguments_of` and the constants of crates/words9/src/arguments.rt, and the names in
verbs.rt.
"""
import pathlib
import re

SOURCES = pathlib.Path('crates/words9/src')
# An option's long name: the first text of a switch, and `long` of one with a value.
KINDS = {'Switch': r'Switch\(\s*"([a-z-]+)"', 'Unoffered': r'Unoffered\("([a-z-]+)"', 'Value': r'long: "([a-z-]+)"'}


def constants(text):
    """The text of each constant, by its name."""
    return dict(re.findall(r'^const ([A-Z_]+): [^=]+ = (.*?);\n', text, re.M | re.S))


def options_in(text, known):
    """The options that a text of Rattle names, in order: each with whether help offers it."""
    place = re.compile('|'.join([*KINDS.values(), r'(Argument::Rate)', r'(?<!")\b([A-Z][A-Z_]+)\b(?!::)']))
    for switch, unoffered, value, rate, constant in place.findall(text):
        if constant in known:
            yield from options_in(known[constant], known)
        elif unoffered:
            yield unoffered, False
        elif switch or value or rate:
            yield switch or value or 'rate', True


def main():
    arguments, verbs = ((SOURCES / name).read_text() for name in ('arguments.rt', 'verbs.rt'))
    known = constants(arguments)
    names = dict(re.findall(r'Verb::(\w+) => "([a-z ]+)"', verbs[:verbs.index('fn about')]))
    arms = arguments[arguments.index('match verb {'):]
    taken = {}
    for variants, list_of in re.findall(r'((?:Verb::\w+(?: \| )?)+) => (&\[.*?\]|[A-Z]+),\n', arms, re.S):
        for variant in re.findall(r'Verb::(\w+)', variants):
            taken[names[variant]] = list(options_in(list_of, known))
    assert set(taken) == set(names.values()), set(names.values()) ^ set(taken)
    for word, options in taken.items():
        print(word, *(' '.join(name for name, is_offered in options if is_offered == wanted) for wanted in (True, False)), sep='|')


main()
