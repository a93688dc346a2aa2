"""Asks for reports of each example as JSON, and reads the lines: json_lines.py PROGRAM OBJECTS. Each line has to be one object, with the
keys that docs/JSON.md has for its `line`, each of its type and none twice, and the records and counts of its line of the report; and
the status and standard error are those of the report. All objects are written to the file OBJECTS. What is wrong stands before the last
line, 'N passed, M failed'."""

import json, re, subprocess, sys

PROGRAM, OBJECTS = sys.argv[1:]
PAGE = open('docs/JSON.md', encoding='utf-8').read()
EXAMPLES = [row.split('|')[0] for row in open('examples/ANSWERS', encoding='utf-8').read().split('\n') if row and row[0] != '#']
REPORTS = ('check', 'explain', 'explain --bytes', 'run', 'why', 'check --all', 'explain --all --bytes', 'why --all', 'explain --hands',
           'run --hands', 'why --hands')

# The keys of each kind of line: rows `| `KEY`, `KEY` | TYPE | ...` of the tables below the headings that name it, "### `KIND`, `KIND`".
TYPES = {'number': int, 'text': str, 'object': dict, 'list of texts': list}
COUNTS = ('first_record', 'record', 'records', 'exchanges', 'passed_over', 'open', 'breaks')
keys_of = {}
for section in PAGE.split('\n### ')[1:]:
    rows = {key: type for keys, type in re.findall(r'^\| ((?:`\w+`(?:, )?)+) \| ([a-z ]+) \|', section, re.M)
            for key in re.findall(r'\w+', keys)}
    for kind in re.findall(r'`(\w+)`', section.split('\n')[0]):
        keys_of.setdefault(kind, {'line': 'text'}).update(rows)

def as_object(pairs):
    names = [name for name, _ in pairs]
    if len(set(names)) < len(names):
        raise ValueError(f'a key twice: {names}')
    return dict(pairs)

def wrong(text, line):
    found = json.loads(text, object_pairs_hook=as_object)
    keys = keys_of.get(found.get('line'))
    if keys is None:
        return 'a line that the page does not have'
    for name, value in found.items():
        if name not in keys or type(value) is not TYPES[keys[name]]:
            return f'{name} is not as the page has it'
    told = [int(number) for number in re.findall(r'\b(?:records?|exchanges|passed over|open|breaks) (\d+)', line)]
    told += [int(number) for number in re.findall(r'^records \d+ to (\d+)', line)]
    for name in COUNTS:
        if name in found and found[name] not in told:
            return f'{name} is not that of the line: {line}'

# A command that was not obeyed has an object, and no line.
NOT_OBEYED = '{"line":"not_obeyed",'

def faults(report, objects):
    report, objects = (lines.split('\n') for lines in (report, objects))
    for text in objects:
        if text.startswith(NOT_OBEYED) and set(json.loads(text)) != set(keys_of['not_obeyed']):
            yield f'not the keys of the page: {text}'
    objects = [text for text in objects if not text.startswith(NOT_OBEYED)]
    if report[-1] != '' or objects[-1] != '' or len(report) != len(objects):
        yield f'{len(report) - 1} lines, and {len(objects) - 1} objects'
    for text, line in zip(objects[:-1], report[:-1]):
        try:
            what = wrong(text, line)
        except ValueError as error:
            what = error
        if what:
            yield f'{what}: {text}'

def run(*words):
    done = subprocess.run([PROGRAM, *words], stdin=subprocess.DEVNULL, capture_output=True)
    return done.stdout.decode(), (done.returncode, done.stderr)

passed = failed = 0
with open(OBJECTS, 'w', encoding='utf-8') as kept:
    for name in EXAMPLES:
        for words in REPORTS:
            report, end = run(*words.replace('why', 'why --quiet').split(), f'examples/{name}')
            objects, json_end = run('json', *words.split(), f'examples/{name}')
            kept.write(objects)
            found = list(faults(report, objects))
            if json_end != end:
                found.append(f'it ends so: {json_end}, and the report so: {end}')
            passed += not found
            failed += bool(found)
            for what in found:
                print(f'FAILED json {words} {name}: {what}')
print(f'{passed} passed, {failed} failed')
