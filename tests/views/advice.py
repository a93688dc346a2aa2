# Each command line that the program prints as advice, or puts on a page, is run as it stands, and has to give what is said of it.
#
#   advice.py PROGRAM FOLDER SHEET...     asks of each capture FOLDER/NAME.csv in that folder, so the commands name none: at 25 frames a
#                                         second, and at the rate in NAME.csv.args where that is there. `try` has these sheets besides.
#
# A line that names a command or an option, and has none of the forms below, has failed. The last line is 'N passed, M failed'.
import collections, glob, html, os, re, shlex, subprocess, sys

program, folder, *sheets = sys.argv[1:]
counts = collections.Counter()
# How often each form came.
taken = collections.Counter()

def judge(told, is_so, *besides):
    counts['passed' if is_so else 'failed'] += 1
    if not is_so:
        print('FAILED', told, *besides, sep='\n')

def ask(*words):
    return subprocess.run([program, *words], cwd=folder, capture_output=True)

def lines_of(said):
    return said.decode().splitlines()

def has_sign(name, words, capture):
    told = ask('info', *words, capture)
    return told.returncode == 0 and any(line.startswith(f'look at: {name}, ') for line in lines_of(told.stdout))

def verdicts(words, capture):
    told = ask('check', *words, capture)
    return told.returncode, lines_of(told.stdout)

def at_rate(words, rate):
    kept = list(words)
    if '--rate' in kept:
        at = kept.index('--rate')
        del kept[at:at + 2]
    return [*kept, '--rate', rate]

# ---- What is said on standard error, and by `info`. Each takes what the form found, and the words that were asked with.

# The words that were asked with, and those that are to be added: another rate takes the place of one's own.
def with_terms(words, terms):
    added = shlex.split(terms)
    return [*(at_rate(words, '25')[:-2] if '--rate' in added else words), *added]

# The terms that are a yes, in which `--deck` alone stands for all sheets that were given.
def makes_a_yes(found, words, capture):
    for terms in re.split(', or with |,? and (?=--rate)|, (?=--rate)', re.sub(r' \(.*\)$', '', found[1])):
        terms = re.sub(r'--deck(?= --|$)|beside your own', ' '.join(named_sheets()), terms)
        status, told = verdicts(with_terms(words, terms), capture)
        judge(f'{capture} {words}: a yes with {terms}', status == 0 and told[-1].startswith('yes: '), *told)

def named_sheets():
    return [word for sheet in sheets for word in ('--deck', sheet)]

# That record breaks no rule with these words.
def keeps_the_rules(found, words, capture):
    options = with_terms(words, re.sub(r' \(.*| beside .*|; .*', '', found[2]))
    told = verdicts(['--all', *options], capture)[1]
    breaks = [line for line in told if line.startswith(f'no at record {found[1]}: ')]
    judge(f'{capture} {words}: record {found[1]} with {options}', not breaks, *breaks)

def nothing_is_a_yes(found, words, capture):
    told = lines_of(ask('try', *words, capture).stdout)
    judge(f'{capture} {words}: nothing makes it a yes', told and not any(': yes: ' in line for line in told), *told)

def is_rate(found, words, capture):
    for rate in re.findall(r'--rate (\S+)', found[1].replace(',', ' ')):
        judge(f'{capture} {words}: the rate {rate}', not has_sign('rate', at_rate(words, rate), capture))

def is_sync(found, words, capture):
    synced = [*words, '--sync']
    is_judged = verdicts(synced, capture)[0] < 2
    judge(f'{capture} {words}: --sync', is_judged and not has_sign('begins inside traffic', synced, capture))

SAID = [(r'(?:next: )?(?:.* is not valid at .*; )?yes with (.*)$', makes_a_yes),
        (r'next: .* is not valid at any rate: ', None),
        (r'(?:next: )?(?:.*; )?record (\d+) keeps the rules with (.*)$', keeps_the_rules),
        (r'next: .*; no other frame rate fits$', None),
        (r'next: no frame rate, hand on the panel or sheet of the program explains it', nothing_is_a_yes),
        (r'look at: rate, .*; ask with (.*)$', is_rate),
        (r'look at: .*; ask with (--sync)$', is_sync)]

# What a line that has none of these forms does not have.
COMMAND = re.compile(r'ninecheck [a-z]|--[a-z]|^next: |^yes with ')

def judge_said(words, capture):
    others = []
    for word, more in (('why', []), ('info', []), ('digest', []), ('motion', []), ('try', named_sheets())):
        told = ask(word, *words, *more, capture)
        # The answers of `try` are those of `check`, which tests/views/try.sh sees to.
        said = told.stderr if word == 'try' else told.stderr + told.stdout
        others += [line for line in lines_of(said) if told.returncode < 2 and not has_form(line, words, capture)]
    judge(f'{capture} {words}: no advice of another form', not others, *others)

# Whether a line is advice of a form, whose claim is judged then, or none.
def has_form(line, words, capture):
    for form, claim in SAID:
        found = re.match(form, line)
        if found:
            taken[form] += 1
            if claim:
                claim(found, words, capture)
            return True
    return line.startswith('frames told to frames elapsed: ') or not COMMAND.search(line)

# ---- What stands on a page. Each takes the words of the command, the page, its breaks, and how many things it says are not listed.

def makes_it_again(words, page, breaks, _):
    return ask(*words).stdout == page

def has_all(words, page, breaks, unlisted):
    told = ask(*words)
    return told.returncode < 2 and len(lines_of(told.stdout)) >= unlisted > 0

def lists_them(words, page, breaks, unlisted):
    told = [line for line in lines_of(ask(*words).stdout) if line.startswith('no at record ')]
    return told == breaks and len(told) >= unlisted > 0

# Any break: the last one here.
def draws_it(words, page, breaks, _):
    record = re.match(r'no at record (\d+)', breaks[-1])[1]
    told = ask(*[record if word == 'RECORD' else word for word in words])
    return told.returncode == 1 and told.stdout.startswith(b'<svg') and breaks[-1].encode() in told.stdout

ON_PAGE = [(r'()Made by <code>ninecheck (.*?)</code>', makes_it_again),
           (r'([0-9,]+) [^<0-9]*not listed: <code>ninecheck ([^<]*)</code> has all', has_all),
           (r'([0-9,]+) [^<0-9]*not listed. <code>ninecheck ([^<]*)</code> lists them', lists_them),
           (r'()<code>ninecheck ([^<]*)</code> draws any other', draws_it)]

def judge_page(words, more, capture):
    made = ask('page', *words, *more, capture)
    if made.returncode > 1:
        return
    page = made.stdout.decode()
    options, totals = re.search(r'<code>(--all[^<]*)</code></dd>', page)[1], re.search(r'<code>(breaks \d+: [^<]*)</code>', page)[1]
    told = verdicts(shlex.split(html.unescape(options)), capture)[1]
    judge(f'{capture} {words} {more}: judged with {options}', told[-1] == totals, *told)
    named = judge_doubts(page, words, capture)
    for form, claim in ON_PAGE:
        for unlisted, command in re.findall(form, page):
            named += 1
            taken[form] += 1
            number = int(unlisted.replace(',', '') or 0)
            judge(f'{capture}: {command}', claim(shlex.split(html.unescape(command)), made.stdout, told[:-1], number), form)
    commands = page.count('<code>ninecheck ') + page.count('<code>--sync</code>')
    judge(f'{capture} {words} {more}: each command of the page', named == commands)

# What the page says of a reason that is in doubt, and the sign of `info` that says where, or who.
DOUBTS = [('a hole in both wires', '<code>ninecheck info</code> says where'),
          ('a block sent short', '<code>ninecheck info</code> names it'),
          ('begins inside traffic', 'Ask again with <code>--sync</code>')]

def judge_doubts(page, words, capture):
    named = 0
    for sign, doubt in DOUBTS:
        for _ in range(page.count(doubt)):
            named += 1
            taken[doubt] += 1
            judge(f'{capture} {words}: {doubt}', has_sign(sign, words, capture))
    return named

def main():
    for path in sorted(glob.glob(f'{folder}/*.csv')):
        capture = os.path.basename(path)
        rates = {'25', *(open(path + '.args').read().split() if os.path.exists(path + '.args') else [])}
        for rate in sorted(rates):
            words = [] if rate == '25' else ['--rate', rate]
            judge_said(words, capture)
            judge_page(words, [], capture)
        judge_page([], ['--hands', '--from', '0.01'], capture)
    for form in [form for form, _ in SAID + ON_PAGE] + [doubt for _, doubt in DOUBTS]:
        judge(f'a line of the form {form}', taken[form] > 0)
    print(f"{counts['passed']} passed, {counts['failed']} failed")

main()
