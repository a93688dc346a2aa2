"""What is asked of each case of a table.

The whole of what comes must be that of the case. Beside that check, explain, run and why, each with hands, at a rate and with a sheet where
they are asked for, must end with the same status as what is asked, with the same last line where there is a verdict, and with the same standard
error. With --all check, explain and why must write the same first, and of a yes the totals in its place. Where --all is asked for
itself, all three must have the same breaks, totals, status and standard error. This is not tried where the words are at fault, or name a
file by its path. Of a view (digest, delays, motion, json) `check` must end with the same status and the same standard error.
"""
import difflib
import functools
import re
import subprocess

from program import PROGRAM, ROOT


class Checks:
    """The checks of a case, whose capture lies in this file."""

    def __init__(self, case, capture):
        self.case, self.capture = case, capture
        self.wanted = case.status, case.out, case.err
        self.ask = functools.cache(self.ask)

    def ask(self, words):
        """What comes of these words on the capture: the status and both streams. `why` is asked without what to ask next, but for a
        case that has something on standard error."""
        if not self.case.err:
            words = re.sub('^why(?!.* --quiet)', 'why --quiet', words)
        with open(self.capture, 'rb') as capture:
            done = subprocess.run([PROGRAM, *words.split()], stdin=capture, capture_output=True, cwd=ROOT)
        return done.returncode, done.stdout, done.stderr

    def all(self):
        """The name of each check, and what came instead where it failed."""
        for words in self.case.asks:
            came = self.ask(words)
            yield words, None if came == self.wanted else difference(self.wanted, came)
            asks_for_help = {'--help', '-h'} & set(words.split())
            if asks_for_help or self.case.status not in (0, 1, 3):
                continue
            verb = words.split()[0]
            if verb in ('digest', 'delays', 'motion', 'json'):
                yield f'{words}, as check ends', self.view_ends(words)
            elif verb in ('check', 'explain', 'run', 'why') and not re.search(r' (?!/dev/stdin|--)\S*/', words):
                yield f'{words}, and what else can be asked', self.ends_so(words)

    def view_ends(self, words):
        """With those of these words that it takes, `check` ends so too."""
        kept = [word for word in words.split()[1:] if re.match('--(hands|sync|all)$|--(rate|deck)=', word)]
        asked = ' '.join(['check', *kept])
        status, _, err = self.ask(asked)
        return None if (status, err) == (self.case.status, self.case.err) else f'{asked}\ncame {status, err}'

    def ends_so(self, words):
        """Whatever is asked of this capture, with hands, at a rate, with a sheet, and to its end or not as these words say, the end is the
        same."""
        options = (' --hands' if '--hands' in words.split() else '') + ''.join(re.findall(' --rate [^ ]+| --deck=[^ ]+', words))
        for verb in 'check', 'explain', 'run', 'why':
            in_parts = f'{verb} --all{options}'
            if '--all' in words.split():
                asked = [(in_parts, self.has_same_breaks)] if verb != 'run' else []
            else:
                asked = [(verb + options, functools.partial(self.is_end, verb))]
                if verb != 'run':
                    asked.append((in_parts, functools.partial(self.goes_on, verb + options)))
            for what, is_right in asked:
                if not is_right(*self.ask(what)):
                    return f'{what}\ncame {self.ask(what)}'

    def is_end(self, verb, status, out, err):
        """Where there is a verdict it is the last line, and else check, run and why write nothing."""
        if (status, err) != (self.case.status, self.case.err):
            return False
        return last_line(out) == last_line(self.case.out) if status in (0, 1) else verb == 'explain' or not out

    def goes_on(self, without, status, out, err):
        """What is written is what is written without --all, and after a break what comes after it."""
        alone = self.ask(without)[1]
        if self.case.status == 0:
            totals = re.sub(rb'\nyes: (.*), (open .*)\n$', rb'\nbreaks 0: \1, passed over 0, \2\n', b'\n' + alone)[1:]
            return (status, out, err) == (0, totals, b'')
        if self.case.status == 1:
            more = status == 1 and re.match(b'breaks [1-9]', last_line(out)) or status == 3 and err
            return out.startswith(alone) and bool(more)
        return (status, out, err) == (self.case.status, alone, self.case.err)

    def has_same_breaks(self, status, out, err):
        return (status, err, breaks(out)) == (self.case.status, self.case.err, breaks(self.case.out))


def difference(wanted, came):
    """What came in place of what was wanted, of each a status and two streams, line by line."""
    lines = [[f'status {status}', *shown('', out), *shown('standard error: ', err)] for status, out, err in (wanted, came)]
    return '\n'.join(difflib.unified_diff(*lines, 'wanted', 'came', lineterm=''))


def shown(before, stream):
    return [f'{before}{line}' for line in stream.decode(errors='backslashreplace').split('\n')]


def last_line(text):
    return text.removesuffix(b'\n').rsplit(b'\n', 1)[-1]


def breaks(text):
    return re.findall(b'^(?:no at record|breaks) .*', text, re.M)
