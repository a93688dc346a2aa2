"""Changes what the program said of drawn captures so that it is wrong, for tests of the comparison: spoiling.py LIST RESULTS
FOLDER. For each way in which results can be wrong FOLDER/NAME has those of the first twenty captures that can be changed so, and of
no other."""
import copy
import re
import sys

from drawn_results import read_results, written
from deck.single import Ways, state_told
from deck.told import answered_text, asked_text, begin_of_line

MOST = 20
HOWS = {}


def how(name):
    """A way in which results are wrong: a function that changes them, and answers whether it could."""
    def add(change):
        HOWS[name] = change
        return change
    return add


def replaced(lines, place, *changes):
    """Makes the first of these changes that can be made in a line: a form, and what stands in its place."""
    for form, text in changes:
        line, count = re.subn(form, text, lines[place], count=1)
        if count:
            lines[place] = line
            return True
    return False


# ---- why

def contradicting(said):
    """How many of the lines of `why` are of a reply."""
    return len(said['why']) - 2 if said['why'][0].startswith('records') else 0


@how('left-out')
def lacks_the_first(drawn, said):
    if contradicting(said) < 2:
        return False
    del said['why'][0]
    return True


def before_the_first(drawn, said):
    """The line of the exchange before the first one that `why` names; none where there is none."""
    first = int(said['why'][0].split()[1])
    before = [exchange for exchange in drawn.capture.exchanges if exchange.first_record < first]
    if not before:
        return None
    return f'{begin_of_line(before[-1])}{asked_text(before[-1])} -> {answered_text(before[-1])}'


@how('added')
def has_a_reply_more(drawn, said):
    line = before_the_first(drawn, said) if contradicting(said) else None
    if line:
        said['why'].insert(0, line)
    return line is not None


@how('earlier')
def has_an_earlier_reply(drawn, said):
    line = before_the_first(drawn, said) if contradicting(said) > 1 else None
    if line:
        said['why'][0] = line
    return line is not None


@how('shown')
def could_show_other_modes(drawn, said):
    changes = (': shown any,', ': shown STOP,'), (': shown [^,]*,', ': shown any,')
    return contradicting(said) > 0 and replaced(said['why'], -2, *changes)


@how('register')
def could_show_another_in(drawn, said):
    changes = (' in unknown', ' in set'), (' in [^,]*', ' in unknown')
    return contradicting(said) > 0 and replaced(said['why'], -2, *changes)


@how('local')
def could_show_another_local(drawn, said):
    changes = ('local unknown', 'local no'), ('local [a-z]*', 'local unknown')
    return contradicting(said) > 0 and replaced(said['why'], -2, *changes)


@how('says')
def data_say_something_else(drawn, said):
    changes = [('says local no', 'says local yes'), ('says local yes', 'says local no'), ('shown none', 'shown REC'),
               ('in set', 'in clear'), ('in clear', 'in set'), (', says shown [^,]*', ', says shown none')]
    return any(replaced(said['why'], place, *changes) for place in range(contradicting(said)))


@how('time')
def block_has_another_time(drawn, said):
    return any(replaced(said['why'], place, (r'\d\d:\d\d:\d\d:\d\d ', '05:05:05:05 ')) for place in range(contradicting(said)))


# ---- check

@how('record')
def breaks_at_another_record(drawn, said):
    return said['check'][0].startswith('no') and replaced(said['check'], 0, ('record [0-9]*', r'\g<0>0'))


@how('yes')
def is_a_yes(drawn, said):
    if not said['check'][0].startswith('no'):
        return False
    said['check'][0] = f'yes: records {drawn.capture.records}, exchanges {len(drawn.capture.exchanges)}, open 0'
    return True


# ---- run

def is_run(lines):
    return lines[0].startswith('record')


@how('state')
def state_in_the_other_local(drawn, said):
    """Of a run without hands a state is in local where the others are not, or the other way round."""
    exchanges = drawn.capture.exchanges
    may_change = any(exchange.effect.what == 'forget-all' for exchange in exchanges)
    if drawn.hands or may_change or len(exchanges) < 2 or not is_run(said['run']):
        return False
    return replaced(said['run'], 1, ('local no', 'local yes'), ('local yes', 'local no'))


def compared_with_one_another(drawn, said):
    """Without hands, and without a sheet, both runs are compared with one another alone."""
    return not drawn.hands and not drawn.has_sheet and is_run(said['run'])


@how('other-run')
def hands_have_another_run(drawn, said):
    middle = len(drawn.capture.exchanges) // 2
    return compared_with_one_another(drawn, said) and replaced(
        said['run --hands'], middle, ('aout clear', 'aout 05:05:05:05'), ('aout [^,]*', 'aout clear'))


@how('panel')
def panel_is_the_other(drawn, said):
    middle = len(drawn.capture.exchanges) // 2
    return compared_with_one_another(drawn, said) and replaced(
        said['run --hands'], middle, (', panel off', ', panel on'), (', panel on', ', panel off'))


@how('hand')
def hand_moves_more_often(drawn, said):
    """A state that wants more moves of a hand: wrong only where the fewest are wanted. Where nobody has to touch it one run alone
    is right."""
    lines = said['run --hands']
    if not drawn.hands or not is_run(lines) or not said['check'][0].startswith('no'):
        return False
    exchanges = drawn.capture.exchanges
    states = [state_told(line, exchange.last_record, True) for exchange, line in zip(exchanges, lines)]
    for place in range(1, len(exchanges) - 1):
        if may_have_been_moved(drawn, place, states):
            return replaced(lines, place, ('aout [^,]*', 'aout 05:05:05:05'))
    return False


def may_have_been_moved(drawn, place, states):
    """A hand may have given another audio OUT to this state, and taken it back behind it: the panel is on, and nothing else is
    about it."""
    exchanges, going = drawn.capture.exchanges, drawn.capture.sheet.all
    before, state, behind = states[place - 1:place + 2]
    is_shown_clear = state.registers[3] is None and exchanges[place].data[3] is not None
    if not (before.panel and state.panel and behind.panel) or is_shown_clear:
        return False
    if any(is_about_audio_out(exchange) for exchange in exchanges[place:place + 2]):
        return False
    ways = Ways(True)
    return ways.moves_to(going, exchanges[place], before, state) == ways.moves_to(going, exchanges[place + 1], state, behind) == 0


def is_about_audio_out(exchange):
    return exchange.effect.what.startswith('forget') or exchange.register == 3 or exchange.is_nak


# ---- touches

def has_touches(drawn, said):
    return drawn.hands and said['touches'][0].startswith('between')


@how('kept')
def changes_a_field_more_or_less(drawn, said):
    if not has_touches(drawn, said) or replaced(said['touches'], 0, (', [a-z]*: [^,]*$', '')):
        return has_touches(drawn, said)
    return ' aout: ' not in said['touches'][0] and replaced(said['touches'], 0, ('$', ', aout: clear => 05:05:05:05'))


@how('swapped')
def switches_local_the_other_way(drawn, said):
    changes = ('local: no => yes', 'local: yes => no'), ('local: yes => no', 'local: no => yes')
    return has_touches(drawn, said) and replaced(said['touches'], 0, *changes)


def main(list_path, results_path, folder):
    spoilt = {name: [] for name in HOWS}
    for drawn, said in read_results(list_path, results_path):
        for name, results in spoilt.items():
            changed = copy.deepcopy(said) if len(results) < MOST else None
            if changed and HOWS[name](drawn, changed):
                results.append(written(drawn.number, changed))
    for name, results in spoilt.items():
        with open(f'{folder}/{name}', 'w') as file:
            file.writelines(results)


if __name__ == '__main__':
    main(*sys.argv[1:])
