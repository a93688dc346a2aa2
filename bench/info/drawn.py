# Draws clean sessions of a controller and a deck, and from each the faults of a tap, a rate or a wire that `info` has a sign for.
#
#   drawn.py FOLDER SEED CLEAN FAULTS     writes so many clean sessions, and so many of each fault, as CSV; beside each NAME.csv.args has
#                                         the word of the rate that it is asked with.
import os, random, sys
sys.path.insert(0, os.path.join(os.path.dirname(os.path.abspath(__file__)), '..', '..', 'tests', 'lib'))
from drawing.faults import FAULTS
from drawing.sessions import ASKED, RATES, clean, session, write

# How many exchanges some of them need.
FEWEST = {'clocks': 200, 'behind': 200, 'crossed': 500}

# A session with a fault, and the rate that it is asked with. Where what was drawn can't have it, another is drawn.
def fault_of(draw, name):
    rate = '29.97df' if name == 'preset' else draw.choice(list(RATES))
    pause = 7000 if name == 'clocks' else 500
    for _ in range(1000):
        exchanges = session(draw, rate, pause=pause)
        if len(exchanges) >= FEWEST.get(name, 0):
            rows = FAULTS[name](draw, exchanges)
            if rows:
                return rows, ASKED.get(rate, rate)

def main(folder, seed, cleans, faults):
    for number in range(cleans):
        draw = random.Random(f'{seed} clean {number}')
        rate = draw.choice(list(RATES))
        write(f'{folder}/clean-{number:04}.csv', clean(draw, session(draw, rate)), ASKED.get(rate, rate))
    for name in FAULTS:
        for number in range(faults):
            write(f'{folder}/{name}-{number:04}.csv', *fault_of(random.Random(f'{seed} {name} {number}'), name))
    for number in range(faults):
        draw = random.Random(f'{seed} rate {number}')
        rate = draw.choice(list(RATES))
        asked = draw.choice([other for other in ('24', '25', '30', '29.97df') if other != ASKED.get(rate, rate)])
        write(f'{folder}/rate-{number:04}.csv', clean(draw, session(draw, rate, True)), asked)

if __name__ == '__main__':
    os.makedirs(sys.argv[1], exist_ok=True)
    main(sys.argv[1], sys.argv[2], int(sys.argv[3]), int(sys.argv[4]))
