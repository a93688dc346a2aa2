"""The plain deck: the deck of docs/PROFILE.md and docs/DECKS.md, with all states in which it could be in a list. Nothing is taken
to be independent of anything else.

It is for the answers of the built program on whole captures: verdicts, what `why` names, runs, the fewest moves of a hand, and
what each of them changes. Another plain deck, in `crates/track9_tests`, is for the calls of a tracker, which no command line
reaches: all states after each call, on a small day. The two share no line, so that a rule that one misreads shows in the other.

    modes.py      modes and their ways, what status data show of them, and sets of pairs of a goal and a shown mode
    times.py      times of the day at 25 frames a second
    commands.py   what each command does to the deck
    sheet.py      what a deck's sheet says, and what such a deck does by itself
    capture.py    exchanges
    places.py     the values that matter of all but goal and shown mode
    listing.py    all states after each exchange, and what follows from them
    single.py     one state after another, as a run tells them
    told.py       what a line of `why` tells of an exchange
"""
