"""What a deck's sheet says, and what such a deck may do by itself."""
from typing import NamedTuple

from deck.commands import EFFECTS, REGISTERS
from deck.modes import MODES, STOP, set_of

LOST = {'points': {0, 1}, 'registers': set(REGISTERS)}


class Going(NamedTuple):
    """What the deck may do by itself now: show these modes, and clear these registers."""
    modes: int = 0
    lost: frozenset = frozenset()

    def joined(self, other):
        return Going(self.modes | other.modes, self.lost | other.lost)


class Sheet:
    """Of a text with entries between semicolons, as `forgets:2042=nothing`, `runs:2042=JOG,REC` and `loses:200F=points`, each
    command by its first two bytes; `-` for no sheet."""

    def __init__(self, text):
        self.text = text
        self.forgets_nothing = set()
        # What goes on after a command.
        self.begins = {}
        for entry in self.entries():
            self.take(*entry)
        self.all = Going()
        for going in self.begins.values():
            self.all = self.all.joined(going)

    def entries(self):
        """The table, the head and the value of each entry."""
        for entry in [] if self.text == '-' else self.text.split(';'):
            key, value = entry.split('=')
            yield *key.split(':'), value

    def take(self, table, head, value):
        if table == 'forgets':
            self.forgets_nothing.add(head)
            return
        if table == 'runs':
            more = Going(modes=set_of(MODES.index(mode) for mode in value.split(',')))
        else:
            more = Going(lost=frozenset(LOST[value]))
        self.begins[head] = self.begins.get(head, Going()).joined(more)

    def resting(self):
        """The same sheet of a deck that does nothing by itself."""
        kept = [entry for entry in self.text.split(';') if entry.startswith('forgets:')]
        return Sheet(';'.join(kept) or '-')

    def after(self, going, head):
        """What is going on after this command, which got no NAK, of a deck that nobody touches."""
        if head in self.begins:
            return self.begins[head]
        if head in EFFECTS and EFFECTS[head].what == 'go':
            return Going(lost=going.lost if EFFECTS[head].goal == STOP else frozenset())
        return going

    def after_unknown(self, going, head):
        """The same where nobody knows what the reply was."""
        return going.joined(self.begins.get(head, Going()))
