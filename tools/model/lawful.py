"""Which event may come next in a journal, by its version (docs/JOURNAL.md).

Events, actions, intents and outcomes are those of journal.py, and besides ('old', number, action, outcome), ('reset', mailbox, kept,
told) and ('withdraw', number, tries). The rules were written down from their table, each as a test of its own.
"""
from typing import Callable, Dict, List, Optional

FLAG_KINDS = ('message-gone already-so flags-changed refused-no refused-bad not-permanent target-unknown found-so store-unsure '
              'gone-after-loss validity-changed reset-after-loss').split()
MOVE_KINDS = 'message-gone refused-no refused-bad target-unknown source-gone validity-changed reset-after-loss'.split()
APPEND_KINDS = 'refused-no refused-bad ambiguous reset-after-loss'.split()
KINDS = {'flag': FLAG_KINDS, 'move': MOVE_KINDS, 'append': APPEND_KINDS}
# Those that say that a command was sent, and those that say that none was.
SENT = 'flags-changed refused-no refused-bad found-so store-unsure source-gone gone-after-loss ambiguous reset-after-loss'.split()
UNSENT = 'already-so not-permanent target-unknown validity-changed'.split()


class Queued:
    def __init__(self, action: tuple, outcome: Optional[tuple] = None):
        self.action, self.outcome, self.tries = action, outcome, 0


class Lawful:
    """A book, with what is asked of an event before it comes: the mailboxes' caches by name, the actions, and the intent that is pending."""

    def __init__(self, version: int, names: List[str]):
        self.version = version
        self.caches: Dict[str, Optional[list]] = {name: None for name in names}
        self.queue: List[Queued] = []
        self.pending: Optional[tuple] = None

    # What is there.

    def due(self) -> Optional[int]:
        return next((n for n, queued in enumerate(self.queue, 1) if queued.outcome is None), None)

    def where(self, target: tuple) -> tuple:
        """The mailbox, UIDVALIDITY and UID of a message, or the number of the action that never made it, or nothing yet."""
        if target[0] == 'real':
            return target
        maker = self.queue[target[1] - 1]
        if maker.outcome is None:
            return ('not yet',)
        if maker.outcome[0] == 'conflict':
            return ('never', target[1])
        to = maker.action[2] if maker.action[0] == 'move' else maker.action[1]
        return ('real', to, *maker.outcome[1:])

    def names(self, event: tuple) -> List[str]:
        if event[0] in ('accept', 'old', 'intend'):
            what = event[2]
            names = {'flag': [], 'move': what[2:3], 'append': what[1:2], 'store': what[1:2], 'put': what[1:2]}
            if what[0] == 'shift':
                return [what[1], what[4]]
            target = [what[1][1]] if what[0] in ('flag', 'move') and what[1][0] == 'real' else []
            return target + list(names[what[0]])
        return [event[1]] if event[0] in ('learn', 'reset') else []

    # The rules, in their order.

    def begin_again(self, event: tuple) -> bool:
        return event[0] == 'begin'

    def wrong_number(self, event: tuple) -> bool:
        return event[0] in ('accept', 'old') and event[1] != len(self.queue) + 1

    def unknown_box(self, event: tuple) -> bool:
        return any(name not in self.caches for name in self.names(event))

    def bad_target(self, event: tuple) -> bool:
        if event[0] not in ('accept', 'old') or event[2][0] == 'append' or event[2][1][0] == 'real':
            return False
        maker = event[2][1][1]
        return not (maker <= len(self.queue) and self.queue[maker - 1].action[0] in ('move', 'append'))

    def too_many(self, event: tuple) -> bool:
        return event[0] in ('accept', 'old') and len(self.queue) >= 1000000

    def not_all_settled(self, event: tuple) -> bool:
        return event[0] == 'old' and self.due() is not None

    def pending_already(self, event: tuple) -> bool:
        return event[0] == 'intend' and self.pending is not None

    def nothing_waiting(self, event: tuple) -> bool:
        return event[0] in ('intend', 'settle', 'withdraw') and self.due() is None

    def wrong_action(self, event: tuple) -> bool:
        return event[0] in ('intend', 'settle', 'withdraw') and event[1] != self.due()

    def wrong_intent(self, event: tuple) -> bool:
        if event[0] not in ('intend', 'withdraw'):
            return False
        action = self.queue[self.due() - 1].action
        if event[0] == 'withdraw':
            return action[0] != 'flag'
        intent = event[2]
        if action[0] == 'append':
            return intent[0] != 'put' or intent[1] != action[1]
        if intent[0] != {'flag': 'store', 'move': 'shift'}[action[0]] or self.where(action[1]) != ('real', *intent[1:4]):
            return True
        return action[0] == 'move' and intent[4] != action[2]

    def wrong_tries(self, event: tuple) -> bool:
        if event[0] != 'withdraw':
            return False
        if self.version == 1 or event[2] not in (1, 2):
            return True
        old = self.queue[self.due() - 1].tries
        return event[2] != old + 1 if self.pending is not None else old != 0

    def needs_intent(self, event: tuple) -> bool:
        return event[0] == 'settle' and self.pending is None and (event[2][0] == 'done' or event[2][1] in SENT)

    def no_intent_due(self, event: tuple) -> bool:
        return event[0] == 'settle' and self.pending is not None and event[2][0] == 'conflict' and event[2][1] in UNSENT

    def wrong_place(self, event: tuple) -> bool:
        if event[0] not in ('settle', 'old'):
            return False
        action = self.queue[self.due() - 1].action if event[0] == 'settle' else event[2]
        outcome = event[-1]
        return outcome[0] == 'done' and (len(outcome) == 1) != (action[0] == 'flag')

    def wrong_kind(self, event: tuple) -> bool:
        if event[0] not in ('settle', 'old') or event[-1][0] == 'done':
            return False
        settled = event[0] == 'settle'
        queued = self.queue[self.due() - 1] if settled else Queued(event[2])
        _, kind, numbers = event[-1]
        if kind not in KINDS[queued.action[0]]:
            return True
        if kind == 'target-unknown':
            return self.where(queued.action[1]) != ('never', numbers[0])
        if kind == 'validity-changed':
            found = self.where(queued.action[1])
            return found[0] != 'real' or numbers[0] != found[2] or not numbers[1] > numbers[0]
        if kind == 'reset-after-loss':
            return settled and numbers[0] != self.validity() or not numbers[1] > numbers[0]
        if kind in ('flags-changed', 'store-unsure') and settled and numbers[0] != self.pending[4]:
            return True
        return kind == 'flags-changed' and settled and self.version == 2 and queued.tries != 2

    def validity(self) -> int:
        """The UIDVALIDITY of the intent that is pending."""
        return self.pending[2]

    def wrong_whole(self, event: tuple) -> bool:
        return event[0] == 'learn' and event[2] != (self.caches[event[1]] is None)

    def wrong_validity(self, event: tuple) -> bool:
        if event[0] == 'learn':
            return self.caches[event[1]] is not None and event[3] != self.caches[event[1]][0]
        if event[0] == 'reset':
            cache = self.caches[event[1]]
            return cache is None or event[2] != cache[0] or not event[3] > event[2]
        return False

    def lower_mark(self, event: tuple) -> bool:
        return event[0] == 'learn' and self.caches[event[1]] is not None and event[4] < self.caches[event[1]][1]

    RULES: List[Callable] = [begin_again, wrong_number, unknown_box, bad_target, too_many, not_all_settled, pending_already, nothing_waiting,
                             wrong_action, wrong_intent, wrong_tries, needs_intent, no_intent_due, wrong_place, wrong_kind, wrong_whole,
                             wrong_validity, lower_mark]

    def broken(self, event: tuple) -> Optional[str]:
        """The first rule that the event breaks."""
        return next((rule.__name__.replace('_', '-') for rule in self.RULES if rule(self, event)), None)

    def enter(self, event: tuple) -> None:
        assert self.broken(event) is None, (event, self.broken(event))
        if event[0] == 'accept':
            self.queue.append(Queued(event[2]))
        elif event[0] == 'old':
            self.queue.append(Queued(event[2], event[3]))
        elif event[0] == 'intend':
            self.pending = event[2]
        elif event[0] == 'settle':
            queued = self.queue[event[1] - 1]
            queued.outcome, queued.tries, self.pending = event[2], 0, None
        elif event[0] == 'withdraw':
            self.queue[event[1] - 1].tries, self.pending = event[2], None
        elif event[0] == 'learn':
            self.caches[event[1]] = [event[3], event[4]]
        elif event[0] == 'reset':
            self.caches[event[1]] = None
