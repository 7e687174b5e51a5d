"""The lines of a scenario (docs/SCENARIOS.md), and what each is to print."""
from typing import Iterable, List, Tuple, Union

from . import commands, texts
from .playing import play
from .server import Box
from .words import asked, hexed, keys, name_of, read_by, spelled, word, words
from .world import Fault, World

COMMANDS = dict(init=commands.init, flag=commands.flag, move=commands.move, append=commands.append, list=commands.list_rows,
                queue=commands.queue, report=commands.report, play=play, fetch=texts.fetch, show=texts.show, dates=texts.dates)


class Scenario:
    """Lines, each with what it prints, and the world that they made."""

    def __init__(self) -> None:
        self.lines: List[Tuple[str, List[str]]] = []

    def line(self, text: str, *printed: str) -> None:
        self.lines.append((text, list(printed)))

    def note(self, *texts: str) -> None:
        for text in texts:
            comment = '# ' + text if text else '#'
            self.line(comment, comment)

    def gap(self) -> None:
        self.line('')

    def ran(self, text: str, status: int, *printed: str) -> None:
        """A run whose ending is known."""
        self.line('run ' + text if text else 'run', '> ' + text if text else '>', *['| ' + line for line in printed], '= %d' % status)

    # A server.

    def server(self, offers: Iterable[str] = ('IMAP4rev2', 'QRESYNC'), boxes: Iterable[tuple] = (), left: bytes = b'', right: bytes = b'',
               account: Union[None, Tuple[str, str]] = None) -> None:
        self.line(' '.join(['server'] + [word(offer) for offer in offers]))
        made = [self.mailbox(*box) for box in boxes]
        if left or right:
            self.line('files %s %s' % (hexed(left), hexed(right)))
        if account:
            self.line('account ' + words(*account))
        self.world = World(offers, made, left, right, account or ('ann', 'pw'))

    def mailbox(self, name: str, validity: int, uidnext: int, highest: int, messages: Iterable[tuple], gone: Iterable[tuple]) -> Box:
        box = Box(name, validity, uidnext, highest)
        self.line('mailbox %s %d %d %d' % (word(name), validity, uidnext, highest))
        for uid, modseq, text, *flags in messages:
            box.messages.append(dict(uid=uid, modseq=modseq, text=text, flags=keys(flags)))
            self.line('message %s %d %d %s' % (word(name), uid, modseq, ' '.join([word(text)] + flags)))
        for uid, modseq in gone:
            box.gone.append((uid, modseq))
            self.line('gone %s %d %d' % (word(name), uid, modseq))
        return box

    def permit(self, kind: str, *flags: str) -> None:
        self.line(' '.join(['permit', kind, *flags]))
        self.world.permits = (kind == 'any', keys(flags))

    def refuse(self, name: str) -> None:
        self.line('refuse ' + word(name))
        self.world.refused = name_of(name)

    def stand(self) -> None:
        self.line('world')

    def stand_muted(self) -> None:
        self.line('muted')
        self.world.is_muted = True

    # The plan of the next run.

    def disk(self, number: int) -> None:
        self.line('disk %d' % number)
        self.world.fails.add(number)

    def link(self, number: int, loss: str) -> None:
        self.line('link %d %s' % (number, loss))
        self.world.losses.setdefault(number, loss)

    def stop(self, number: int) -> None:
        self.line('stop %d' % number)
        self.world.stop = number

    def sink(self, number: int) -> None:
        self.line('sink %d' % number)
        self.world.sink_fails.add(number)

    def source(self, number: int) -> None:
        self.line('source %d' % number)
        self.world.source_fails.add(number)

    def shelf(self, number: int) -> None:
        self.line('shelf %d' % number)
        self.world.shelf_fails.add(number)

    def input(self, text: bytes) -> None:
        self.line('input ' + word(text))
        self.world.input = text

    # Other clients, and stops.

    def change_words(self, change: Iterable) -> str:
        verb, name, *rest = change
        shown = [verb, word(name), str(rest[0])]
        if verb == 'add':
            shown += [word(rest[1])] + list(rest[2:])
        if verb == 'set':
            shown += list(rest[1:])
        if verb == 'shift':
            shown += [word(rest[1]), str(rest[2])]
        if verb == 'reset':
            shown += [str(number) for number in rest[1:]]
        return ' '.join(shown)

    def other(self, number: int, *change) -> None:
        self.line('other %d %s' % (number, self.change_words(change)))
        self.world.others.append((number, change))

    def change(self, *change) -> None:
        rule = self.world.change_between(*change)
        self.line('change ' + self.change_words(change), *(['rule %d' % rule] if rule else []))

    def restart(self, pick: int) -> None:
        self.world.restart(pick)
        self.line('restart %d' % pick)

    # Runs.

    def run(self, *command: str) -> int:
        """A run, by the model. It gives the status."""
        world, what = self.world, asked(command) or read_by(command)
        try:
            printed, status = (COMMANDS[what[0]](world, *what[1:]), 0) if what else (['error words'], 2)
        except Fault as fault:
            printed, status = [fault.line], fault.status
        if what == ('play',) and status == 0 and not printed[0].endswith(' conflicts 0'):
            status = 1
        # A run that called the link closes the connection, also where the world had stopped.
        if world.link_calls or world.calls and world.has_stopped() and status == 4:
            world.close()
        # Only a command that is done has another status where its output fails.
        if 1 in world.sink_fails:
            printed, status = [], (12 if status in (0, 1) else status)
        world.plan()
        self.ran(words(*command), status, *printed)
        return status

    def lists(self, *names: str) -> None:
        for name in names:
            self.run('list', name)

    # What is shown.

    def sent(self) -> None:
        shown, text = [], self.world.was_sent
        while b'\r\n' in text:
            line, _, text = text.partition(b'\r\n')
            shown.append('C: ' + word(line))
        if text:
            shown.append('c: ' + word(text))
        self.line('sent', *shown)

    def files(self) -> None:
        left, right = self.world.files
        self.line('files', 'left ' + hexed(left.seen), 'right ' + hexed(right.seen))

    def texts(self) -> None:
        kept = reversed(list(self.world.texts.items()))
        self.line('shelf', *['text %s %d %d %s' % (word(name), validity, uid, word(text)) for (name, validity, uid), text in kept])

    def moments(self) -> None:
        self.line('moments', str(self.world.moments))

    def show(self) -> None:
        shown = []
        for box in self.world.boxes:
            name = word(box.name)
            shown.append('mailbox %s %d %d %d' % (name, box.validity, box.uidnext, box.highest))
            for m in box.messages:
                shown.append(' '.join(['message', name, str(m['uid']), str(m['modseq']), word(m['text'])] + spelled(m['flags'])))
            shown += ['gone %s %d %d' % (name, uid, modseq) for uid, modseq in box.gone]
        self.line('show', *shown)

    def history(self) -> None:
        shown = []
        for author, verb, name, *rest in self.world.history:
            # Flags are shown in the order of their keys.
            front = {'add': 2, 'set': 1}.get(verb)
            if front is not None:
                rest = rest[:front] + spelled(keys(rest[front:]))
            shown.append(author + ' ' + self.change_words([verb, name] + rest))
        self.line('history', *shown)

    # As an input and its output, and as lines of a file of cases.

    def stdin(self) -> str:
        return ''.join(text + '\n' for text, _ in self.lines)

    def stdout(self) -> str:
        return ''.join(line + '\n' for _, printed in self.lines for line in printed)

    def case(self) -> str:
        return ''.join(text + '\n' + ''.join(' ' + line + '\n' for line in printed) for text, printed in self.lines if text)


# The first line of a file that is made. It is a comment, and changes nothing of what the program prints.
MADE = '# Made by tools/make-cases (tools/scenarios/%s.py): a case that is added here by hand is lost when it runs again.\n'


class Cases:
    """The text of a file of cases."""

    def __init__(self, text: str):
        self.text = text

    def add(self, title: str, scenario: Scenario) -> None:
        self.text += '\n== ' + title + '\n' + scenario.case()

    def head(self, scenario: Scenario) -> None:
        self.text += scenario.case()

    def write(self, folder: str, name: str, maker: str) -> None:
        """Writes the file that a generator makes, and says how many cases, lines and bytes it has."""
        with open('%s/data/%s.txt' % (folder, name), 'w') as file:
            file.write(MADE % maker + self.text)
        print(name, self.text.count('\n== '), self.text.count('\n'), len(self.text))
