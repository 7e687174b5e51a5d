"""The table of all ways at all steps of the sessions, and the drawn plays, in which one byte is spoiled."""
import collections
import concurrent.futures
import functools
import itertools
import pathlib
import random
import re
import shutil
from typing import Callable, Counter, DefaultDict, Deque, Dict, Iterator, List, NamedTuple, Optional, Tuple

from .judging import Look, Played, begun_anew, look
from .lies import excused
from .sessions import Program, Said, Session
from .spoiling import Bounds, Fault, HostileServer, SpoiledByte, SpoiledLine, Step, Wire
from .ways import Way, spoiled

# How many trials are begun before the first of them has ended.
AHEAD = 200


class Result(NamedTuple):
    """What a trial showed: what was wrong, and what of it a lie excuses, each by the words of `judging`."""

    title: str
    way: str
    wrong: Dict[str, str]
    excused: Dict[str, str]
    played: Played

    @property
    def failed(self) -> Dict[str, str]:
        """What is wrong and isn't excused."""
        return {word: what for word, what in self.wrong.items() if word not in self.excused}


class Trials:
    """Plays one after the other, each over a copy of a session's journal, and counts them."""

    def __init__(self, program: pathlib.Path, home: pathlib.Path, workers: int) -> None:
        self.program, self.home, self.workers = program, home, workers
        self.numbers = itertools.count()
        self.passed = self.failed = self.excused = 0
        self.looks: Dict[pathlib.Path, Look] = {}

    def played(self, session: Session, spoil: Callable[[HostileServer], None], bounds: Bounds) -> Played:
        """A play at a server that is spoiled so, and a clean one."""
        folder = session.copied(self.home / f"play{next(self.numbers)}")
        server = session.server()
        mine = Program(self.program, folder, server.port)
        looks: List[Look] = [self.first_look(session, mine)]
        spoil(server)
        first = mine.say("play", seconds=bounds.seconds)
        server.wire = Wire
        server.refuse(None, "")
        looks.append(look(mine, session))
        clean = mine.say("play")
        looks.append(look(mine, session))
        fresh = Program(self.program, folder / "anew", server.port)
        anew = None if clean.status in (0, 1) else begun_anew(fresh, server.boxes)
        server.close()
        shutil.rmtree(folder)
        return Played(first, clean, looks, anew, server)

    def first_look(self, session: Session, mine: Program) -> Look:
        """What the journal shows as the session begins."""
        if session.folder not in self.looks:
            self.looks[session.folder] = look(mine, session)
        return self.looks[session.folder]

    def way(self, session: Session, way: Way, step: Step) -> Result:
        """A way at a step."""
        def spoil(server: HostileServer) -> None:
            if way.refusal:
                server.refuse(step, way.refusal)
            else:
                server.wire = lambda link: SpoiledLine(link, step.number, way.act)

        played = self.played(session, spoil, way.bounds)
        title = f"{session.words.name}, {session.name}: {way.name}, at {step}"
        return Result(title, way.name, played.wrong(way.bounds), excused(way.name, step), played)

    def byte(self, sessions: List[Session], seed: str) -> Result:
        """A play with one spoiled byte, as this seed draws it."""
        draw = random.Random(seed)
        session = draw.choice(sessions)
        fault = Fault(draw.randrange(session.size), draw.choice(("changed", "dropped", "doubled")), draw.randrange(256))
        hit: List[Step] = []

        def spoil(server: HostileServer) -> None:
            server.wire = lambda link: SpoiledByte(link, fault, hit)

        played = self.played(session, spoil, Bounds())
        title = f"seed {seed}: {session.words.name}, {session.name}: byte {fault.at} {fault.kind}"
        title += f", at {hit[0] if hit else 'none'}"
        return Result(title, fault.kind, played.wrong(Bounds()), believed(played, fault.kind, hit), played)

    def count(self, result: Result) -> None:
        """Counts a trial, and prints what is wrong."""
        if result.failed:
            self.failed += 1
            print(f"FAILED: {result.title}: {ending(result.played.spoiled)}, then {ending(result.played.clean)}")
            for word, what in result.failed.items():
                print(f"  {word}: {what}", flush=True)
        else:
            self.passed += 1
            self.excused += bool(result.wrong)

    def each(self, tries: Iterator[Callable[[], Result]]) -> Iterator[Result]:
        """Makes trials, some at a time, and gives them in their order."""
        waiting: Deque["concurrent.futures.Future[Result]"] = collections.deque()
        with concurrent.futures.ThreadPoolExecutor(self.workers) as pool:
            for one in itertools.chain(tries, [None] * AHEAD):
                if one:
                    waiting.append(pool.submit(one))
                if waiting and (not one or len(waiting) > AHEAD):
                    done = waiting.popleft().result()
                    self.count(done)
                    yield done


def ending(said: Said) -> str:
    """How a play ended."""
    return f"{said.line!r} ({said.status})"


def believed(played: Played, kind: str, hit: List[Step]) -> Dict[str, str]:
    """What one other byte excuses: nothing where the program saw it, and ended there."""
    is_seen = re.fullmatch(r"error (link|limit .*|reply \d+)", played.spoiled.line)
    return {} if is_seen or not hit else excused(kind, hit[0])


class Row:
    """A row of the table: how the plays of a way ended, and what was excused, by its words and reasons."""

    def __init__(self) -> None:
        self.statuses: Counter[int] = collections.Counter()
        self.others: Counter[str] = collections.Counter()
        self.lies: Counter[Tuple[str, str]] = collections.Counter()

    def add(self, result: Result) -> None:
        """Counts a play."""
        self.statuses[result.played.spoiled.status] += 1
        if result.wrong:
            self.others["failed" if result.failed else "excused"] += 1
        self.lies.update((word, result.excused[word]) for word in result.wrong if word in result.excused)

    def show_lies(self, name: str) -> None:
        """Prints what was excused."""
        for (word, why), count in sorted(self.lies.items()):
            print(f"  a lie: {name}: {count} times `{word}`: {why}")

    def __str__(self) -> str:
        statuses = " ".join(f"{status}:{count}" for status, count in sorted(self.statuses.items()))
        return statuses + "".join(f", {count} {word}" for word, count in sorted(self.others.items()))


def table(trials: Trials, session: Session, ways: List[Way], every: int) -> None:
    """Tries each way at each of the session's steps, or each so many of these, and prints a row for each way."""
    rows: DefaultDict[str, Row] = collections.defaultdict(Row)
    cases = list(itertools.islice(spoiled(session.steps, ways), 0, None, every))
    print(f"{session.words.name}, {session.name}: {len(session.steps)} steps, {len(cases)} plays", flush=True)
    tries = (functools.partial(trials.way, session, *case) for case in cases)
    for number, result in enumerate(trials.each(tries), 1):
        rows[result.way].add(result)
        if number % 500 == 0:
            print(f"  {number} plays, {trials.failed} failed", flush=True)
    for name, row in rows.items():
        print(f"  {name:<42} {row}")
    for name, row in rows.items():
        row.show_lies(name)


def drawn(trials: Trials, sessions: List[Session], seed: str, plays: int, first: int) -> List[str]:
    """Makes so many drawn plays, and gives the seeds of those that failed."""
    failed: List[str] = []
    row = Row()
    seeds = [f"{seed}.{number}" for number in range(first, first + plays)]
    tries = (functools.partial(trials.byte, sessions, one) for one in seeds)
    for number, (drawn_by, result) in enumerate(zip(seeds, trials.each(tries)), 1):
        row.add(result)
        if result.failed:
            failed.append(drawn_by)
        if number % 100 == 0 or number == plays:
            print(f"{number} drawn plays: {row}", flush=True)
    row.show_lies("a byte")
    return failed


def show(trials: Trials, result: Result) -> None:
    """Counts a trial, and prints how its plays ended, how the actions stand, and what was wrong."""
    trials.count(result)
    print(f"{result.title}: {ending(result.played.spoiled)}, then {ending(result.played.clean)}; {result.played.spoiled.memory} KB")
    for told in result.played.looks:
        print(f"  {told.stands}")
    for word, what in result.wrong.items():
        print(f"  {word}: {what} ({result.excused.get(word, 'no excuse')})")


def one(trials: Trials, session: Session, way: Way, number: Optional[int]) -> None:
    """Tries a way at a step, or at all, and shows what came of it."""
    for step in session.steps:
        if way.fits(step) and number in (None, step.number):
            show(trials, trials.way(session, way, step))
