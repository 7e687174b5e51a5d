"""The repository's crates as the kit's own `rt` sees them, for the tools beside this file.

The kit's module rtlib says which words `rattle` gets for a crate, and which texts a proved library belongs to.
"""
import importlib.util
import os
import shutil
import signal
import subprocess
import sys
import tempfile
import threading
from contextlib import contextmanager
from types import ModuleType
from typing import IO, Any, Dict, Iterator, List, NamedTuple, Tuple

sys.dont_write_bytecode = True
# Where the reader of what a tool prints has seen enough, the tool ends.
signal.signal(signal.SIGPIPE, signal.SIG_DFL)
TOP = os.path.dirname(os.path.dirname(os.path.abspath(__file__)))
READ = ("src", "specs", "proofs")
# What each crate's proofs take.
TABLE = f"{TOP}/tools/minutes.txt"


def stop(why: str) -> None:
    """Ends the tool with a line that says why."""
    sys.exit(f"{os.path.basename(sys.argv[0])}: {why}")


def load() -> ModuleType:
    """The kit's rtlib, which lies beside the `rt` on the path."""
    found = shutil.which("rt")
    file = os.path.join(os.path.dirname(os.path.realpath(found or "")), "rtlib.py")
    if not found or not os.path.isfile(file):
        stop("no Rattle toolchain (rt) is on the path")
    spec = importlib.util.spec_from_file_location("rtlib", file)
    assert spec and spec.loader
    made = importlib.util.module_from_spec(spec)
    sys.modules["rtlib"] = made
    spec.loader.exec_module(made)
    return made


RTLIB = load()
Crates = Dict[str, Any]
LOOK = threading.local()


@contextmanager
def one_look() -> Iterator[None]:
    """While it lasts, each crate's sum is reckoned once in this thread; no text may change meanwhile."""
    if hasattr(LOOK, "sums"):
        yield
        return
    LOOK.sums = {}
    try:
        yield
    finally:
        del LOOK.sums


def reckon_once() -> None:
    """Has the sum of each crate below another be reckoned once. The kit reckons it once for each way down: for the program's, which
    takes in 27 crates, that were 1,372."""
    reckon = RTLIB.Crate.stamp

    def stamp(crate: Any) -> Any:
        with one_look():
            if crate.folder not in LOOK.sums:
                LOOK.sums[crate.folder] = reckon(crate)
            return LOOK.sums[crate.folder]

    RTLIB.Crate.stamp = stamp


reckon_once()


def crates_of(top: str) -> Crates:
    """The crates of a checkout by name, each after those that it stands on."""
    found = RTLIB.crates_below(f"{os.path.abspath(top)}/crates")
    return {it.name: it for it in sorted(found, key=lambda it: len(it.below()))}


def chosen(crates: Crates, names: List[str]) -> List[str]:
    """The named crates, or all where none is named."""
    for name in names:
        if name not in crates:
            stop(f"crates.txt has no crate {name}")
    return [it for it in crates if not names or it in names]


def copy_sources(top: str, to: str, *more: str) -> None:
    """Copies what a check of the crates reads, and the further folders of each crate that are named."""
    for file in ("crates.txt", "HANDLES"):
        shutil.copyfile(f"{top}/{file}", f"{to}/{file}")
    for name in os.listdir(f"{top}/crates"):
        for part in (*READ, *more):
            if os.path.isdir(f"{top}/crates/{name}/{part}"):
                shutil.copytree(f"{top}/crates/{name}/{part}", f"{to}/crates/{name}/{part}")


class Given(NamedTuple):
    """What became of the libraries that were to be handed over: handed over, of another text than here, or not built there."""

    fits: List[str]
    other: List[str]
    lacking: List[str]


def is_of(library: str, crate: Any) -> bool:
    """Whether a built library was made from the texts of the crate in whose folder it lies. `rt ci` leaves no stamp that says so: then
    no text may be newer than the library."""
    stamp = f"{os.path.dirname(library)}/stamp"
    if os.path.isfile(stamp):
        return bool(RTLIB.text_of(stamp) == crate.stamp())
    return all(os.path.getmtime(it) <= os.path.getmtime(library) for it in texts_of(crate))


def texts_of(crate: Any) -> Iterator[str]:
    """The files that a check of the crate reads."""
    for part in READ:
        for at, _, names in os.walk(f"{crate.folder}/{part}"):
            yield from (f"{at}/{name}" for name in names)


def give_libraries(built: str, crates: Crates) -> Given:
    """Puts the libraries that were proved in another checkout under these crates, where the texts of both are the same, and those of
    all that stands below them."""
    with one_look():
        return give_each(crates_of(built), crates)


def give_each(there: Crates, crates: Crates) -> Given:
    """The same, of another checkout's crates."""
    given = Given([], [], [])
    for name, crate in crates.items():
        if not crate.makes_rlib():
            continue
        if name not in there or not os.path.isdir(there[name].rlib):
            given.lacking.append(name)
        elif there[name].stamp() != crate.stamp() or not is_of(there[name].rlib, there[name]):
            given.other.append(name)
        elif any(it.name not in given.fits for it in crate.below()):
            given.lacking.append(name)
        else:
            put_library(there[name].rlib, crate)
            given.fits.append(name)
    for name in [*given.other, *given.lacking]:
        if any(it.name in given.fits for it in crates[name].below()):
            forget_library(crates[name])
    return given


def take_libraries(built: str, crates: Crates) -> None:
    """The same, and prints what was taken."""
    given = give_libraries(built, crates)
    print(f"libraries from {built}: {len(given.fits)} taken", file=sys.stderr, flush=True)
    for why, names in (("other texts", given.other), ("not built there", given.lacking)):
        if names:
            print(f"  {why}: {' '.join(names)}", file=sys.stderr, flush=True)


def put_library(library: str, crate: Any) -> None:
    """Puts a built library in the crate's place for it, as links to the same bytes where the file system has them."""
    place = os.path.dirname(crate.rlib)
    if os.path.realpath(library) != os.path.realpath(crate.rlib):
        shutil.rmtree(place, ignore_errors=True)
        os.makedirs(place)
        linked = subprocess.run(["cp", "-rl", library, crate.rlib], stderr=subprocess.DEVNULL)
        if linked.returncode:
            shutil.rmtree(crate.rlib, ignore_errors=True)
            shutil.copytree(library, crate.rlib)
    with open(f"{place}/stamp", "w", encoding="utf-8") as it:
        it.write(crate.stamp())


def forget_library(crate: Any) -> None:
    """Has a library count as not built, where one below it was replaced: it fits no other than the one it was built over."""
    stamp = f"{os.path.dirname(crate.rlib)}/stamp"
    if os.path.isfile(stamp):
        os.remove(stamp)


def read_minutes(file: str) -> Dict[str, float]:
    """The minutes that a table has, by crate."""
    if not os.path.isfile(file):
        return {}
    with open(file, encoding="utf-8") as it:
        rows = [line.split() for line in it if line.strip() and not line.startswith("#")]
    return {name: float(number) for name, number in rows}


def write_minutes(file: str, minutes: Dict[str, float], order: List[str]) -> None:
    """Writes a table, with these minutes in place of those that it has for the same crates."""
    minutes = {**read_minutes(file), **minutes}
    with open(file, "w", encoding="utf-8") as it:
        it.write("# Minutes of one processor for the proofs of each crate from nothing, as tools/slow and tools/gate-cost write them.\n")
        it.writelines(f"{name} {minutes[name]:.1f}\n" for name in order if name in minutes)


def lines_of(crate: Any) -> Tuple[int, int]:
    """How many lines of code and of proof a crate has."""
    code = proof = 0
    for file in texts_of(crate):
        with open(file, "rb") as it:
            number = it.read().count(b"\n")
        code += number * file.endswith(".rt")
        proof += number * file.endswith(".antt")
    return code, proof


def likely_minutes(crates: Crates) -> Dict[str, float]:
    """What the proofs of each crate take: by the table, or else by its lines, as crates of the table have it on the whole."""
    table = read_minutes(TABLE)
    lines = {it: lines_of(crate) for it, crate in crates.items() if it not in table}
    return {**table, **{it: 0.5 + 0.0015 * code + 0.0005 * proof for it, (code, proof) in lines.items()}}


def processors() -> int:
    """How many processors this process may run on."""
    return len(os.sched_getaffinity(0))


def free_memory() -> int:
    """The free memory in bytes, under the limits of the groups that this process is in."""
    number_in = RTLIB.number_in
    found = [1024 * (number_in("/proc/meminfo", r"MemAvailable:\s+(\d+)") or 0)]
    for limit, held in RTLIB.GROUPS:
        most, now = number_in(limit, r"(\d+)"), number_in(*held)
        if most and now is not None:
            found.append(most - now)
    return min(found)


def new_room(what: str) -> "tempfile.TemporaryDirectory[str]":
    """A folder for a copy of the checkout. It goes when the tool ends, also where it is broken off."""
    room = tempfile.TemporaryDirectory(prefix=f"mowerbean-{what}-")

    def break_off(number: int, _: Any) -> None:
        # What works in the folder ends with this process, and what removes it goes on.
        subprocess.Popen(["sh", "-c", 'sleep 1; rm -rf "$1"', "", room.name], start_new_session=True)
        signal.signal(number, signal.SIG_DFL)
        os.kill(os.getpid(), number)

    for number in (signal.SIGINT, signal.SIGTERM):
        signal.signal(number, break_off)
    # The first call starts what the next function says, which only the main thread may.
    RTLIB.guarded()
    return room


def ends_with_us(words: List[str]) -> List[str]:
    """The words of a command that ends when this process does, however it does."""
    return [*RTLIB.guarded(), *words]


def crates_in_room(room: str, built: str, *more: str) -> Crates:
    """The crates of a copy of this checkout, over the libraries that another one has built, if one is named."""
    copy_sources(TOP, room, *more)
    crates = crates_of(room)
    if built:
        take_libraries(built, crates)
    return crates


def build_libraries(crates: Crates, names: List[str], out: IO[str]) -> List[str]:
    """Proves and builds what the named crates stand on, the lowest first, where it isn't built yet. Returns the names of those over
    which all is built."""
    built: Dict[str, bool] = {}
    wanted = {dep.name for name in names for dep in crates[name].below()}
    for name, crate in crates.items():
        if name in wanted:
            below = all(built[dep.name] for dep in crate.below())
            built[name] = below and (crate.is_built() or not rt_lib(crate, out))
    return [it for it in names if all(built[dep.name] for dep in crates[it].below())]


def rt_lib(crate: Any, out: IO[str]) -> int:
    """Proves a library over those below it, and returns the status."""
    print(f"proving {crate.name}, on which others stand", flush=True)
    return subprocess.run(ends_with_us(["rt", "lib", "--jobs", "1"]), cwd=crate.folder, stdout=out, stderr=out).returncode
