"""What tools/try-gate-tools has in the place of the kit's rtlib: crates whose proofs are a word in their text."""
import os
import re
import sys
import time

HERE = os.path.dirname(os.path.abspath(__file__))
RATTLE = f"{HERE}/rattle"
GROUPS = []


def text_of(file):
    if not os.path.isfile(file):
        return None
    with open(file, encoding="utf-8") as it:
        return it.read()


def number_in(file, pattern):
    return 16_000_000


def guarded():
    return []


def lock(crates):
    return [os.open(it.folder, os.O_RDONLY) for it in crates]


def crates_below(top):
    known = {}
    for line in text_of(f"{os.path.dirname(top)}/crates.txt").splitlines():
        name, _, below = line.partition(":")
        known[name] = Crate(f"{top}/{name}", name, [known[it] for it in below.split()])
    return list(known.values())


class Crate:
    def __init__(self, folder, name, deps):
        self.folder, self.name, self.deps, self.out = folder, name, deps, sys.stdout
        self.rlib = f"{folder}/out/rlib/{name}.rlib"
        self.is_program = os.path.isfile(f"{folder}/src/main.rt")

    def makes_rlib(self):
        return not self.is_program

    def below(self):
        found = []
        for dep in self.deps:
            found += [it for it in [*dep.below(), dep] if it not in found]
        return found

    def text(self):
        return text_of(f"{self.folder}/src/{'main' if self.is_program else 'lib'}.rt")

    def stamp(self):
        return repr((self.text(), [it.stamp() for it in self.deps]))

    def is_built(self):
        return os.path.isdir(self.rlib) and text_of(f"{self.folder}/out/rlib/stamp") == self.stamp()

    def words(self, flags, keeps=True):
        return ["--crate-name", self.name, *flags]

    def build_rlib(self, flags, anew):
        """Proves the text, unless a word in it says that it is wrong, and says in the log when it began and ended."""
        if self.is_built():
            return 0
        self.write(f"begins {self.name}")
        self.take_time()
        if "wrong" in self.text():
            print(f"a goal of {self.name} is open", file=self.out)
            return 1
        os.makedirs(self.rlib, exist_ok=True)
        os.utime(self.rlib)
        with open(f"{self.folder}/out/rlib/stamp", "w", encoding="utf-8") as it:
            it.write(self.stamp())
        self.write(f"ends {self.name}")
        return 0

    def take_time(self):
        """A short time; or a minute, unless a text that is `endless` is changed, or one that is `beside NAME` sees that crate begin."""
        time.sleep(0.2)
        for _ in range(600):
            text = self.text()
            if text is None:
                sys.exit(1)  # Its folder is gone.
            beside = re.search(r"beside (\w+)", text)
            if "endless" not in text and (not beside or f"begins {beside[1]}\n" in text_of(os.environ["RT_LOG"])):
                break
            time.sleep(0.1)

    def write(self, line):
        with open(os.environ["RT_LOG"], "a", encoding="utf-8") as log:
            log.write(f"{line}\n")
