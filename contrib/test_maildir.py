#!/usr/bin/env python3
"""Tries mowerbean-maildir over a small client and server in memory: single cases, and random wishes with other clients, cuts and kills.

usage: test_maildir.py [-v] [-k NAME]      (MAILDIR_ROUNDS: how many random histories, 60 without it; MAILDIR_SEED: the first one's)
"""
import collections
import functools
import os
import pathlib
import signal
import subprocess
import sys
import tempfile
import time
import unittest
from typing import Any, Counter, List, Optional, Set, Tuple

sys.dont_write_bytecode = True
sys.path.insert(0, str(pathlib.Path(__file__).resolve().parent))
from maildir_faults import Faults  # noqa: E402, F401  # its tests are run from here, as those of the next one
from maildir_races import Races  # noqa: E402, F401
from maildir_world import BOXES, Bench, Case, Killed, Message, changed, maildir, maildir_files, maildir_words, token  # noqa: E402


class Cases(Case):
    """Single wishes."""

    def test_first(self) -> None:
        self.agrees()
        self.assertEqual([path.parent.name for path in self.bench.files("INBOX")], ["cur", "new"])

    def test_moves(self) -> None:
        for keeps_name in (True, False):
            self.bench.move(self.bench.files("INBOX")[0], "Sent Items", keeps_name)
        self.bench.flag(self.bench.files("Sent Items")[0], "RS")
        self.bench.sync("wishes")
        self.bench.sync("wishes")
        self.assertEqual([asked.verb for asked in self.world.asked].count("move"), 2)
        self.bench.move(self.bench.files("Sent Items")[0], "Old/2024", True)
        self.bench.whole()
        self.agrees()
        self.assertEqual(len(self.bench.there()["Old/2024"]), 2)

    def test_letters(self) -> None:
        self.bench.put("Sent Items", self.bench.text(), "S")
        self.bench.put("Sent Items", self.bench.text(with_id=False))
        self.bench.sync("wishes")
        self.bench.sync("wishes")
        self.assertEqual([asked.letters for asked in self.world.asked], ["S", ""])
        self.bench.sync("write")
        self.bench.whole()
        self.agrees()

    def test_deleted(self) -> None:
        self.bench.files("INBOX")[0].unlink()
        self.bench.whole()
        self.assertIn("comes back", self.bench.said)
        self.agrees()
        self.bench.files("INBOX")[0].unlink()
        self.bench.whole(trash="Old/2024")
        self.assertEqual(self.bench.said, "")
        self.agrees()
        self.assertEqual(len(self.bench.there()["Old/2024"]), 2)

    def test_conflicts(self) -> None:
        self.chance.random = lambda: 0.01  # type: ignore[method-assign]
        self.bench.move(self.bench.files("INBOX")[0], "Sent Items", True)
        self.bench.flag(self.bench.files("Old/2024")[0], "FT")
        self.bench.whole()
        self.assertIn("nothing refused-no: the message is in INBOX again", self.bench.said)
        self.assertIn("nothing flags-changed 9: flag Old/2024 1, which has the flags that the server has", self.bench.said)
        self.agrees()
        self.bench.whole()
        self.assertEqual(self.bench.said, "")

    def test_copies_by_mutt(self) -> None:
        """A reader that saves a message ends its lines as it likes, and adds fields."""
        for box, path in [("INBOX", path) for path in self.bench.files("INBOX")] + [("Old/2024", self.bench.files("Old/2024")[0])]:
            text = path.read_bytes().replace(b"\r\n", b"\n")
            head, _, body = text.partition(b"\n\n")
            self.bench.put("Sent Items", head + b"\nContent-Length: 9\nLines: 1\nX-Status: x\n\n" + body + b"\n")
            path.unlink()
        self.bench.whole()
        self.agrees()
        self.assertEqual([asked.verb for asked in self.world.asked], ["move", "flag", "move", "move", "flag"])

    def test_a_draft_that_was_recalled(self) -> None:
        """It has the old Message-ID and another text."""
        old = self.bench.files("INBOX")[0]
        self.bench.put("Sent Items", old.read_bytes() + b"more token99.\r\n")
        old.unlink()
        self.bench.whole(trash="Old/2024")
        self.agrees()
        self.assertEqual([name for name, _ in self.bench.there()["Sent Items"]], ["99"])
        self.assertEqual([asked.verb for asked in self.world.asked], ["move", "append"])

    def test_copies_under_the_same_name(self) -> None:
        path = self.bench.files("INBOX")[0]
        place = pathlib.Path(maildir_words.folder_of(self.bench.root, "Sent Items"), "cur", path.name)
        place.write_bytes(path.read_bytes())
        self.bench.whole()
        self.agrees()
        self.assertEqual([asked.verb for asked in self.world.asked], ["append"])

    def test_new_letters_of_one_text(self) -> None:
        for _ in range(2):
            self.bench.put("Sent Items", b"Subject: x\n\ntoken5.\n")
        self.bench.whole()
        self.agrees()
        self.assertEqual(len(self.bench.there()["Sent Items"]), 2)
        self.assertRegex(self.bench.files("Sent Items")[0].read_bytes(), rb"\AMessage-ID: <[0-9a-f]{32}@")

    def test_a_flag_that_is_refused(self) -> None:
        """Another one of the same message is asked for once."""
        self.bench.flag(self.bench.files("INBOX")[0], "F")
        ask = self.world.ask

        def ask_or_refuse(*words: str, given: Optional[bytes] = None) -> int:
            if words[3] == "-":
                raise maildir.Refused(14, "refused no-room")
            return int(ask(*words, given=given))

        self.world.ask = ask_or_refuse  # type: ignore[method-assign]
        self.bench.sync("wishes")
        self.bench.sync("wishes")
        self.world.ask = ask  # type: ignore[method-assign]
        self.bench.whole()
        self.agrees()
        self.assertEqual([asked.letters for asked in self.world.asked], ["+F", "-S"])

    def test_what_is_printed(self) -> None:
        """A line for each action, as queue prints what it asks for."""
        self.bench.flag(self.bench.files("INBOX")[0], "F")
        self.bench.move(self.bench.files("INBOX")[1], "Sent Items", True)
        self.bench.put("Sent Items", self.bench.text(), "S")
        self.bench.sync("wishes")
        lines = ["1 flag INBOX 1 + flagged", "2 flag INBOX 1 - seen", '3 move INBOX 2 "Sent Items"', '4 append "Sent Items" seen']
        self.assertEqual(self.bench.printed.splitlines(), [f"accepted {line}" for line in lines])
        self.bench.sync("wishes")
        self.assertEqual(self.bench.printed, "")

    def test_what_a_user_types(self) -> None:
        """A file follows an action that was typed beside the reader."""
        self.bench.flag(self.bench.files("INBOX")[0], "FS")
        self.wishes_and_die()
        self.bench.sync("wishes")
        self.world.ask("flag", "INBOX", "1", "-", "flagged")
        self.world.ask("move", "INBOX", "2", "Sent Items")
        self.bench.sync("wishes")
        self.bench.whole()
        self.agrees()
        self.assertEqual([asked.verb for asked in self.world.asked], ["flag", "flag", "move"])

    def test_what_the_server_has_after_all(self) -> None:
        """A move whose answer was lost ends as source-gone, and the message is there: its file is that of the message."""
        self.bench.move(self.bench.files("INBOX")[0], "Sent Items", True)
        self.bench.sync("wishes")
        self.world.put("Sent Items", self.world.server["INBOX"].pop(1))
        self.world.asked[0].stands = "unsure source-gone"
        self.world.play(self.chance)
        self.bench.whole()
        self.said_once("action 1 ended as unsure source-gone: its message stays here alone")
        self.agrees()
        self.assertEqual(len(self.bench.files("Sent Items")), 1)

    def test_conflict_without_a_file(self) -> None:
        self.world.put("INBOX", Message(self.bench.text(), ""))
        self.world.play(self.chance)
        self.world.ask("move", "INBOX", "3", "Sent Items")
        self.world.server["INBOX"].pop(3)
        self.bench.whole()
        self.said_once("action 1 ended as nothing message-gone: move INBOX 3 Sent Items")
        self.agrees()

    def test_forwarded(self) -> None:
        self.bench.flag(self.bench.files("INBOX")[0], "PS")
        self.bench.whole()
        self.agrees()
        self.assertEqual(self.world.asked[0].letters, "+P")

    def test_what_is_no_message(self) -> None:
        folder = os.path.join(maildir_words.folder_of(self.bench.root, "INBOX"), "cur")
        os.mkfifo(os.path.join(folder, "a.fifo:2,"))
        os.symlink("/etc/passwd", os.path.join(folder, "a.link:2,"))
        os.mkdir(os.path.join(folder, "folder:2,"))
        self.bench.sync("wishes")
        self.assertEqual((self.world.asked, self.bench.said), ([], ""))

    def test_a_root_that_is_not_empty(self) -> None:
        """What another program has put there before isn't put on the server."""
        os.unlink(os.path.join(self.bench.root, maildir_files.OWN, "state.json"))
        self.bench.put("Sent Items", self.bench.text())
        for what in ("wishes", "write"):
            with self.assertRaises(maildir.Stop):
                self.bench.sync(what)
        self.assertEqual(self.world.asked, [])
        self.bench.files("Sent Items")[0].unlink()
        self.bench.whole()
        self.agrees()

    def test_a_first_sync_without_messages(self) -> None:
        bench = Bench()
        try:
            bench.whole()
            bench.put("Sent Items", bench.text())
            bench.whole()
            self.assertEqual(bench.shown(), bench.there())
        finally:
            bench.close()

    def test_lines_of_history(self) -> None:
        boxes = ["INBOX", "a b", "a", "b 5 c", "x <y>"]
        for line, wanted in (
            ('1 waiting append "a b" <x"y@z>', (1, "waiting", "append", "a b", "", "", "")),
            ('2 done 7 9 append "x <y>" <m@x>', (2, "done 7 9", "append", "x <y>", "", "", "")),
            ('3 nothing target-unknown 2 move "a b" d2 "b 5 c"', (3, "nothing target-unknown 2", "move", "b 5 c", "a b", "d2", "")),
            ("4 done flag INBOX 4 + \\seen a", (4, "done", "flag", "INBOX", "", "4", "+")),
        ):
            self.assertEqual(maildir_words.actions_of([line, "error x"], boxes), {wanted[0]: maildir_words.Action(*wanted)})

    def test_names(self) -> None:
        for box in ("..", "../x", "/etc", ".mowerbean", "cur", "a/../b", "a//b"):
            folder = os.path.normpath(maildir_words.folder_of("/root", box))
            self.assertTrue(folder.startswith("/root/") and "/.mowerbean" not in folder, folder)


class Signals(unittest.TestCase):
    """What ends the tool from without."""

    def test_signals(self) -> None:
        """It ends by the signal, without a word, wherever it is."""
        tool = pathlib.Path(__file__).with_name("maildir")
        with tempfile.TemporaryDirectory() as place:
            bell, stub = pathlib.Path(place, "bell"), pathlib.Path(place, "stub")
            stub.write_text(f"#!/bin/sh\n: >{bell}\nexec sleep 60\n")
            stub.chmod(0o700)
            for number in (signal.SIGINT, signal.SIGTERM):
                words = [sys.executable, "-Es", str(tool), "--mowerbean", str(stub), "wishes", os.path.join(place, "Mail")]
                # Where this test is started to ignore it, in the background of a script, the tool isn't.
                first = functools.partial(signal.signal, number, signal.SIG_DFL)
                with subprocess.Popen(words, stdout=subprocess.PIPE, stderr=subprocess.STDOUT, start_new_session=True, preexec_fn=first) as run:
                    while not bell.exists() and run.poll() is None:
                        time.sleep(0.01)
                    bell.unlink()
                    os.killpg(run.pid, number)
                    self.assertEqual((run.communicate()[0], run.returncode), (b"", -number))


class Random(unittest.TestCase):
    """Random wishes, other clients, cut plays and killed runs: each wish is done once or told, and nothing is lost."""

    def test_random(self) -> None:
        first = int(os.environ.get("MAILDIR_SEED", "1"))
        for seed in range(first, first + int(os.environ.get("MAILDIR_ROUNDS", "60"))):
            with self.subTest(seed=seed):
                self.one(seed)

    def one(self, seed: int) -> None:
        bench = Bench(seed)
        chance, self.said = bench.chance, ""
        tokens: Set[str] = set()
        self.gone: Set[str] = set()
        # How often a message was to be put elsewhere, or to get or lose a flag: by the reader, and by what was asked.
        self.wished: Counter[Tuple[str, str]] = collections.Counter()
        self.asked: Counter[Tuple[str, str]] = collections.Counter()
        self.flags: List[Tuple[str, str]] = []
        try:
            for _ in range(4):
                text = bench.text()
                tokens.add(token(text))
                bench.world.put(chance.choice(BOXES), Message(text, ""))
            bench.whole()
            for _ in range(20):
                for _ in range(chance.randrange(4)):
                    self.act(bench, tokens)
                self.run_cut(bench, tokens, "wishes", trash=BOXES[2] if seed % 2 else "")
                if chance.random() < 0.5:
                    self.others(bench)
                most = chance.choice([0, 1, 1000])
                bench.world.play(chance, most)
                if chance.random() < 0.7:
                    bench.world.fetch()
                if chance.random() < 0.3:
                    self.act(bench, tokens)
                self.run_cut(bench, tokens, "write", most == 1000)
            bench.whole()
            bench.whole()
            bench.whole()
            self.assertEqual(bench.shown(), bench.there())
            have = [name for names in bench.there().values() for name, _ in names]
            self.assertEqual(len(have), len(set(have)), "one is there twice")
            alone = {token(path.read_bytes()) for box in BOXES for path in bench.files(box) if path.name.startswith("c")}
            self.assertEqual(tokens - set(have) - alone - self.gone, set(), "one is lost")
            # What another client has removed is told to be alone, and a new letter where the reader then copies it.
            self.wished.update((each, "append") for each in self.gone)
            # And the flag of a conflict is a wish once more, where the reader moves the file on before it has the server's flags again.
            for (known, letters), asked in zip(self.flags, bench.world.asked):
                if asked.stands.startswith("nothing"):
                    self.wished.update((known, letters[0] + each) for each in letters[1:])
            self.assertEqual(self.asked - self.wished, collections.Counter(), "it was asked for too often")
        finally:
            bench.close()

    def act(self, bench: Bench, tokens: Set[str], is_beside: bool = False) -> None:
        """Something that a reader does. Beside a run it is what can't be half done."""
        chance = bench.chance
        files = [(box, path) for box in BOXES for path in bench.files(box)]
        what = chance.random()
        if what < 0.2 or not files:
            text = bench.text(chance.random() < 0.7)
            tokens.add(token(text))
            self.wished[token(text), "append"] += 1
            bench.put(chance.choice(BOXES), text, chance.choice(["", "S", "FS"]))
            return
        box, path = chance.choice(files)
        if path.name.startswith("c"):
            return
        known = token(path.read_bytes())
        if what < 0.6:
            letters, by = path.name.partition(":2,")[2], chance.choice("+-") + chance.choice("FRST")
            self.wished[known, by] += changed(letters, by) != letters
            bench.flag(path, changed(letters, by))
        elif what < 0.9:
            self.wished[known, "move"] += 1
            if [token(each.read_bytes()) for _, each in files].count(known) > 1:
                # One was written anew, and the run was killed: which of the two is the message is known by none, and each has its flags.
                letters = path.name.partition(":2,")[2]
                self.wished.update((known, ("+" if each in letters else "-") + each) for each in "FRST")
            bench.move(path, chance.choice([each for each in BOXES if each != box]), is_beside or chance.random() < 0.5)
        elif maildir_words.tag_of(box) in path.name:
            self.wished[known, "move"] += 1
            path.unlink()

    def others(self, bench: Bench) -> None:
        """Something that another client does."""
        box = bench.chance.choice(BOXES)
        if bench.chance.random() < 0.05:
            bench.world.recreate(box)
            return
        messages = bench.world.server[box]
        if not messages:
            return
        uid = bench.chance.choice(sorted(messages))
        if bench.chance.random() < 0.3:
            self.gone.add(token(messages.pop(uid).text))
        else:
            messages[uid].letters = changed(messages[uid].letters, bench.chance.choice("+-") + bench.chance.choice("FRST"))

    def run_cut(self, bench: Bench, tokens: Set[str], what: str, is_played: bool = False, trash: str = "") -> None:
        """A run of the tool, which may be killed before some call that changes a file, or behind an action that was accepted. At the same places
        of one that isn't killed the reader may do something."""
        left, is_acting = bench.chance.choice([-1, -1, -1, *range(12)]), False
        is_whole = left < 0
        names = ["rename", "unlink", "fsync"]
        kept = {name: getattr(os, name) for name in names}
        ask = bench.world.ask

        def act_beside() -> None:
            nonlocal is_acting
            if is_whole and bench.chance.random() < 0.1:
                is_acting = True
                self.act(bench, tokens, is_beside=True)
                is_acting = False

        def cut(function: Any) -> Any:
            def call(*given: Any) -> Any:
                nonlocal left
                if is_acting:
                    return function(*given)
                act_beside()
                if left == 0:
                    raise Killed
                left -= 1
                return function(*given)
            return call

        def ask_and_die(*words: str, given: Optional[bytes] = None) -> int:
            nonlocal left
            text = given or bench.world.view(words[1])[words[2]].text
            number = int(ask(*words, given=given))
            letters = bench.world.asked[-1].letters
            self.flags.append((token(text), letters if words[0] == "flag" else "+"))
            self.asked.update((token(text), letters[0] + each) for each in letters[1:] if words[0] == "flag")
            self.asked[token(text), words[0]] += words[0] != "flag"
            act_beside()
            if left == 0:
                raise Killed
            left -= 1
            return number

        for name in names:
            setattr(os, name, cut(kept[name]))
        bench.world.ask = ask_and_die  # type: ignore[method-assign]
        try:
            bench.sync(what, trash, is_played)
        except Killed:
            pass
        finally:
            bench.world.ask = ask  # type: ignore[method-assign]
            for name in names:
                setattr(os, name, kept[name])


if __name__ == "__main__":
    unittest.main()
