"""Tries mowerbean-maildir where something isn't as it should be: a file that can't be read, two disks, a state that is gone; or is another
program's. Part of test_maildir.py."""
import errno
import os
from typing import Any

from maildir_world import Case, Message, maildir_files, maildir_words


class Faults(Case):
    """Single wishes, and what is wrong."""

    def test_a_state_that_is_gone_and_a_journal_begun_anew(self) -> None:
        """A number in a name isn't taken for one of the new journal, where the texts tell it; and it is where they are the same."""
        self.bench.move(self.bench.files("INBOX")[0], "Sent Items", True)
        self.bench.put("Sent Items", self.bench.text(), "S")
        for ask in (False, True):
            self.bench.sync("wishes")
            os.unlink(os.path.join(self.bench.root, maildir_files.OWN, "state.json"))
            if ask:
                self.world.asked = []
                self.world.ask("append", "Sent Items", given=self.bench.text())
                self.world.ask("flag", "Old/2024", "1", "-", "flagged")
            self.bench.sync("write")
            alone = [path for path in self.bench.files("Sent Items") if path.name.startswith("c")]
            self.assertEqual((len(alone), self.bench.said.count("the journal was begun anew")), (2, 2) if ask else (0, 0))
        self.bench.whole()
        self.agrees()
        self.assertEqual([name for name, _ in self.bench.there()["Sent Items"]], ["6"])

    def test_a_file_that_can_t_be_read(self) -> None:
        """It waits with a line, and what may be its message isn't taken for deleted; all others go on."""
        bad, gone = self.bench.files("INBOX")
        text = bad.read_bytes()
        for path in (bad, self.bench.files("Old/2024")[0]):
            path.unlink()
        gone.unlink()
        self.bench.put("Sent Items", text, "S")
        bad = self.bench.files("Sent Items")[0]
        self.bench.put("Sent Items", self.bench.text())
        self.world.put("INBOX", Message(self.bench.text(), ""))

        def open_other(path: Any, *rest: Any, **words: Any) -> Any:
            if str(path) == str(bad):
                raise PermissionError(13, "Permission denied", path)
            return open(path, *rest, **words)

        maildir_files.open = open_other
        try:
            for _ in range(2):
                self.bench.whole(trash="Sent Items")
                self.assertEqual(self.bench.said, f"mowerbean-maildir: {bad} can't be read, and waits (Permission denied)\n")
                self.assertEqual([asked.verb for asked in self.world.asked], ["append"])
                self.assertEqual([len(self.bench.files(box)) for box in ("INBOX", "Sent Items", "Old/2024")], [1, 2, 0])
        finally:
            del maildir_files.open
        self.bench.whole(trash="Sent Items")
        self.agrees()
        self.assertEqual([asked.verb for asked in self.world.asked], ["append", "move", "move", "move"])

    def test_a_message_that_can_t_be_read(self) -> None:
        """It is never taken away: it stays alone, where the server has it no more."""
        path = self.bench.files("INBOX")[0]
        self.world.server["INBOX"].pop(1)
        self.world.put("INBOX", Message(self.bench.text(), ""))
        self.world.play(self.chance)
        self.world.fetch()
        read = maildir_files.File.read

        def read_other(file: Any) -> Any:
            if file.key == "7.1" or file.is_alone():
                raise maildir_files.Unreadable
            return read(file)

        maildir_files.File.read = read_other
        try:
            for what in ("write", "wishes", "write"):
                self.bench.sync(what, is_played=True)
        finally:
            maildir_files.File.read = read
        self.assertFalse(path.exists())
        self.assertEqual(sorted(path.name[0] for path in self.bench.files("INBOX")), ["7", "7", "c"])
        self.assertEqual(self.world.asked, [])

    def test_keywords_of_another_program(self) -> None:
        """They stay through all names in one folder, and are no wish; in another folder their letters stand for others."""
        self.bench.put("Sent Items", self.bench.text(), "Sab")
        first, new = self.bench.files("INBOX")
        self.bench.flag(first, "Sza")
        self.bench.flag(new, "z")
        self.bench.whole()
        self.bench.whole()
        self.assertEqual([(asked.verb, asked.letters) for asked in self.world.asked], [("append", "S")])
        self.world.server["INBOX"][1].letters = "FRS"
        self.world.server["INBOX"][2].letters = "F"
        self.bench.whole()
        names = [path.name.partition(":2,")[2] for box in ("INBOX", "Sent Items") for path in self.bench.files(box)]
        self.assertEqual(names, ["FRSaz", "Fz", "Sab"])
        self.bench.move(self.bench.files("INBOX")[0], "Sent Items", True)
        self.bench.sync("wishes")
        self.world.asked[-1].stands = "nothing refused-no"
        self.bench.sync("write")
        self.assertEqual([path.name.partition(":2,")[2] for path in self.bench.files("INBOX")], ["FRS", "Fz"])

    def test_folders_on_two_disks(self) -> None:
        """It is told, and nothing is done."""
        stat, there = os.stat, os.path.realpath(maildir_words.folder_of(self.bench.root, "Old/2024"))

        def stat_elsewhere(path: Any, *rest: Any, **words: Any) -> Any:
            found = stat(path, *rest, **words)
            return os.stat_result((*found[:2], found.st_dev + str(path).startswith(there), *found[3:10]))

        self.bench.move(self.bench.files("INBOX")[0], "Sent Items", True)
        before = self.bench.shown()
        os.stat = stat_elsewhere  # type: ignore[assignment]
        try:
            with self.assertRaisesRegex(OSError, "Sent Items/cur and .*/Old/2024/cur are on two disks"):
                self.bench.sync("wishes")
        finally:
            os.stat = stat
        self.assertEqual((self.bench.shown(), self.world.asked), (before, []))
        self.bench.whole()
        self.agrees()

    def test_a_disk_that_is_mounted_twice(self) -> None:
        """What can't be put back is told, and stays until it can be."""
        self.bench.move(self.bench.files("INBOX")[0], "Sent Items", True)
        self.bench.sync("wishes")
        self.world.asked[0].stands = "nothing refused-no"
        self.world.play(self.chance)
        rename = os.rename

        def rename_here(old: str, new: str) -> None:
            if ("Sent Items" in old) != ("Sent Items" in new):
                raise OSError(errno.EXDEV, "Invalid cross-device link")
            rename(old, new)

        os.rename = rename_here  # type: ignore[assignment]
        try:
            for what in ("write", "wishes", "write"):
                with self.assertRaisesRegex(OSError, "Sent Items/cur and .*/INBOX/cur are on two disks"):
                    self.bench.sync(what, "Old/2024", is_played=True)
        finally:
            os.rename = rename
        self.bench.whole(trash="Old/2024")
        self.agrees()
        self.assertEqual([asked.verb for asked in self.world.asked], ["move"])
