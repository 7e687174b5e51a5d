"""Tries mowerbean-maildir where something comes in between: a kill, a reader that is faster, another client, a mailbox made anew. Part of
test_maildir.py."""
import os
import pathlib
import shutil
from typing import Any, Optional

from maildir_world import Case, Killed, Message, changed, maildir, maildir_files, maildir_words


class Races(Case):
    """Single wishes, and what comes in between."""

    def test_flags(self) -> None:
        self.bench.flag(self.bench.files("INBOX")[0], "FS")
        self.bench.sync("wishes")
        self.bench.sync("wishes")
        self.assertEqual([(asked.verb, asked.letters) for asked in self.world.asked], [("flag", "+F")])
        self.bench.whole()
        self.agrees()

    def test_a_reader_that_is_faster(self) -> None:
        """The file of a new letter gets another name between the append and ours."""
        self.bench.put("Sent Items", self.bench.text())
        ask = self.world.ask

        def ask_and_rename(*words: str, given: Optional[bytes] = None) -> int:
            self.bench.flag(self.bench.files("Sent Items")[0], "S")
            return int(ask(*words, given=given))

        self.world.ask = ask_and_rename  # type: ignore[method-assign]
        self.bench.sync("wishes")
        self.world.ask = ask  # type: ignore[method-assign]
        self.bench.whole()
        self.bench.whole()
        self.agrees()
        self.assertEqual([asked.verb for asked in self.world.asked], ["append", "flag"])

    def test_a_reader_that_moves_on_faster(self) -> None:
        """The file of a message that goes to another folder is moved on between the action and our name: nothing was deleted."""
        self.bench.move(self.bench.files("INBOX")[0], "Sent Items", True)
        ask = self.world.ask

        def ask_and_move_on(*words: str, given: Optional[bytes] = None) -> int:
            self.bench.move(self.bench.files("Sent Items")[0], "Old/2024", True)
            return int(ask(*words, given=given))

        self.world.ask = ask_and_move_on  # type: ignore[method-assign]
        self.bench.sync("wishes", "INBOX")
        self.world.ask = ask  # type: ignore[method-assign]
        self.bench.whole(trash="INBOX")
        self.agrees()
        self.assertEqual([(asked.verb, asked.target) for asked in self.world.asked], [("move", "Sent Items"), ("move", "Old/2024")])

    def test_a_reader_that_moves_back_faster(self) -> None:
        """The file stands in its own folder under its old name, and its message goes elsewhere: it is moved back, and not deleted."""
        self.bench.move(self.bench.files("INBOX")[0], "Sent Items", True)
        ask = self.world.ask

        def ask_and_move_back(*words: str, given: Optional[bytes] = None) -> int:
            self.bench.move(self.bench.files("Sent Items")[0], "INBOX", True)
            return int(ask(*words, given=given))

        self.world.ask = ask_and_move_back  # type: ignore[method-assign]
        self.bench.sync("wishes", "Old/2024")
        self.world.ask = ask  # type: ignore[method-assign]
        self.world.play(self.chance)
        self.bench.whole(trash="Old/2024")
        self.agrees()
        self.assertEqual([(asked.verb, asked.target) for asked in self.world.asked], [("move", "Sent Items"), ("move", "INBOX")])

    def test_a_reader_that_flags_faster_than_a_new_name(self) -> None:
        """What was moved gets the name of its UID, and a reader flags it meanwhile: nothing was deleted."""
        self.bench.move(self.bench.files("INBOX")[0], "Sent Items", True)
        self.bench.sync("wishes")
        self.world.play(self.chance)
        rename, done = os.rename, []

        def rename_behind(old: str, new: str) -> None:
            if not done and "/d1." in old:
                done.append(old)
                self.bench.flag(pathlib.Path(old), "FS")
            rename(old, new)

        os.rename = rename_behind  # type: ignore[assignment]
        try:
            self.bench.sync("wishes", "Old/2024")
        finally:
            os.rename = rename
        self.bench.whole(trash="Old/2024")
        self.agrees()
        self.assertEqual([(asked.verb, asked.letters) for asked in self.world.asked], [("move", ""), ("flag", "+F")])

    def test_flags_of_another_client_stay_at_a_move(self) -> None:
        self.world.server["INBOX"][2].letters = "F"
        self.world.play(self.chance)
        self.bench.move(self.bench.files("INBOX")[1], "Sent Items", True)
        self.bench.whole()
        self.agrees()
        self.assertEqual(self.bench.there()["Sent Items"], [("2", "F")])

    def test_flags_behind_a_kill(self) -> None:
        """An append was accepted, and then its file got a flag."""
        self.bench.put("Sent Items", self.bench.text(), "S")
        self.world.ask("append", "Sent Items", "seen", given=self.bench.files("Sent Items")[0].read_bytes())
        self.bench.flag(self.bench.files("Sent Items")[0], "FS")
        self.bench.whole()
        self.agrees()
        self.assertEqual([asked.letters for asked in self.world.asked], ["S", "+F"])

    def test_a_wish_that_is_taken_back_behind_a_kill(self) -> None:
        for letters, other in (("FS", "S"), ("", "S"), ("FR", "S")):
            self.bench.flag(self.bench.files("INBOX")[0], letters)
            self.wishes_and_die()
            self.bench.flag(self.bench.files("INBOX")[0], other)
            self.bench.whole()
            self.agrees()
            self.assertEqual(self.bench.there()["INBOX"], [("1", other), ("2", "")])
        for keeps_name in (True, False):
            self.bench.move(self.bench.files("INBOX")[1], "Sent Items", keeps_name)
            self.wishes_and_die()
            self.bench.move(self.bench.files("Sent Items")[0], "INBOX", keeps_name)
            self.bench.whole()
            self.agrees()
            self.assertEqual(len(self.bench.there()["INBOX"]), 2)

    def test_flags_of_another_client_behind_a_kill(self) -> None:
        """A letter was accepted, and then it got a flag on the server: that isn't taken back."""
        self.bench.put("Sent Items", self.bench.text(), "S")
        self.wishes_and_die()
        self.world.play(self.chance)
        self.world.server["Sent Items"][1].letters = "RS"
        self.world.play(self.chance)
        self.bench.flag(self.bench.files("Sent Items")[0], "FS")
        self.bench.whole()
        self.agrees()
        self.assertEqual([asked.letters for asked in self.world.asked], ["S", "+F"])

    def test_flags_of_several_messages_behind_a_kill(self) -> None:
        """None of them is asked for twice, though the state isn't saved between them; nor where a reader takes one back meanwhile."""
        for box, text in [("INBOX", self.bench.text()) for _ in range(2 * maildir_files.MOST_INTENTS)]:
            self.world.put(box, Message(text, ""))
        self.bench.whole()
        for most in (2, maildir_files.MOST_INTENTS, maildir_files.MOST_INTENTS + 1):
            self.world.asked.clear()
            self.bench.sync("wishes")
            for path in self.bench.files("INBOX"):
                self.bench.flag(path, changed(path.name.partition(":2,")[2], "+F"))
            self.wishes_and_die(most)
            self.assertEqual(len(self.world.asked), most)
            first = next(path for path in self.bench.files("INBOX") if maildir_words.id_of(path.name).startswith(self.world.asked[0].message + "."))
            self.bench.flag(first, changed(first.name.partition(":2,")[2], "-F"))
            self.bench.whole()
            self.agrees()
            self.assertEqual([asked.letters for asked in self.world.asked].count("+F"), len(self.world.server["INBOX"]))
            self.assertEqual([asked.message for asked in self.world.asked if asked.letters == "-F"], [self.world.asked[0].message])
            for path in self.bench.files("INBOX"):
                self.bench.flag(path, changed(path.name.partition(":2,")[2], "-F"))
            self.bench.whole()

    def test_a_user_who_types_meanwhile(self) -> None:
        """An action is accepted between two of a run: the next look follows it too."""
        self.bench.put("Sent Items", self.bench.text())
        self.bench.flag(self.bench.files("Old/2024")[0], "FS")
        ask, text = self.world.ask, self.bench.text()

        def ask_beside(*words: str, given: Optional[bytes] = None) -> int:
            if words[0] == "flag":
                ask("append", "INBOX", given=text)
                self.bench.put("INBOX", text)
            return int(ask(*words, given=given))

        self.world.ask = ask_beside  # type: ignore[method-assign]
        self.bench.sync("wishes")
        self.world.ask = ask  # type: ignore[method-assign]
        self.bench.whole()
        self.agrees()
        self.assertEqual([asked.verb for asked in self.world.asked], ["append", "flag", "append"])

    def test_a_letter_that_is_refused_meanwhile(self) -> None:
        """A play beside a run settles it between the history and the list: its file stays until the next look knows how it ended."""
        self.bench.put("Sent Items", self.bench.text())
        self.bench.sync("wishes")
        rows = self.world.rows

        def rows_behind_a_play(box: str) -> Any:
            self.world.asked[0].stands = "nothing refused-no"
            return rows(box)

        self.world.rows = rows_behind_a_play  # type: ignore[method-assign]
        self.bench.sync("write", is_played=True)
        self.world.rows = rows  # type: ignore[method-assign]
        self.bench.sync("write", is_played=True)
        self.assertIn("action 1 ended as nothing refused-no: its message stays here alone", self.bench.said)
        self.assertEqual(len(self.bench.files("Sent Items")), 1)

    def test_mailbox_made_anew(self) -> None:
        """What is done to a file of the older mailbox is done to no message of the new one."""
        self.world.recreate("INBOX")
        self.world.play(self.chance)
        self.bench.flag(self.bench.files("INBOX")[0], "FS")
        self.bench.move(self.bench.files("INBOX")[1], "Sent Items", True)
        self.world.fetch()
        self.bench.sync("wishes", "Old/2024")
        self.assertEqual(self.world.asked, [])
        self.assertIn("INBOX 2 isn't on the server any more: its message stays here alone", self.bench.said)
        self.bench.whole()
        self.agrees()
        self.world.recreate("INBOX")
        self.world.play(self.chance)
        self.world.fetch()
        self.bench.files("INBOX")[0].unlink()
        self.bench.sync("wishes", "Old/2024")
        self.assertIn("the mailbox was made anew, so it was not asked for that the message goes as its file did", self.bench.said)
        self.bench.whole()
        self.agrees()

    def test_a_mailbox_made_anew_beside_a_move(self) -> None:
        """The message comes again, so its file that went elsewhere is told to be alone at once, before a reader copies it."""
        self.bench.sync("wishes")
        self.bench.move(self.bench.files("INBOX")[0], "Sent Items", True)
        self.world.recreate("INBOX")
        self.world.play(self.chance)
        self.world.fetch()
        self.bench.sync("write", is_played=True)
        self.assertIn("INBOX 1 isn't on the server any more: its message stays here alone", self.bench.said)
        self.assertEqual([path.name[0] for path in self.bench.files("Sent Items")], ["c"])
        self.bench.whole()
        self.agrees()
        self.assertEqual((len(self.bench.there()["INBOX"]), self.world.asked), (2, []))

    def test_a_file_that_goes_elsewhere_as_it_is_taken_away(self) -> None:
        """It is told to be alone by the next run, also where a reader copies it meanwhile."""
        self.bench.sync("wishes")
        self.world.server["INBOX"].pop(1)
        self.world.play(self.chance)
        unlink = os.unlink

        def move_and_unlink(name: str) -> None:
            os.unlink = unlink
            self.bench.move(pathlib.Path(name), "Sent Items", True)
            unlink(name)

        os.unlink = move_and_unlink
        self.bench.sync("write", is_played=True)
        self.bench.move(self.bench.files("Sent Items")[0], "Old/2024", False)
        self.bench.whole()
        self.assertIn("INBOX 1 isn't on the server any more: its message stays here alone", self.bench.said)
        self.agrees()
        self.assertEqual(self.world.asked, [])

    def test_a_file_that_is_deleted_whose_message_is_elsewhere(self) -> None:
        """Another client has moved it, so it comes there: the deletion is told."""
        for first in ("wishes", "write"):
            uid = max(self.world.server["INBOX"])
            next(path for path in self.bench.files("INBOX") if path.name.startswith(f"7.{uid}.")).unlink()
            self.world.put("Sent Items", self.world.server["INBOX"].pop(uid))
            self.world.play(self.chance)
            self.world.fetch()
            self.bench.sync(first, "Old/2024", is_played=True)
            self.assertIn(f"INBOX {uid} isn't on the server any more, so it was not asked for that the message goes as its file did", self.bench.said)
            self.bench.whole(trash="Old/2024")
            self.assertEqual((self.bench.said, self.world.asked), ("", []))
            self.agrees()

    def test_journal_begun_anew(self) -> None:
        """A letter that waited in an older journal stays, and isn't asked for once more."""
        self.bench.put("Sent Items", self.bench.text())
        self.bench.sync("wishes")
        self.world.asked = []
        self.world.ask("flag", "INBOX", "1", "+", "flagged")
        self.bench.sync("write", is_played=True)
        self.assertIn("the journal was begun anew: its message stays here alone", self.bench.said)
        self.bench.whole()
        self.assertEqual((len(self.world.asked), len(self.bench.files("Sent Items"))), (1, 1))
        # Nothing of the new journal is taken for something of the old one.
        self.world.asked = []
        self.world.ask("move", "INBOX", "1", "Old/2024")
        number = self.bench.files("INBOX")[0].stat().st_ino
        self.bench.sync("write")
        moved = [path for path in self.bench.files("Old/2024") if path.name.startswith("d1.")]
        self.assertEqual([path.stat().st_ino for path in moved], [number])
        self.bench.whole()
        # It is asked for where it is moved.
        alone = self.bench.files("Sent Items")[0]
        self.bench.move(alone, "Old/2024", True)
        self.bench.whole()
        self.agrees()
        self.assertEqual(len(self.bench.there()["Old/2024"]), 3)

    def test_what_a_reader_does_beside_a_play(self) -> None:
        """Between the wishes and the writing: it is asked for by the next run."""
        self.bench.sync("wishes")
        self.bench.flag(self.bench.files("INBOX")[0], "FS")
        self.bench.files("INBOX")[1].unlink()
        self.world.server["INBOX"][1].letters = "RS"
        self.world.play(self.chance)
        self.bench.sync("write", is_played=True)
        self.assertEqual(len(self.bench.files("INBOX")), 1)
        self.bench.whole(trash="Old/2024")
        self.agrees()
        self.assertEqual(self.bench.there()["INBOX"], [("1", "FRS")])
        self.assertEqual([asked.verb for asked in self.world.asked], ["flag", "move"])

    def test_a_list_that_lags_behind(self) -> None:
        """A play was cut off behind an action, so the list doesn't have its flag yet; and the reader takes it back."""
        self.bench.flag(self.bench.files("INBOX")[0], "FS")
        self.bench.sync("wishes")
        self.world.asked[0].stands = "done"
        self.world.server["INBOX"][1].letters = "FS"
        self.bench.sync("write")
        self.bench.flag(self.bench.files("INBOX")[0], "S")
        self.bench.whole()
        self.agrees()
        self.assertEqual([asked.letters for asked in self.world.asked], ["+F", "-F"])

    def test_flags_of_both_sides(self) -> None:
        """What another client has set isn't taken back by a file that doesn't have it yet."""
        self.world.server["INBOX"][1].letters = "RS"
        self.world.play(self.chance)
        self.bench.flag(self.bench.files("INBOX")[0], "F")
        self.bench.whole()
        self.agrees()
        self.assertEqual(self.bench.there()["INBOX"], [("1", "FR"), ("2", "")])

    def test_flags_behind_a_kill_of_the_writing(self) -> None:
        """A file got the flags of the server, and the run was killed. They aren't taken for a wish when the server hasn't them any more."""
        rename = os.rename

        def rename_and_die(old: str, new: str) -> None:
            rename(old, new)
            if "INBOX" in new:
                raise Killed

        for letters, asked in (("FS", []), ("FRS", ["+R"])):
            self.world.server["INBOX"][1].letters = "FS"
            self.world.play(self.chance)
            os.rename = rename_and_die  # type: ignore[assignment]
            try:
                with self.assertRaises(Killed):
                    self.bench.sync("write", is_played=True)
            finally:
                os.rename = rename
            # What the reader changes beside them is.
            self.bench.flag(self.bench.files("INBOX")[0], letters)
            self.world.server["INBOX"][1].letters = "S"
            self.world.play(self.chance)
            self.bench.sync("wishes")
            self.bench.sync("write", is_played=True)
            self.bench.whole()
            self.agrees()
            self.assertEqual([each.letters for each in self.world.asked], asked)

    def test_a_text_of_an_older_mailbox(self) -> None:
        """A message that is on its way, and whose text isn't here, isn't written with that of another one which had its UID before."""
        self.world.recreate("INBOX")
        self.world.server["INBOX"].pop(2)
        self.world.put("INBOX", Message(self.bench.text(), ""))
        self.world.play(self.chance)
        self.world.ask("move", "INBOX", "1", "Sent Items")
        self.bench.sync("write", is_played=True)
        self.assertEqual(self.bench.files("Sent Items"), [])
        self.bench.whole()
        self.agrees()

    def test_a_letter_under_a_uid_of_an_older_mailbox(self) -> None:
        """Its file stays, though the text that is kept under the UID is another message's, and its own isn't here."""
        self.world.put("INBOX", Message(self.bench.text(), ""))
        self.bench.whole()
        self.world.recreate("INBOX")
        self.world.server["INBOX"].pop(3)
        self.world.next["INBOX"] = 3
        self.bench.put("INBOX", self.bench.text(), "S")
        self.bench.sync("wishes")
        self.world.play(self.chance)
        self.assertEqual(self.world.asked[0].stands, "done 8 3")
        self.bench.sync("write", is_played=True)
        self.assertEqual(len([path for path in self.bench.files("INBOX") if path.name.startswith("8.3.")]), 1)
        self.bench.whole(trash="Old/2024")
        self.agrees()
        self.assertEqual([asked.verb for asked in self.world.asked], ["append"])

    def test_a_message_that_is_never_fetched_under_a_uid_of_an_older_mailbox(self) -> None:
        """The file that has the UID goes, as that message isn't there any more."""
        self.world.recreate("INBOX")
        self.world.server["INBOX"][2].text = self.bench.text()
        self.world.play(self.chance)
        self.world.fetch()
        os.unlink(os.path.join(self.world.place, "bodies", "8.2.INBOX"))
        self.bench.sync("write", is_played=True)
        self.assertEqual([path.name[:4] for path in self.bench.files("INBOX")], ["8.1."])
        self.bench.whole()
        self.agrees()

    def test_a_flag_of_an_older_mailbox(self) -> None:
        """No text is here that tells of which mailbox a file is, but an action has made something in the new one."""
        self.bench.put("Sent Items", self.bench.text())
        self.bench.sync("wishes")
        self.world.play(self.chance)
        self.bench.sync("write", is_played=True)
        self.world.recreate("Sent Items")
        self.world.server["Sent Items"][1].text = self.bench.text()
        self.bench.put("Sent Items", self.bench.text())
        self.bench.sync("wishes")
        self.world.play(self.chance)
        self.bench.flag(next(path for path in self.bench.files("Sent Items") if path.name.startswith("7.1.")), "F")
        self.bench.sync("wishes")
        self.bench.whole()
        self.agrees()
        self.assertEqual([asked.verb for asked in self.world.asked], ["append", "append"])

    def test_a_play_that_was_cut_off_in_a_mailbox_made_anew(self) -> None:
        """Under the UID of a message that was moved there is another one, which stays in the Maildir."""
        self.bench.move(self.bench.files("INBOX")[0], "Sent Items", True)
        self.bench.whole()
        self.world.recreate("INBOX")
        self.bench.whole()
        for _ in range(2):
            self.bench.sync("write")
            self.assertEqual(len(self.bench.files("INBOX")), 1)
        self.agrees()

    def test_a_kill_behind_what_was_taken_away(self) -> None:
        """It isn't taken for what a reader has deleted; nor is a file that the reader moves then a new letter."""
        unlink = os.unlink
        for dies_before in (False, True):
            def unlink_and_die(name: str, dies_before: bool = dies_before) -> None:
                if not dies_before:
                    unlink(name)
                raise Killed

            message = self.world.server["INBOX"].pop(max(self.world.server["INBOX"]))
            self.world.play(self.chance)
            os.unlink = unlink_and_die  # type: ignore[assignment]
            try:
                with self.assertRaises(Killed):
                    self.bench.sync("write", is_played=True)
            finally:
                os.unlink = unlink
            if dies_before:
                self.bench.move(self.bench.files("INBOX")[-1], "Sent Items", False)
            else:
                # The server has it after all.
                self.world.server["INBOX"][2] = message
                self.world.play(self.chance)
            self.bench.whole(trash="Old/2024")
            self.agrees()
            self.assertEqual(self.world.asked, [])

    def test_a_play_that_was_cut_off(self) -> None:
        """A message that was moved, and that the list doesn't have there yet, stays in the Maildir."""
        self.bench.move(self.bench.files("INBOX")[0], "Sent Items", True)
        self.bench.sync("wishes")
        self.world.asked[0].stands = self.world.moved(self.world.asked[0], 1)
        for _ in range(2):
            self.bench.sync("write")
            self.bench.sync("wishes")
            self.assertEqual((len(self.bench.files("Sent Items")), len(self.bench.files("INBOX"))), (1, 1))
        self.assertEqual(len(self.world.asked), 1)
        self.bench.whole()
        self.agrees()

    def test_a_message_that_was_not_written(self) -> None:
        """A run was killed before it wrote it: it isn't taken for a deleted one."""
        self.world.put("INBOX", Message(self.bench.text(), ""))
        self.world.play(self.chance)
        self.world.fetch()
        write = maildir_files.Maildirs.write

        def die(*given: Any) -> None:
            raise Killed

        maildir_files.Maildirs.write = die
        try:
            with self.assertRaises(Killed):
                self.bench.sync("write", is_played=True)
        finally:
            maildir_files.Maildirs.write = write
        self.bench.whole(trash="Old/2024")
        self.agrees()
        self.assertEqual(self.world.asked, [])

    def test_a_file_on_its_way(self) -> None:
        """It isn't taken for a deleted one."""
        path = self.bench.files("INBOX")[0]
        hidden = pathlib.Path(self.bench.place, "hidden")
        path.rename(hidden)
        sleep = maildir.time.sleep
        maildir.time.sleep = lambda seconds: hidden.rename(os.path.join(maildir_words.folder_of(self.bench.root, "Sent Items"), "cur", path.name))
        try:
            self.bench.sync("wishes", "Old/2024")
        finally:
            maildir.time.sleep = sleep
        self.assertEqual([(asked.verb, asked.target) for asked in self.world.asked], [("move", "Sent Items")])

    def test_a_conflict_that_is_seen_late(self) -> None:
        """The mailbox was made anew since: the message that has the UID now isn't the one that was to be moved."""
        self.bench.move(self.bench.files("INBOX")[0], "Sent Items", True)
        self.bench.sync("wishes")
        self.world.asked[0].stands = "nothing refused-no"
        self.world.recreate("INBOX")
        self.world.play(self.chance)
        self.world.fetch()
        self.bench.sync("write", is_played=True)
        self.bench.whole()
        self.agrees()

    def test_what_is_written_is_whole(self) -> None:
        """A text and the state are in their places only when all of them is on the disk."""
        self.world.put("INBOX", Message(self.bench.text(), ""))
        self.world.play(self.chance)
        self.world.fetch()
        fsync, seen = os.fsync, []
        state = pathlib.Path(self.bench.root, maildir_files.OWN, "state.json")
        before = state.read_bytes()

        def look(handle: int) -> None:
            seen.append((len(self.bench.files("INBOX")), state.read_bytes() == before))
            fsync(handle)

        os.fsync = look
        try:
            self.bench.sync("write", is_played=True)
        finally:
            os.fsync = fsync
        self.assertEqual(seen[:2], [(2, True), (2, False)])
        rename = os.rename
        os.rename = lambda *names: None  # type: ignore[assignment]
        try:
            before = state.read_bytes()
            self.world.server["INBOX"].clear()
            self.world.play(self.chance)
            self.bench.sync("write", is_played=True)
        finally:
            os.rename = rename
        self.assertEqual(state.read_bytes(), before)

    def test_a_folder_that_is_gone(self) -> None:
        """Its messages come back, though deleted ones go to another mailbox."""
        history = self.world.history

        def die() -> Any:
            raise Killed

        for first, part in (("wishes", ""), ("write", ""), ("killed", ""), ("wishes", "new"), ("wishes", "cur")):
            shutil.rmtree(os.path.join(maildir_words.folder_of(self.bench.root, "INBOX"), part))
            if first == "killed":
                self.world.history = die  # type: ignore[method-assign]
                with self.assertRaises(Killed):
                    self.bench.sync("wishes", "Old/2024")
                self.world.history = history  # type: ignore[method-assign]
            else:
                self.bench.sync(first, "Old/2024")
            self.assertIn("INBOX: its folder is gone, and comes back with its messages\n", self.bench.said)
            self.bench.whole(trash="Old/2024")
            self.agrees()
            self.assertEqual((len(self.bench.there()["INBOX"]), self.world.asked), (2, []))

    def test_what_is_not_as_it_was_written_is_not_taken_away(self) -> None:
        """A file that a reader has changed, or of which nothing is known, stays alone where the server has no such message."""
        changed_file = self.bench.files("INBOX")[0]
        changed_file.write_bytes(changed_file.read_bytes() + b"a note, token77.\r\n")
        strange = changed_file.parent / f"9.9.{maildir_words.tag_of('INBOX')}:2,FS"
        strange.write_bytes(self.bench.text())
        self.world.server["INBOX"].pop(1)
        self.world.play(self.chance)
        self.bench.sync("write", is_played=True)
        self.assertEqual(self.bench.said.count("its message stays here alone"), 2)
        self.assertEqual(sorted(path.name[0] for path in self.bench.files("INBOX")), ["7", "c", "c"])

    def test_a_second_file_of_a_message_in_its_folder(self) -> None:
        """It is told to be alone, whatever text it has by now, and nothing is written over it."""
        first = self.bench.files("INBOX")[0]
        for text in (first.read_bytes(), b"Subject: my own\r\n\r\ntoken88.\r\n"):
            second = first.parent / (first.name.partition(":2,")[0] + ":2,FRS")
            second.write_bytes(text)
            self.world.server["INBOX"][1].letters = "FRS"
            self.world.play(self.chance)
            self.bench.sync("write", is_played=True)
            self.assertIn("INBOX has a second file of INBOX 1: its message stays here alone", self.bench.said)
            self.world.server["INBOX"][1].letters = "S"
            self.bench.whole()
            self.bench.whole()
            self.agrees()
            alone = [path for path in self.bench.files("INBOX") if path.name.startswith("c")]
            self.assertEqual([path.read_bytes() for path in alone], [text])
            alone[0].unlink()
        self.assertEqual(self.world.asked, [])

    def test_a_file_in_the_place_of_what_is_put_back(self) -> None:
        """A reader has put a copy there under the name of before: it stays alone, and what is new comes all the same."""
        first = self.bench.files("INBOX")[0]
        text = first.read_bytes()
        self.bench.move(first, "Sent Items", True)
        self.bench.sync("wishes")
        first.write_bytes(text)
        self.world.asked[0].stands = "nothing refused-no"
        self.world.put("INBOX", Message(self.bench.text(), ""))
        self.world.play(self.chance)
        self.world.fetch()
        self.bench.sync("write", is_played=True)
        self.assertIn("INBOX has a second file of INBOX 1: its message stays here alone", self.bench.said)
        self.bench.whole(trash="Old/2024")
        self.agrees()
        self.assertEqual([asked.verb for asked in self.world.asked], ["move"])

    def test_a_folder_in_the_place_of_a_file(self) -> None:
        """Its message keeps the flags of before there, and what is new comes all the same."""
        name = f"7.2.{maildir_words.tag_of('INBOX')}:2,F"
        os.mkdir(os.path.join(maildir_words.folder_of(self.bench.root, "INBOX"), "cur", name))
        self.world.server["INBOX"][2].letters = "F"
        self.world.put("INBOX", Message(self.bench.text(), ""))
        self.bench.whole()
        names = os.listdir(os.path.join(maildir_words.folder_of(self.bench.root, "INBOX"), "new"))
        self.assertEqual(sorted(each[:4] for each in names), ["7.2.", "7.3."])

    def test_what_is_left_alone_has_names_of_its_own(self) -> None:
        """Also where the clock stands still, or is set back."""
        now, maildir.time.time_ns = maildir.time.time_ns, lambda: 5
        try:
            for flag in ("flagged", "answered"):
                for _ in range(2):
                    self.bench.put("Sent Items", self.bench.text())
                self.bench.sync("wishes")
                # The journal is begun anew.
                self.world.asked = []
                self.world.ask("flag", "INBOX", "1", "+", flag)
                self.bench.sync("write", is_played=True)
        finally:
            maildir.time.time_ns = now
        self.assertEqual([path.name[0] for path in self.bench.files("Sent Items")], ["c"] * 4)

    def test_a_flag_of_what_is_put_back(self) -> None:
        """It was set while the play was under way which refused the move: it is a wish."""
        self.bench.move(self.bench.files("INBOX")[0], "Sent Items", True)
        self.bench.sync("wishes")
        self.world.asked[0].stands = "nothing refused-no"
        self.bench.flag(self.bench.files("Sent Items")[0], "FS")
        self.world.play(self.chance)
        self.bench.sync("write", is_played=True)
        self.bench.whole()
        self.agrees()
        self.assertEqual([(asked.verb, asked.letters) for asked in self.world.asked], [("move", ""), ("flag", "+F")])

    def test_a_reader_that_is_faster_than_what_is_put_back(self) -> None:
        """There is one file of the message behind it, and nothing further is asked."""
        self.bench.move(self.bench.files("INBOX")[0], "Sent Items", True)
        self.bench.sync("wishes")
        self.world.asked[0].stands = "nothing refused-no"
        rename, done = os.rename, []

        def rename_behind(old: str, new: str) -> None:
            if not done and "/d1." in old:
                done.append(old)
                self.bench.flag(pathlib.Path(old), "FS")
            rename(old, new)

        os.rename = rename_behind  # type: ignore[assignment]
        try:
            self.bench.sync("write", is_played=True)
        finally:
            os.rename = rename
        for _ in range(3):
            self.bench.whole()
            self.agrees()
        self.assertEqual([asked.verb for asked in self.world.asked], ["move", "flag"])

    def test_what_a_kill_left_half_written_goes(self) -> None:
        folder = pathlib.Path(maildir_words.folder_of(self.bench.root, "INBOX"), "tmp")
        for name in ("mowerbean.77", "1.P1.host"):
            (folder / name).write_bytes(b"half")
        self.bench.sync("write")
        self.assertEqual(os.listdir(folder), ["1.P1.host"])

    def test_a_reader_that_moves_on_as_a_message_id_is_put_in(self) -> None:
        """The letter goes with its file, and isn't put back where that was."""
        self.bench.put("Sent Items", self.bench.text(with_id=False), "S")
        unlink = os.unlink

        def move_and_unlink(name: str) -> None:
            os.unlink = unlink
            self.bench.move(pathlib.Path(name), "Old/2024", True)
            unlink(name)

        os.unlink = move_and_unlink  # type: ignore[assignment]
        self.bench.sync("wishes")
        self.bench.whole()
        self.bench.whole()
        self.agrees()
        self.assertEqual([(asked.verb, asked.target) for asked in self.world.asked], [("append", "Sent Items"), ("move", "Old/2024")])

    def test_a_kill_as_a_message_id_is_put_in(self) -> None:
        """The letter comes from the journal then, and isn't taken for a deleted one."""
        rename = os.rename

        def rename_or_die(old: str, new: str) -> None:
            if "/tmp/mowerbean." in old:
                raise Killed
            rename(old, new)

        for is_played in (False, True):
            self.bench.put("Sent Items", self.bench.text(with_id=False), "S")
            os.rename = rename_or_die  # type: ignore[assignment]
            try:
                with self.assertRaises(Killed):
                    self.bench.sync("wishes", "Old/2024")
            finally:
                os.rename = rename
            if is_played:
                self.world.play(self.chance)
            self.bench.whole(trash="Old/2024")
            self.agrees()
        self.assertEqual([asked.verb for asked in self.world.asked], ["append", "append"])

    def test_a_mailbox_made_anew_twice(self) -> None:
        """What is done to a file of the first one is done to no message of the last one, of which no text is here."""
        for is_fetched in (True, False):
            self.world.recreate("INBOX")
            self.world.play(self.chance)
            if is_fetched:
                self.world.fetch()
        self.bench.files("INBOX")[1].unlink()
        self.bench.sync("wishes", "Old/2024")
        self.assertEqual(self.world.asked, [])
        self.bench.whole(trash="Old/2024")
        self.agrees()

    def test_a_kill_before_what_is_left_alone(self) -> None:
        """A reader copies it elsewhere then: it is told to be alone there, and is no new letter."""
        self.bench.move(self.bench.files("INBOX")[0], "Sent Items", True)
        self.bench.sync("wishes")
        self.world.recreate("INBOX")
        self.world.play(self.chance)
        rename = os.rename

        def rename_or_die(old: str, new: str) -> None:
            if "/c" in new:
                raise Killed
            rename(old, new)

        os.rename = rename_or_die  # type: ignore[assignment]
        try:
            with self.assertRaises(Killed):
                self.bench.sync("write", is_played=True)
        finally:
            os.rename = rename
        self.bench.move(self.bench.files("Sent Items")[0], "Old/2024", False)
        self.bench.whole()
        self.agrees()
        self.assertEqual([asked.verb for asked in self.world.asked], ["move"])
