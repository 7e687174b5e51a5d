"""Plain models of what Mowerbean does, for the tools that make and check cases.

Each is written from the pages of `docs` and from the rules of the commands. None reads what the program printed, or its source.

    words.py      words of a command and of a scenario; flags, sets of UIDs, messages, and how IMAP spells them
    journal.py    events as bytes and back, and the book that they make
    bodies.py     what a body of a journal says, or the place of its first field that doesn't fit
    server.py     mailboxes, and the changes that a server may make
    world.py      the two files, the connection and the server, with what is to go wrong
    commands.py   what each command but `play` does with them
    playing.py    what `play` does, over a server in memory
    lawful.py     which event may come next in a journal, by its version
    rules.py      what `play` needs next, by the replies alone
    scenario.py   the lines of a scenario, and what each is to print

The rules of playback stand twice, in playing.py and in rules.py, and neither uses the other: the cases of `mail_scenario` come from the
first, the table of the player in `talk_cases` from the second, so a mistake in one model is caught by the other's cases. For the same reason the small
server of tools/servers/plain.py uses nothing of this package.
"""
