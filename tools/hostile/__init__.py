"""What tools/try-hostile is made of.

    spoiling.py   a connection of the plain server in which one line is spoiled, or one byte
    ways.py       the ways in which a line is spoiled
    sessions.py   journals and mailboxes as a session begins with them, and the program over them
    judging.py    what has to hold after a spoiled play, and what a server's lie excuses
    tables.py     the table of all ways at all steps, and the drawn plays
"""
