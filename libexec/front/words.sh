# The words of mowerbean: its help, and what a status means.
# shellcheck shell=sh disable=SC2034,SC2154  # it shares its settings with mowerbean, which reads this file

help_all() {
    cat <<'TEXT'
usage: mowerbean [-a ACCOUNT] [-q] COMMAND ..

A mail client for people behind a poor link. All commands but account, play, sync,
fetch and read work without a network.

  account [NAME]          asks for an account, tries its server, and writes its file
                            mowerbean account
  init BOX ..             sets up a journal for 1 to 32 mailboxes
                            mowerbean init INBOX Archive
  play [--retry-for TIME] plays what waits on the server, and fetches what is new
                            mowerbean play
  sync [--retry-for TIME] the Maildir's wishes, a play, and what is new into the Maildir
                            mowerbean sync
  list [--long] BOX       shows a mailbox: ID, mod-sequence and flags of each message;
                          or with date, sender and subject of each that was fetched
                            mowerbean list INBOX
  fetch BOX ID ..         gets the texts of messages, to be read without a network
                            mowerbean fetch INBOX new
  show BOX ID             shows a text that was fetched
                            mowerbean show INBOX 42
  read BOX ID             shows a text, and gets it first where it isn't here yet
                            mowerbean read INBOX 42
  dates BOX               prints the date of each message whose text is here
                            mowerbean dates INBOX
  flag BOX ID + FLAG ..   the message is to have the flags (with - to be without them)
                            mowerbean flag INBOX 42 + flagged
  move BOX ID BOX         the message is to go to the second mailbox
                            mowerbean move INBOX 42 Archive
  append BOX FLAG ..      the message on standard input is to be put into BOX
                            mowerbean append Archive seen < letter.eml
  queue                   shows the actions that wait
                            mowerbean queue
  report [--new] [--long] reports the actions that could not be done, and why
                            mowerbean report --new --long
  history                 shows all actions, with how each stands
                            mowerbean history
  letter N                prints the message of action N, an append
                            mowerbean letter 3 > letter.eml
  help COMMAND            prints more of one command
                            mowerbean help move
  --help, --version       prints this text, or the version (also -h, -V)

ID is a message's UID, or d and the number of the action that makes the message, as
list shows it. FLAG is seen, flagged, answered, draft, deleted, or a keyword.

  -a ACCOUNT   takes the account of ~/.config/mowerbean/ACCOUNT.conf alone. Without it
               default.conf is taken, where it is there
  -A           play, list, queue, report and history for all accounts, one after another
  -q           leaves out the line that explains a status on a terminal
  -w SECONDS   flag, move and append wait as long for a play under way (else 60)
  -v           play, sync, fetch and read print each command and its answer on standard error

Options stand before the command or after it; after -- there are none. Without -a the
variables MAIL_DIR, MAIL_SERVER, MAIL_USER, MAIL_PASSWORD, MAIL_PAUSE and MAIL_TIME decide
over the file. Status: 0 done, 1 done with conflicts, 2 wrong words, 4 no connection, 10
refused; man mowerbean has all statuses and all lines of the file.
TEXT
}

help_of() {
    case $1 in
        account) cat <<'TEXT' ;;
mowerbean account [NAME]

Asks for the server, the user, a command that prints the password, and the mailboxes. It
tries them on the server, where it changes nothing: log-in, what the server offers, and
whether each mailbox is there. Then it writes ~/.config/mowerbean/NAME.conf (without NAME
default.conf), for you alone. A file that is there stays as it is.

  mowerbean account             then: mowerbean init INBOX Archive
  mowerbean account work        then: mowerbean -a work init INBOX Archive
TEXT
        init) cat <<'TEXT' ;;
mowerbean init BOX ..

Sets up the journal for 1 to 32 mailboxes, no two of one name, and prints `ready`. The
folder is made where it isn't there, for its owner alone. Nothing is asked of the server.
A journal.0 or journal.1 that init didn't make is refused, and stays as it is.

  mowerbean init INBOX Archive
  mowerbean -a work init INBOX Archive 'Sent Items'
TEXT
        play) cat <<'TEXT' ;;
mowerbean play [--retry-for TIME] [--retry N] [--then COMMAND] [--trace FILE] [--moved]

Connects, plays the waiting actions back in their order, fetches what is new of each
mailbox, and prints `played N conflicts C`. Status 1 says that C isn't 0: report --long
prints why. Status 4 says that the connection was lost: play again. The next play waits
2 seconds (pause=) first: a server may still carry out a command of the lost connection.
A line on standard error says where there are conflicts that no report has shown.

  mowerbean play
  mowerbean play --retry-for 20m
                                plays again for 20 minutes, while the status is 4
  mowerbean play --retry 5      plays again up to 5 times
  mowerbean play --then 'mbsync mail'
                                runs this where something came, or a conflict did
  mowerbean -v play             prints each command, its answer and how far it is
  mowerbean play --trace FILE   logs what is said, without passwords and messages
  mowerbean play --moved        the journal's account has another server or user now

A TIME is a number with s, m or h. The pauses of --retry-for are 2, 4, 8 up to 60 seconds,
and 2 again after a play that got further. A wrong address or certificate ends both.

Ctrl-C lets the command under way end first, so that a message isn't cut off after its
last byte. A second one stops at once.
TEXT
        sync) cat <<'TEXT' ;;
mowerbean sync [--retry-for TIME] [--retry N] [--then COMMAND] [--trace FILE]

Keeps a Maildir in step, which mutt, aerc, notmuch and others read. It asks for what was done
there (flags, messages in another folder, new letters), plays, fetches the texts that are
new, and writes them into the Maildir. It prints a line for each action that it asks for, the
line of play, and one for each text. The account names the Maildir: maildir=~/Mail, with a
folder for each mailbox of the journal. With trash=BOX too, a message that is deleted there
is moved to that mailbox; without it the message comes back. With largest=BYTES (or with K
or M) a text of more bytes is left out, and named once; fetch and read get it. One sync runs
at a time. Where the connection is lost the next one goes on from there.

  mowerbean sync
  mowerbean -a work sync --retry-for 20m
TEXT
        list) cat <<'TEXT' ;;
mowerbean list [--long] BOX

Prints a line for each message of the mailbox: its ID, its mod-sequence and its flags, as
it will be after the waiting actions. A message that one of these makes is named d and
the action's number, and has - in place of a mod-sequence. It works beside a play.

  mowerbean list INBOX          prints `42 715 \seen`, say

With --long it is for reading: of each message whose text was fetched the date, the sender
and the subject, cut at the terminal's width; of the others the ID and the flags alone.
TEXT
        fetch) cat <<'TEXT' ;;
mowerbean fetch [--retry-for TIME] [--retry N] [--trace FILE] BOX ID ..
mowerbean fetch [--retry-for TIME] [--retry N] [--trace FILE] BOX new

Gets the texts of messages from the server and keeps them, so that show can show them
without a network. `new` is each message that list shows and that has no text here yet.
It prints `kept N` with the number of bytes; of several messages the ID stands before it.
What was kept before a connection is lost stays. Nothing is changed on the server: no
message becomes \seen.

  mowerbean fetch INBOX 42      prints `kept 1234`, say
  mowerbean fetch INBOX new
TEXT
        show) cat <<'TEXT' ;;
mowerbean show BOX ID

Shows the text of a message that was fetched: byte for byte, but on a terminal, where what
isn't a letter is shown as ?, and PAGER has it, if that is set. It works beside a play.

  mowerbean show INBOX 42
  mowerbean show INBOX 42 > message.eml
TEXT
        read) cat <<'TEXT' ;;
mowerbean read [--retry-for TIME] [--retry N] BOX ID

Shows the text of a message, as show does. Where it isn't here it is fetched first.

  mowerbean read INBOX 42
TEXT
        dates) cat <<'TEXT' ;;
mowerbean dates BOX

Prints of each message of the mailbox whose text was fetched the ID, and the seconds since
1970 that its one Date field says; or - where there is not one that can be read.

  mowerbean dates INBOX         prints `42 1057049557`, say
TEXT
        flag) cat <<'TEXT' ;;
mowerbean flag BOX ID + FLAG ..
mowerbean flag BOX ID - FLAG ..

Asks for 1 to 32 flags on (+) or off (-) a message that list shows. A FLAG is answered,
flagged, deleted, seen or draft, for the flags \Answered and so on; or a keyword.

  mowerbean flag INBOX 42 + seen work
  mowerbean flag Archive d1 - flagged
TEXT
        move) cat <<'TEXT' ;;
mowerbean move BOX ID BOX

Asks that a message that list shows goes from the first mailbox to the second one.

  mowerbean move INBOX 42 Archive
TEXT
        append) cat <<'TEXT' ;;
mowerbean append BOX FLAG ..

Asks that the message on standard input is put into the mailbox, with these flags. It has
to have exactly one Message-ID, no NUL, and at most 33,554,432 bytes.

  mowerbean append Archive seen < letter.eml
  mowerbean -w 600 append Archive < letter.eml    waits up to 600 seconds for a play
TEXT
        queue) cat <<'TEXT' ;;
mowerbean queue

Prints the actions that wait, in their order. `waiting` wasn't sent yet; `begun` may have
been sent, and the next play finds out what became of it. It works beside a play.

  mowerbean queue               prints `1 waiting move INBOX 42 Archive`, say
TEXT
        report) cat <<'TEXT' ;;
mowerbean report [--new] [--long]

Prints the actions that ended as conflicts, in their order: `N nothing KIND ..` where the
action had no effect, `N unsure KIND ..` where it had its one effect or none. With --new
those that no report has shown yet. With --long what was asked for stands under each, and
a sentence. It works beside a play.

  mowerbean report --new --long
TEXT
        history) cat <<'TEXT' ;;
mowerbean history

Prints all actions, in their order: the number, how the action stands, and what it asks
for. It stands as `waiting` or `begun`, as queue prints it; as `done`, of a move or an
append with the UIDVALIDITY and the UID that the message got; or as report prints it. It
works beside a play.

  mowerbean history             prints `1 done 9 7 move INBOX 42 Archive`, say
TEXT
        letter) cat <<'TEXT' ;;
mowerbean letter N

Prints the message of action N, an append, byte for byte as it was accepted: each line
ends with CR and LF. It works beside a play.

  mowerbean letter 3 > letter.eml
TEXT
        help) cat <<'TEXT' ;;
mowerbean help [COMMAND]

Prints all commands, or more of one.

  mowerbean help move           the same as: mowerbean move -h
TEXT
        *) stop_words "no such command: $1: see mowerbean --help" ;;
    esac
}

# What a status says, whether anything is lost, and what to do.
meaning() {
    case $1 in
        1) echo 'played to the end, but some actions could not be done. Nothing is lost: see mowerbean report --new --long' ;;
        2) echo "these words are no command. Nothing was done: see mowerbean --help" ;;
        3) echo 'the disk failed, or another run uses the journal. What was accepted before is kept: look at the disk, then at mowerbean queue' ;;
        4) echo 'no connection, or it was lost. What was accepted is kept: play again, and it goes on from there' ;;
        5) echo 'the server refused, as its line says. What was accepted is kept: a password, or a mailbox that is not there?' ;;
        6) echo "the server's answer was not as IMAP has it. What was accepted is kept: see TROUBLESHOOTING by the printed line" ;;
        7) echo 'the server or the mailbox lacks what is needed. What was accepted is kept: see SERVERS' ;;
        8) echo 'the mailbox was made anew on the server. Nothing was kept: play first, and then fetch again' ;;
        9) echo 'there is no journal here, or it cannot be used. Nothing was written: mowerbean init makes one, or see TROUBLESHOOTING' ;;
        10) echo 'refused, for the printed reason. Nothing was written, and what was accepted before is kept' ;;
        11) echo 'out of memory. What was accepted before is kept: try again' ;;
        12) echo 'the output could not be written, but the command is done: look at mowerbean queue before you repeat it' ;;
        13) echo 'standard input could not be read. Nothing was written: give the message again' ;;
        14) echo 'a limit is passed. What was accepted is kept: see LIMITS' ;;
        16) echo 'the kept texts in the folder bodies could not be read or written. What was kept before of other messages stays: look at the disk' ;;
        *) echo 'the run was stopped. What was accepted is kept: run it again' ;;
    esac
}

# A journal that lost its first byte has a way back, so that is said also where there is no terminal.
explain() {
    if [ "$1" -eq 9 ]; then
        report_damage
    fi
    case $1 in
        0 | "$NO_PROGRAM" | "$IN_USE" | "$BAD_ACCOUNT") return ;;
    esac
    if [ -n "$quiet$has_said" ] || [ ! -t 2 ]; then
        return
    fi
    if [ "$1" -eq 3 ] && [ -n "$folder" ] && [ ! -d "$folder" ]; then
        say "the folder $folder is not there: mowerbean init makes it. Nothing was done"
    elif [ "$1" -eq 4 ] && [ "$link_status" -eq 4 ]; then
        say "the account's server is wrong, or its certificate, as the line says. What was accepted is kept: look at tls=, starttls=, server= or cafile="
    elif [ "$1" -eq 4 ] && [ -n "$is_reading" ]; then
        say 'no connection, or it was lost. What was kept stays: fetch again, and it goes on from there'
    elif [ "$1" -eq 4 ] && [ -n "$asked" ]; then
        say 'ended after the command that was under way. What was accepted is kept: play again, and it goes on from there'
    else
        say "$(meaning "$1")"
    fi
}
