# The words that people type: options in any place, names of flags, the word that is wrong, and the mailboxes' names.
# shellcheck shell=sh disable=SC2034,SC2154  # it shares its names with try-front, which reads this file

# Puts a program that prints these lines for a word into the stub's place; `stub_back` ends that. It has no other words.
stub_prints() {
    mv "$work/stub/libexec/mowerbean/mowerbean" "$work/kept"
    {
        echo '#!/bin/sh'
        # shellcheck disable=SC2016  # the script's own words
        echo 'cat "${0%/*}/../../prints.$1" 2>/dev/null || { echo error words; echo see --help >&2; exit 2; }'
    } >"$work/stub/libexec/mowerbean/mowerbean"
    chmod +x "$work/stub/libexec/mowerbean/mowerbean"
}

stub_back() {
    mv "$work/kept" "$work/stub/libexec/mowerbean/mowerbean"
    rm -f "$work"/stub/prints.*
}

options() {
    unset MAIL_DIR
    mkdir -m 700 "$work/options"
    config "dir=$work/options" 'user=ann'
    while IFS='|' read -r words; do
        # shellcheck disable=SC2086  # words
        ask $words
        same "mowerbean $words" "$status, $said" "0, words [list] [INBOX]
$work/options none ann none"
    done <<'CASES'
-a work list INBOX
-awork list INBOX
-qawork list INBOX
-qa work list INBOX
-q -a work -- list INBOX
list -a work INBOX
list INBOX -a work
list INBOX -qawork
CASES
    ask flag INBOX 1 - x -awork -w5
    same 'a sign is no option' "$status, $(echo "$said" | head -n 1)" '0, words [flag] [INBOX] [1] [-] [x]'
    ask flag INBOX 1 + x -- -a --odd
    same 'after -- there are words alone' "$status, $(echo "$said" | head -n 1)" '0, words [flag] [INBOX] [1] [+] [x] [-a] [--odd]'
    while IFS='|' read -r words part; do
        # shellcheck disable=SC2086  # words
        ask $words
        same "mowerbean $words" "$status, $said" '2, error words'
        has '  and why' "$notice" "$part"
        same '  in one line' "$(echo "$notice" | wc -l | tr -d ' ')" 1
    done <<'CASES'
flag INBOX 1 + -x|there is no option -x
flag INBOX 1 + --odd|--odd is no option of flag
-x|there is no option -x
list INBOX -w|-w wants a number
list INBOX -a|-a wants the name
CASES
    ask
    same 'no word at all' "$status, $said, $(echo "$notice" | head -n 1 | cut -c 1-16)" '2, , usage: mowerbean'
    ask -q
    same '  nor with an option' "$status, $said" '2, '
    for words in -h --help help; do
        ask $words
        same "mowerbean $words" "$status, $(echo "$said" | head -n 1 | cut -c 1-16)" '0, usage: mowerbean'
    done
    for words in 'move -h' '-h move' 'move INBOX --help' 'help move'; do
        # shellcheck disable=SC2086  # words
        ask $words
        same "mowerbean $words" "$status, $(echo "$said" | head -n 1)" '0, mowerbean move BOX ID BOX'
    done
    ask -V
    same 'mowerbean -V' "$status, $(echo "$said" | head -n 1)" '0, words [--version]'
}

flag_names() {
    unset MAIL_DIR
    for name in seen flagged answered draft deleted; do
        ask flag INBOX 1 + x "$name" "\\$name"
        same "the name $name" "$(printf '%s\n' "$said" | head -n 1)" "words [flag] [INBOX] [1] [+] [x] [\\$name] [\\$name]"
    done
    ask append seen seen
    same '  of a flag alone' "$(printf '%s\n' "$said" | head -n 1)" 'words [append] [seen] [\seen]'
    for word in Seen SEEN Flagged answereD Draft DELETED; do
        rm -f "$work/stub/times"
        ask flag INBOX 1 + "$word"
        same "$word" "$status, $said, $(runs)" '2, error words, 0'
        has '  and what it may mean' "$notice" "the flag is '\\$word' with its quotes"
        ask append INBOX "$word"
        same "  and in append" "$status, $said, $(runs)" '2, error words, 0'
    done
    ask flag Seen 1 + x
    same 'a mailbox of such a name' "$status" 0
}

# Runs the front over the program on a line, as a shell reads it.
type_line() {
    eval "set -- $1"
    said=$("$real" "$@" 2>"$work/notice" </dev/null)
    status=$?
    notice=$(cat "$work/notice")
}

# The program says that the words are none, and the front which one it is.
wrong_words() {
    MAIL_DIR=$work/wrong
    export MAIL_DIR
    "$real" init INBOX Archive 'Sent Items' >/dev/null
    while IFS='|' read -r words part; do
        type_line "$words"
        same "mowerbean $words" "$status, $said, $(wc -l <"$work/notice" | tr -d ' ')" '2, error words, 1'
        has '  and why' "$notice" "$part"
    done <<'CASES'
flag Archive d1 +|FLAG is missing: mowerbean flag BOX ID + FLAG ..
flag Archive d1|SIGN is missing
flag Archive|ID is missing
flag|BOX is missing
flag Archive x + y|x is no ID
flag Archive 042 + y|042 is no ID
flag Archive 4294967296 + y|4294967296 is no ID
flag Archive 42 y|y is no SIGN
move INBOX 42|BOX is missing: mowerbean move BOX ID BOX
move INBOX 42 Sent Items|Items is one word too many
list|BOX is missing: mowerbean list [--long] BOX
list INBOX Archive|Archive is one word too many
list Entwürfe|it can have ASCII characters alone
list 'a"b'|none of " \ & * %
list "$(printf '%0129d' 0)"|more than 128 bytes
init|BOX is missing
init INBOX Archive inbox|INBOX is there twice
init INBOX Envoyés|it can have ASCII characters alone
queue all|all is one word too many
report all|all is no option of report: mowerbean report
play now|now is no word of play
play --retry|--retry is no word of play, or lacks its value
nonsense|no such command: nonsense: see mowerbean --help
append|BOX is missing
CASES
    named_boxes
    over_a_terminal
}

named_boxes() {
    while IFS='|' read -r words missing; do
        type_line "$words"
        same "$words names the mailboxes" "$status, $said, $notice" \
            "10, refused no-mailbox, mowerbean: $missing is none of the journal's mailboxes, which are INBOX, Archive, \"Sent Items\". Nothing was written"
    done <<'CASES'
list Sent|Sent
flag archive 1 + x|archive
move inbox 1 Sent|Sent
append Sent|Sent
CASES
    said=$("$real" list inbox 2>&1)
    same 'INBOX in any case' "$?, $said" '0, '
    said=$("$real" flag INBOX 1 + x 2>&1)
    same 'another reason names none' "$?, $said" '10, refused no-message'
}

# What was accepted is shown on a terminal.
over_a_terminal() {
    if ! script -qec true /dev/null >/dev/null 2>&1 </dev/null; then
        echo "skipped: script isn't installed"
        return
    fi
    printf 'Message-ID: <a@x>\n\nhello\n' | "$real" append 'Sent Items' >/dev/null
    said=$(script -qec "'$real' flag 'Sent Items' d1 + seen '\\Flagged' work" /dev/null </dev/null | tr -d '\r')
    same 'what was accepted, on a terminal' "$said" 'accepted 2
mowerbean: that is: flag "Sent Items" d1 + \seen \Flagged work'
    said=$(script -qec "'$real' -q move 'Sent Items' d1 Archive" /dev/null </dev/null | tr -d '\r')
    same '  and not with -q' "$said" 'accepted 3'
    said=$(script -qec "'$real' list Nowhere; '$real' nonsense" /dev/null </dev/null | tr -d '\r')
    same '  and a refusal has one line' "$(echo "$said" | grep -c '^mowerbean: ')" 2
}

# Names with spaces stand in quotes.
quoted_names() {
    folder quoted
    stub_prints
    printf '%s\n' inbox 'Sent Items' 'A' 'A 1' '2 B' B 'x + y' 'flag' >"$MAIL_DIR/mowerbean.boxes"
    while IFS='|' read -r line wanted; do
        echo "$line" >"$work/stub/prints.queue"
        ask queue
        same "queue: $line" "$status, $said" "0, $wanted"
        echo "$line" >"$work/stub/prints.history"
        ask history
        same '  and in the history' "$status, $said" "0, $wanted"
    done <<'CASES'
1 waiting move INBOX 42 Sent Items|1 waiting move INBOX 42 "Sent Items"
2 begun move Sent Items d1 INBOX|2 begun move "Sent Items" d1 INBOX
3 waiting flag Sent Items 7 + \seen x|3 waiting flag "Sent Items" 7 + \seen x
4 waiting append Sent Items <a@x>|4 waiting append "Sent Items" <a@x>
5 waiting move INBOX 42 A|5 waiting move INBOX 42 A
6 waiting move A 12 2 B|6 waiting move A 12 "2 B"
7 waiting move A 1 2 2 B|7 waiting move "A 1" 2 "2 B"
8 waiting flag x + y 1 + z|8 waiting flag "x + y" 1 + z
9 done 5 77 move INBOX 42 Sent Items|9 done 5 77 move INBOX 42 "Sent Items"
10 done flag flag 1 - x|10 done flag flag 1 - x
11 nothing flags-changed 715 flag Sent Items 42 + x|11 nothing flags-changed 715 flag "Sent Items" 42 + x
12 unsure ambiguous 7 8 append Sent Items <a@x>|12 unsure ambiguous 7 8 append "Sent Items" <a@x>
error disk|error disk
CASES
    # From A to "2 B", or from "A 1" to B.
    printf '%s\n' A 'A 1' '2 B' B >"$MAIL_DIR/mowerbean.boxes"
    echo '1 waiting move A 1 2 B' >"$work/stub/prints.queue"
    ask queue
    same 'what can be read in two ways stays as it is' "$said" '1 waiting move A 1 2 B'
    rm "$MAIL_DIR/mowerbean.boxes"
    echo '1 waiting move INBOX 42 Sent Items' >"$work/stub/prints.queue"
    ask queue
    same 'without the names' "$said" '1 waiting move INBOX 42 "Sent Items"'
    "$stub" queue >/dev/full 2>/dev/null
    same 'quotes, and a full output' $? 12
    "$stub" queue >&- 2>/dev/null
    same '  and none' $? 12
    printf '#!/bin/sh\necho error journal none\nexit 9\n' >"$work/stub/libexec/mowerbean/mowerbean"
    ask queue
    same "the program's own status" "$status, $said" '9, error journal none'
    stub_back
}
