# history, letter N, and what `report --long` takes of the history, over a journal of the program's own form.
# shellcheck shell=sh disable=SC2034,SC2154  # it shares its names with try-front, which reads this file

# Makes a journal in which an action stands in each way, and one mailbox's name has a space.
looked_at() {
    MAIL_DIR=$work/each-state
    export MAIL_DIR
    mkdir -m 700 "$MAIL_DIR"
    printf '%s\n' INBOX 'Sent Items' >"$MAIL_DIR/mowerbean.boxes"
    : >"$MAIL_DIR/journal.1"
    python3 -B - "$top/tools" >"$MAIL_DIR/journal.0" <<'PYTHON'
import sys
sys.path.insert(0, sys.argv[1])
from model.journal import begin, body_of, journal, learn

boxes = {"INBOX": 5, "Sent Items": 9}
bodies = [begin(*boxes), *(learn(box, 1, validity, 700, 43, [], [(40, 700, []), (42, 700, [])]) for box, validity in boxes.items())]
letters = [b"Message-ID: <%s@x>\r\n\r\nhello\r\n" % name for name in (b"a", b"b", b"c")]
actions = [
    (("flag", ("real", "INBOX", 5, 42), "+", ["\\seen"]), ("store", "INBOX", 5, 42, 700), ("done",)),
    (("move", ("real", "INBOX", 5, 40), "Sent Items"), ("shift", "INBOX", 5, 40, "Sent Items"), ("done", 9, 77)),
    (("append", "Sent Items", [], letters[0]), ("put", "Sent Items", 9, 78), ("done", 9, 78)),
    (("flag", ("real", "Sent Items", 9, 42), "+", ["work"]), ("store", "Sent Items", 9, 42, 700), ("conflict", 3, [700])),
    (("move", ("real", "Sent Items", 9, 40), "INBOX"), None, ("conflict", 1, [])),
    (("append", "Sent Items", [], letters[1]), ("put", "Sent Items", 9, 79), ("conflict", 12, [79, 80])),
    (("move", ("dummy", 2), "INBOX"), ("shift", "Sent Items", 9, 77, "INBOX"), None),
    (("append", "INBOX", [], letters[2]), None, None),
]
bodies += [body_of(("accept", number, action)) for number, (action, _, _) in enumerate(actions, 1)]
for number, (_, intent, outcome) in enumerate(actions, 1):
    # A flag change ends as flags-changed (3) at its third try.
    for tries in (1, 2) if outcome and outcome[:2] == ("conflict", 3) else ():
        bodies += [body_of(("intend", number, intent)), body_of(("withdraw", number, tries))]
    bodies += [body_of(event) for event in (("intend", number, intent), ("settle", number, outcome)) if event[2]]
sys.stdout.buffer.write(journal(*bodies))
PYTHON
}

looks() {
    looked_at
    said=$("$real" history 2>"$work/notice" </dev/null)
    same 'history' "$?, $(cat "$work/notice"), $said" '0, , 1 done flag INBOX 42 + \seen
2 done 9 77 move INBOX 40 "Sent Items"
3 done 9 78 append "Sent Items" <a@x>
4 nothing flags-changed 700 flag "Sent Items" 42 + work
5 nothing message-gone move "Sent Items" 40 INBOX
6 unsure ambiguous 79 80 append "Sent Items" <b@x>
7 begun move "Sent Items" d2 INBOX
8 waiting append INBOX <c@x>'
    said=$("$real" report --long 2>"$work/notice" </dev/null)
    same 'what of it report --long shows' "$?, $(cat "$work/notice"), $(echo "$said" | sed -n '1,2p; 4,5p; 7,8p')" '0, , 4 nothing flags-changed 700
    flag "Sent Items" 42 + work
5 nothing message-gone
    move "Sent Items" 40 INBOX
6 unsure ambiguous 79 80
    append "Sent Items" <b@x>'
    printf 'Message-ID: <a@x>\r\n\r\nhello\r\n' >"$work/letter"
    "$real" letter 3 >"$work/said" 2>"$work/notice" </dev/null
    same 'letter' "$?, $(cat "$work/notice"), $(cmp "$work/said" "$work/letter" && echo same)" '0, , same'
    "$real" letter 3 >/dev/full 2>/dev/null
    same '  and a full output' $? 12
    while IFS='|' read -r words wanted part; do
        # shellcheck disable=SC2086  # words
        said=$("$real" $words 2>"$work/notice" </dev/null)
        same "mowerbean $words" "$?, $said" "$wanted"
        same '  and why' "$(cat "$work/notice")" "$part"
    done <<'CASES'
letter 9|10, refused no-action|
letter 2|10, refused no-letter|
letter|2, error words|mowerbean: N is missing: mowerbean letter N
letter d3|2, error words|mowerbean: d3 is no action's number: mowerbean letter N
letter 3 4|2, error words|mowerbean: 4 is one word too many: mowerbean letter N
history 3|2, error words|mowerbean: 3 is one word too many: mowerbean history
CASES
    same 'what only looks makes no file' "$(cd "$MAIL_DIR" && echo *)" 'journal.0 journal.1 mowerbean.boxes mowerbean.shown'
    completed_letters
    older_program
    unset MAIL_DIR
}

# The numbers that each shell offers are those of the letters.
completed_letters() {
    cat >"$work/letters.bash" <<'BASH'
. "$1/contrib/completion/mowerbean.bash"
COMP_WORDS=(mowerbean letter '') COMP_CWORD=2
_mowerbean
echo "${COMPREPLY[*]}"
BASH
    cat >"$work/letters.zsh" <<'ZSH'
_arguments() { state=words }
compadd() { print -r -- ${(P)2} }
words=(letter '') CURRENT=2
. "$1/contrib/completion/_mowerbean"
ZSH
    cat >"$work/letters.fish" <<'FISH'
source $argv[1]/contrib/completion/mowerbean.fish
echo (complete -C 'mowerbean letter ')
FISH
    for shell in bash zsh fish; do
        if ! command -v "$shell" >/dev/null; then
            echo "skipped: $shell isn't installed"
            continue
        fi
        said=$(cd "$work" && PATH=$work/real/bin:$PATH "$shell" "$work/letters.$shell" "$top" 2>&1)
        same "the letters that $shell offers" "$said" '3 6 8'
    done
}

# A program that has no history: the sentences alone.
older_program() {
    stub_prints
    echo '5 nothing message-gone' >"$work/stub/prints.report"
    ask report --long
    same 'report --long over an older program' "$status, $notice, $said" '0, , 5 nothing message-gone
    The message was not on the server any more. Nothing was done.'
    stub_back
}
