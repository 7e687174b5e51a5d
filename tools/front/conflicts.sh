# The report: what each conflict was asked for, and which ones nobody has seen.
# shellcheck shell=sh disable=SC2034,SC2154  # it shares its names with try-front, which reads this file

# Three conflicts, of which the stub prints the report and the history.
three_conflicts() {
    printf '%s\n' INBOX 'Sent Items' >"$MAIL_DIR/mowerbean.boxes"
    printf '%s\n' '2 nothing message-gone' '5 nothing flags-changed 715' '9 unsure ambiguous 7 8' >"$work/stub/report"
    printf '%s\n' '1 done move INBOX 40 Archive' '2 nothing message-gone move INBOX 41 Sent Items' '3 done 9 7 append INBOX <c@x>' \
        '5 nothing flags-changed 715 flag Sent Items 42 + \seen' '9 unsure ambiguous 7 8 append INBOX <i@x>' \
        '10 waiting flag INBOX d9 + x' >"$work/stub/history"
}

no_conflicts() {
    rm -f "$work/stub/report" "$work/stub/history"
}

# The numbers of the lines.
numbers_of() {
    printf '%s\n' "$said" | sed -n 's/^\([0-9][0-9]*\) .*/\1/p' | tr '\n' ' '
}

conflicts() {
    folder conflicts
    three_conflicts
    ask report --long
    same 'report --long says what was asked for' "$(printf '%s\n' "$said" | sed -n '1,2p; 4,5p; 7,8p')" '2 nothing message-gone
    move INBOX 41 "Sent Items"
5 nothing flags-changed 715
    flag "Sent Items" 42 + \seen
9 unsure ambiguous 7 8
    append INBOX <i@x>'
    same '  over the sentence' "$(printf '%s\n' "$said" | sed -n '3p; 6p; 9p' | cut -c 1-27)" '    The message was not on 
    Another client changed 
    An earlier play was cut'
    rm "$work/stub/history"
    ask report --long
    same '  and without a history the sentences' "$(printf '%s\n' "$said" | wc -l | tr -d ' ')" 6
    no_conflicts
}

new_conflicts() {
    folder new
    three_conflicts
    ask play
    same 'a play that ends with conflicts' "$status" 0
    has '  says so on standard error' "$notice" 'mowerbean: 3 conflicts not seen yet: mowerbean report --new --long'
    if script -qec true /dev/null >/dev/null 2>&1 </dev/null; then
        ends 1
        said=$(script -qec "'$stub' play" /dev/null </dev/null | tr -d '\r')
        same '  once, on a terminal too' "$(echo "$said" | grep -c 'report --new --long')" 1
    fi
    ask report --new
    same 'report --new' "$(numbers_of), $status" '2 5 9 , 0'
    same '  is kept for its owner alone' "$(stat -c %a "$MAIL_DIR/mowerbean.shown") $(cat "$MAIL_DIR/mowerbean.shown")" '600 9'
    ask report --new
    same '  and once more' "$said, $status" ', 0'
    if script -qec true /dev/null >/dev/null 2>&1 </dev/null; then
        said=$(script -qec "'$stub' report --new --long" /dev/null </dev/null | tr -d '\r')
        same '  on a terminal it says where they are' "$said" 'mowerbean: each conflict was shown before: mowerbean report --long prints all'
        said=$(script -qec "'$stub' -q report --new" /dev/null </dev/null)
        same '  but with -q' "$said" ''
    fi
    ask play
    same '  a play says nothing then' "$(echo "$notice" | grep -c 'not seen')" 0
    echo '12 nothing refused-no' >>"$work/stub/report"
    ends 4
    ask play
    has 'a conflict of a play that lost its connection' "$notice" '1 conflict not seen yet'
    "$stub" report --new >/dev/full 2>/dev/null
    same 'what could not be printed' $? 12
    ask report --new --long
    same '  counts as not seen' "$(numbers_of)" '12 '
    ask report
    same 'a report shows all' "$(numbers_of)" '2 5 9 12 '
    rm "$MAIL_DIR/mowerbean.shown"
    ask report
    ask report --new
    same '  and counts as seen' "$said" ''
    odd_shown
    no_conflicts
}

# What isn't the number of a conflict of this journal counts as nothing shown.
odd_shown() {
    for kept in '' x 3 -1 09 99999999999 '9 nothing' '9 9'; do
        printf '%s\n' "$kept" >"$MAIL_DIR/mowerbean.shown"
        ask report --new
        same "mowerbean.shown: '$kept'" "$(numbers_of)" '2 5 9 12 '
    done
    for file in ln mkdir mkfifo; do
        rm -rf "$MAIL_DIR/mowerbean.shown"
        case $file in
            ln) echo 12 >"$work/precious" && ln -s "$work/precious" "$MAIL_DIR/mowerbean.shown" ;;
            *) "$file" "$MAIL_DIR/mowerbean.shown" ;;
        esac
        said=$(timeout 120 "$stub" report --new 2>/dev/null </dev/null)
        same "mowerbean.shown, by $file" "$(numbers_of), $(cat "$work/precious")" '2 5 9 12 , 12'
    done
    rm -rf "$MAIL_DIR/mowerbean.shown"
    said=$( (ulimit -f 0 && exec "$stub" report --new) 2>/dev/null </dev/null | cat)
    same 'where it can not be kept' "$(numbers_of), $(ls "$MAIL_DIR"/mowerbean.shown* 2>/dev/null)" '2 5 9 12 , '
    config "dir=$MAIL_DIR"
    ask -a work play
    has 'with an account' "$notice" '4 conflicts not seen yet: mowerbean -a work report --new --long'
}

# A new journal begins to count from 1 again.
after_init() {
    MAIL_DIR=$work/again
    export MAIL_DIR
    "$real" init INBOX >/dev/null
    echo 7 >"$MAIL_DIR/mowerbean.shown"
    echo 'ann@mail:143' >"$MAIL_DIR/mowerbean.server"
    said=$("$real" init INBOX 2>/dev/null)
    same 'init over a journal' "$said, $(cat "$MAIL_DIR/mowerbean.shown" "$MAIL_DIR/mowerbean.server" | tr '\n' ' ')" 'error journal exists, 7 ann@mail:143 '
    rm "$MAIL_DIR/journal.0" "$MAIL_DIR/journal.1"
    said=$("$real" init INBOX)
    same '  and in place of one' "$said, $(cd "$MAIL_DIR" && echo mowerbean.s*)" 'ready, mowerbean.s*'
}
