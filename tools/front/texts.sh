# fetch, show, read, dates and list --long, over a program that keeps texts as the real one does.
# shellcheck shell=sh disable=SC2034,SC2154  # it shares its names with try-front, which reads this file

# A program with one mailbox, whose messages stand in the folder `server` and kept texts in the journal's folder. `fetch` ends with
# the first of the statuses in the file `ends`.
put_keeper() {
    mkdir -p "$work/stub/server"
    mv "$work/stub/libexec/mowerbean/mowerbean" "$work/kept"
    cat >"$work/stub/libexec/mowerbean/mowerbean" <<'PROGRAM'
#!/bin/sh
work=$(dirname "$0")/../..
kept=$MAIL_DIR/bodies/5.${3-}.$(printf '%s' "${2-}" | tr / %)
refuse() { echo "refused $1"; exit 10; }
case $1 in
    fetch | show | dates | list) [ "$2" = 'Sent/Old Items' ] || refuse no-mailbox ;;
esac
case $1 in
    list) printf '%s\n' '40 700 \seen \flagged' '42 715' '43 716 \seen' '44 717' 'd1 - \draft' ;;
    dates)
        [ ! -e "$work/broken" ] || { echo 'error shelf'; exit 16; }
        for id in 40 42 43 44; do
            [ ! -e "$MAIL_DIR/bodies/5.$id.Sent%Old Items" ] || echo "$id $(cat "$work/server/$id.date" 2>/dev/null || echo -)"
        done
        ;;
    show)
        [ -e "$kept" ] || refuse not-kept
        echo "$3" >>"$work/shows"
        cat "$kept"
        ;;
    fetch)
        echo "$2 $3" >>"$work/fetches"
        date +%s >>"$work/times"
        ends=0
        [ -s "$work/ends" ] && read -r ends <"$work/ends" && sed -i 1d "$work/ends"
        : >"$work/over"
        [ "$ends" -ne 4 ] || { echo 'error link'; exit 4; }
        [ "$ends" -eq 0 ] || exit "$ends"
        [ -e "$work/server/$3" ] || refuse gone
        mkdir -p "$MAIL_DIR/bodies"
        cp "$work/server/$3" "$kept"
        echo "kept $(wc -c <"$kept" | tr -d ' ')"
        ;;
    *) : >"$work/over" ;;
esac
PROGRAM
    chmod +x "$work/stub/libexec/mowerbean/mowerbean"
}

texts() {
    folder texts
    printf 'Sent/Old Items\n' >"$MAIL_DIR/mowerbean.boxes"
    config "dir=$MAIL_DIR" 'password_command=echo pw'
    put_keeper
    put_link
    printf 'From: ann@x\r\nSubject: one\r\n\r\nfirst\r\n' >"$work/stub/server/40"
    printf 'Subject: two\r\n\r\n\033[31m\000second\n' >"$work/stub/server/42"
    printf '1057049557\n' >"$work/stub/server/40.date"
    fetches
    shows
    reads
    long_lists
    wrong_texts
    rm -f "$work/stub/libexec/mowerbean/link"
    mv "$work/kept" "$work/stub/libexec/mowerbean/mowerbean"
}

fetches() {
    ask -a work fetch 'Sent/Old Items' 40
    same 'fetch' "$status, $said, $notice" '0, kept 36, '
    same '  through link, which is told that it only reads' "$(grep -c -- --reading "$work/stub/linked")" 1
    ask -a work fetch 'Sent/Old Items' 41 42
    same 'fetch of several, of which one is gone' "$status, $said" '10, 41 refused gone
42 kept 29'
    rm "$MAIL_DIR/bodies"/*
    : >"$work/stub/fetches"
    ends 0 4
    ask -a work fetch 'Sent/Old Items' 40 42 43
    same 'fetch whose connection is lost' "$status, $said" '4, 40 kept 36
42 error link'
    same '  keeps what came before' "$(ls "$MAIL_DIR/bodies")" '5.40.Sent%Old Items'
    rm "$work/stub/times"
    date +%s >"$work/stub/times"
    ends 0 4 0
    ask -a work fetch --retry 1 'Sent/Old Items' new
    same '  and the next one waits two seconds, and goes on with what is new' "$status, $(($(between) >= 2)), $said" '10, 1, 42 kept 29
43 error link
43 refused gone
44 refused gone'
    cp "$work/stub/server/42" "$work/stub/server/43"
    cp "$work/stub/server/42" "$work/stub/server/44"
    ask -a work fetch 'Sent/Old Items' new
    same '  and once more' "$status, $said" '0, 43 kept 29
44 kept 29'
    : >"$work/stub/fetches"
    ask -a work fetch 'Sent/Old Items' new
    same '  and asks for nothing where all is here' "$status, $said, $(cat "$work/stub/fetches")" '0, , '
    ends 16
    ask -a work fetch 'Sent/Old Items' 40 42
    same 'fetch whose folder fails ends at once' "$status, $said" '16, '
    "$stub" -a work fetch 'Sent/Old Items' 40 >/dev/full 2>/dev/null
    same 'fetch with a full output' $? 12
    printf 'ann@x:1\n' >"$MAIL_DIR/mowerbean.server"
    ask -a work fetch 'Sent/Old Items' 40
    same "fetch of another account's journal" "$status, $said" '78, '
    rm "$MAIL_DIR/mowerbean.server"
}

shows() {
    "$stub" -a work show 'Sent/Old Items' 42 >"$work/shown_text"
    same 'show is byte for byte' "$?, $(cmp "$work/shown_text" "$work/stub/server/42")" '0, '
    ask -a work show 'Sent/Old Items' 99
    same 'show of what is not kept' "$status, $said" '10, refused not-kept'
    ask -a work show Else 40
    same 'show of no mailbox' "$status, $said" '10, refused no-mailbox'
    if script -qec true /dev/null >/dev/null 2>&1 </dev/null; then
        said=$(PAGER='sed s/^/page:/' script -qec "'$stub' -a work show 'Sent/Old Items' 42" /dev/null </dev/null | tr -d '\r')
        same 'show on a terminal' "$said" 'page:Subject: two
page:
page:?[31m?second'
        said=$(PAGER='sed s/^/page:/' script -qec "'$stub' -q -a work show 'Sent/Old Items' 99" /dev/null </dev/null | tr -d '\r')
        same '  of what is not kept' "$said" 'refused not-kept'
    fi
}

reads() {
    rm "$MAIL_DIR/bodies/5.40.Sent%Old Items"
    : >"$work/stub/fetches"
    ask -a work read 'Sent/Old Items' 40
    same 'read fetches first' "$status, $(printf '%s' "$said" | tr -d '\r'), $notice" '0, From: ann@x
Subject: one

first, kept 36'
    ask -a work read 'Sent/Old Items' 40
    same '  once' "$status, $notice, $(cat "$work/stub/fetches")" '0, , Sent/Old Items 40'
    rm "$MAIL_DIR/bodies/5.40.Sent%Old Items"
    ends 4
    MAIL_PAUSE=0 ask -a work read 'Sent/Old Items' 40
    same '  and shows nothing where it cannot' "$status, $said, $notice" '4, , error link'
    ask -a work fetch 'Sent/Old Items' 40
}

long_lists() {
    printf 'Subject:  =?utf-8?q?caf=C3=A9?= =?utf-8?b?G1szMW0=?=\r\n\tand more\r\nFROM : "Ann" <ann@x>\r\nsubject: another\r\n\r\nFrom: body\r\n' \
        >"$MAIL_DIR/bodies/5.42.Sent%Old Items"
    printf '\0\n' >"$MAIL_DIR/bodies/4.43.Sent%Old Items"
    printf 'From: wrong\r\n\r\n' >"$MAIL_DIR/bodies/5.44.Sent"
    printf -- '-1\n' >"$work/stub/server/42.date"
    : >"$work/stub/shows"
    said=$(TZ=UTC "$stub" -a work list --long 'Sent/Old Items')
    shows=$(cat "$work/stub/shows")
    same 'list --long' "$?, $said" '0, 40  2003-07-01 08:52  ann@x  one  \seen \flagged
42  1969-12-31 23:59  "Ann" <ann@x>  café?[31m and more
43                      two  \seen
44                      two
d1  \draft'
    same '  asks the program for a text where two files may be meant, and reads the others' "$shows" 43
    mkdir -p "$work/without"
    for tool in awk cat chmod cp date dirname flock grep head id ls mkdir mktemp mv od printf ps readlink rm sed sh sleep stat stty tail tr wc; do
        ln -sf "$(command -v "$tool")" "$work/without/$tool"
    done
    said=$(PATH=$work/without "$stub" -a work list 'Sent/Old Items' --long)
    same '  without python3' "$?, $said" '0, 40  2003-07-01 08:52Z  ann@x  one  \seen \flagged
42  1969-12-31 23:59Z  "Ann" <ann@x>  =?utf-8?q?caf=C3=A9?= =?utf-8?b?G1szMW0=?= and more
43                       two  \seen
44                       two
d1  \draft'
    if script -qec true /dev/null >/dev/null 2>&1 </dev/null; then
        said=$(COLUMNS=40 script -qec "'$stub' -a work list --long 'Sent/Old Items'" /dev/null </dev/null | tr -d '\r' | head -n 1)
        same '  at a width of 40' "$said" "$(TZ='' date -d @1057049557 '+40  %Y-%m-%d %H:%M')  an  \\seen \\flagged"
    fi
    ask -a work list 'Sent/Old Items'
    same 'list as it was' "$status, $(printf '%s\n' "$said" | head -n 1)" '0, 40 700 \seen \flagged'
    ask -a work list --long Else
    same 'list --long of no mailbox' "$status, $said" '10, refused no-mailbox'
    : >"$work/stub/broken"
    ask -a work list --long 'Sent/Old Items'
    same 'list --long where the folder fails' "$status, $said" '16, error shelf'
    rm "$work/stub/broken"
    "$stub" -a work list --long 'Sent/Old Items' >/dev/full 2>/dev/null
    same 'list --long with a full output' $? 12
}

wrong_texts() {
    while IFS='|' read -r words part; do
        # shellcheck disable=SC2086  # words
        ask -a work $words
        same "wrong words: $words" "$status" 2
        has '  and which' "$notice" "$part"
    done <<'CASES'
read INBOX|ID is missing
read INBOX d1|the letter of action 1 is shown by mowerbean letter 1
read INBOX 0|0 is no UID
fetch --then x INBOX 1|--then and --moved are for play
CASES
}
