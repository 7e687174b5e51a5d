# play --then: what counts as news, over a program that prints what it is told to; and the command that hears of it.
# shellcheck shell=sh disable=SC2034,SC2154  # it shares its names with try-front, which reads this file

# A program whose `list` and `report` print files of the folder `now`. Its `play` puts those of `next` there.
put_lister() {
    mv "$work/stub/libexec/mowerbean/mowerbean" "$work/kept"
    cat >"$work/stub/libexec/mowerbean/mowerbean" <<'PROGRAM'
#!/bin/sh
work=$(dirname "$0")/../..
case $1 in
    list) cat "$work/now/$2" ;;
    report) cat "$work/now/report" ;;
    play)
        cp "$work/next"/* "$work/now"
        ends=0
        [ -s "$work/ends" ] && read -r ends <"$work/ends" && sed -i 1d "$work/ends"
        [ ! -e "$work/dies" ] || kill -KILL $PPID $$
        echo "played, $ends"
        exit "$ends"
        ;;
esac
PROGRAM
    chmod +x "$work/stub/libexec/mowerbean/mowerbean"
}

# Puts lists of INBOX and Archive and a report, with `;` between their lines, into the folder `now` or `next`.
put_lists() {
    into=$work/stub/$1
    mkdir -p "$into"
    for name in INBOX Archive report; do
        shift
        printf '%s' "${1:+$1;}" | tr ';' '\n' >"$into/$name"
    done
}

# What the command of --then prints: its variables.
# shellcheck disable=SC2016  # the command's own words
told='echo "$MOWERBEAN_ACCOUNT $MOWERBEAN_NEW $MOWERBEAN_CHANGED $MOWERBEAN_GONE $MOWERBEAN_CONFLICTS"'

news() {
    folder news
    printf 'INBOX\nArchive\n' >"$MAIL_DIR/mowerbean.boxes"
    config "dir=$MAIL_DIR"
    put_lister
    while IFS='|' read -r title inbox archive report inbox_then archive_then report_then counts; do
        put_lists now "$inbox" "$archive" "$report"
        put_lists next "$inbox_then" "$archive_then" "$report_then"
        ask -a work play --then "$told"
        same "$title" "$status, $said, $(echo "$notice" | grep '^work ')" "0, played, 0, ${counts:+work $counts}"
    done <<'CASES'
nothing came|40 700 \seen;42 715|||40 700 \seen;42 715|||
what was asked for is no news|40 700 \seen|d1 -||40 720 \seen|7 301||
a first play|||||1 2;2 3||2 0 0 0
a new message|40 700|||40 700;44 800 \seen|||1 0 0 0
a message of an action, and a new one|40 700|d1 -||40 700|7 301;8 302||1 0 0 0
a change of flags by another client|40 700;42 715 a|||40 800 \seen;42 900|||0 2 0 0
a message that another client took|40 700;42 715|||42 715|||0 0 1 0
a conflict|40 700|d1 -||40 700||1 nothing refused-no|0 0 0 1
a conflict and a new message|40 700|d2 -|1 nothing already-so|40 700|8 302|1 nothing already-so;2 nothing refused-no|1 0 0 1
an old conflict is no news|40 700||1 nothing already-so|40 700||1 nothing already-so|
CASES
    news_of_lost_plays
    news_that_cant_be_seen
    commands_that_fail
    mv "$work/kept" "$work/stub/libexec/mowerbean/mowerbean"
}

# What a play said, but for how many conflicts no report has shown.
notice_of_play() {
    printf '%s\n' "$notice" | grep -v ' not seen yet: '
}

news_of_lost_plays() {
    put_lists now 1 '' ''
    put_lists next '1;2' '' ''
    ends 4
    ask play --then "$told"
    same 'a lost play that brought something' "$status, $(echo "$notice" | tail -n 1)" '4,  1 0 0 0'
    put_lists now 1 '' ''
    ends 4 0
    MAIL_PAUSE=0 ask play --retry 1 --then "$told"
    same '  and one that is tried again: once' "$status, $(echo "$notice" | grep -c ' 1 0 0 0$')" '0, 1'
    put_lists next '1' '' ''
    put_lists now 1 '' ''
    ends 4 0
    MAIL_PAUSE=0 ask play --retry 1 --then "$told"
    same '  and one that is tried again, where nothing came' "$status, $(echo "$notice" | grep -c ' 0 0 0 0$')" '0, 0'
    # A play that is cut off before it could look.
    put_lists now 1 '' '1 nothing already-so'
    put_lists next '1;2' '' '1 nothing already-so;2 nothing refused-no'
    : >"$work/stub/dies"
    "$stub" play --then "$told" >"$work/notice" 2>&1 </dev/null
    wait_for_locks
    rm "$work/stub/dies"
    MAIL_PAUSE=0 ask play
    same '  and one that is cut off leaves it' "$status, $(notice_of_play)" "0, $(without_link)"
    ask play --then "$told"
    same '    to the next one with --then' "$status, $(notice_of_play | tail -n 1)" '0,  0 0 0 1'
    ask play --then "$told"
    same '    once' "$status, $(notice_of_play)" "0, $(without_link)"
}

# A program whose `report` fails once a play is over, and one that is stopped while it plays.
news_that_cant_be_seen() {
    put_lists now 1 '' ''
    put_lists next 1 '' ''
    mv "$MAIL_DIR/mowerbean.boxes" "$work/boxes"
    ask play --then "$told"
    same 'without the names of the mailboxes each play that ends may have brought something' "$(echo "$notice" | tail -n 1)" ' 0 0 0 0'
    ends 4
    MAIL_PAUSE=0 ask play --then "$told"
    same '  but one that is lost' "$status, $(echo "$notice" | grep -c ' 0 0 0 0$')" '4, 0'
    mv "$work/boxes" "$MAIL_DIR/mowerbean.boxes"
    cp "$work/stub/libexec/mowerbean/mowerbean" "$work/lister"
    # shellcheck disable=SC2016  # the script's own words
    sed -i 's|^    report) |&[ ! -e "$work/played" ] \|\| exit 11; |; s|^    play)$|&: >"$work/played"|' "$work/stub/libexec/mowerbean/mowerbean"
    MAIL_PAUSE=0 ask play --then "$told"
    same '  and so where the report can not be had after it' "$status, $(echo "$notice" | tail -n 1)" '0,  0 0 0 0'
    cp "$work/kept" "$work/stub/libexec/mowerbean/mowerbean"
    rm -f "$work/stub/env"
    hold play --then "$told"
    wait_for "$work/stub/env"
    kill -HUP "$held"
    wait "$held"
    same 'a play that is stopped at once' "$?, $(grep -c ' 0 0 0 0$' "$work/held"), $(cd "$MAIL_DIR" && echo mowerbean.the*)" '129, 0, mowerbean.then'
    wait_for_locks
    rm -f "$work/stub/hold" "$MAIL_DIR/mowerbean.then" "$MAIL_DIR/mowerbean.play" "$work/stub/played"
    mv "$work/lister" "$work/stub/libexec/mowerbean/mowerbean"
}

commands_that_fail() {
    put_lists now 1 '' ''
    put_lists next '1;2' '' ''
    ask play --then 'exit 3'
    same 'a command that fails' "$status, $said" '0, played, 0'
    has '  is named' "$notice" 'ended with status 3, and is run again'
    MAIL_PASSWORD=hidden-word ask play --then 'echo again; env'
    same '  and is run again' "$(echo "$notice" | grep -c '^again$')" 1
    same '  without the password' "$(echo "$notice" | grep -c hidden-word)" 0
    same '  and on standard error' "$said" 'played, 0'
    ask play --then "$told"
    same '  once' "$(notice_of_play)" "$(without_link)"
    same '  and nothing stays behind' "$(cd "$MAIL_DIR" && ls mowerbean.then 2>/dev/null)" ''
    ask play --then ''
    same '--then without a command' "$status, $said" '2, error words'
}
