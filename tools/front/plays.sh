# A play with the stub of link: what link is given, its statuses, the signals, and what is waited for a letter without link.
# shellcheck shell=sh disable=SC2034,SC2154  # it shares its names with try-front, which reads this file

# Puts the stub of link into its place, and forgets what it was given.
put_link() {
    cp "$top/tools/front/stub-link" "$work/stub/libexec/mowerbean/link"
    rm -f "$work/stub/linked" "$work/stub/no_port"
}

take_link_away() {
    rm -f "$work/stub/libexec/mowerbean/link"
}

# The words that the last link was given, but for the number of the front.
linked() {
    sed -n 's/ --owner [0-9]*//; s/^--folder/&/p' "$work/stub/linked" | tail -n 1
}

link_ends() {
    printf '%s\n' "$@" >"$work/stub/link_ends"
}

with_link() {
    folder linked
    put_link
    ask play
    same 'a play with link' "$status, $said, $notice" "0, words [play]
$MAIL_DIR 127.0.0.1:4143 none none, "
    same '  of which the program knows' "$(grep -c '^MAIL_LINK=yes$' "$work/stub/env")" 1
    same '  and which knows the server' "$(linked)" "--folder $MAIL_DIR --server localhost:143"
    same '  and its owner' "$(grep -c -- '--owner [1-9][0-9]*' "$work/stub/linked")" 1
    echo ca >"$work/ca.pem"
    config "dir=$MAIL_DIR" 'tls=mail' "cafile=$work/ca.pem" 'time=90' 'password_command=echo hidden-word'
    ask -a work -v play --trace "$work/trace" --retry 1
    same 'TLS and all the rest' "$(linked)" "--folder $MAIL_DIR --tls mail:993 --cafile $work/ca.pem --time 90 --trace $work/trace --verbose --actions 0"
    same '  with the password for the program alone' "$(tail -n 1 "$work/stub/linked"), $(sed -n 's/^MAIL_PASSWORD=//p' "$work/stub/env")" \
        'no password, hidden-word'
    config "dir=$MAIL_DIR" 'starttls=mail:0144'
    ask -a work play -v
    same 'STARTTLS' "$(linked)" "--folder $MAIL_DIR --starttls mail:144 --verbose --actions 0"
    cp "$configs/work.conf" "$configs/default.conf"
    MAIL_SERVER=other ask play
    same '  and the environment decides over it' "$(linked)" "--folder $MAIL_DIR --server other:143"
    rm "$configs/default.conf"
    if script -qec true /dev/null >/dev/null 2>&1 </dev/null; then
        script -qec "'$stub' play" /dev/null </dev/null >/dev/null
        same 'a terminal' "$(linked)" "--folder $MAIL_DIR --server localhost:143 --progress --actions 0"
        script -qec "'$stub' -q play" /dev/null </dev/null >/dev/null
        same '  and -q' "$(linked)" "--folder $MAIL_DIR --server localhost:143"
    fi
    : >"$work/stub/no_port"
    rm -f "$work/stub/times"
    ask play
    same "a link that doesn't start" "$status, $said, $(runs)" '70, , 0'
    link_ends 2
    ask play
    same "  and one that can't use its words" "$status, $said, $notice, $(runs)" '78, , , 0'
    printf '#!/bin/sh\nexit 1\n' >"$work/fakes/python3"
    chmod +x "$work/fakes/python3"
    PATH=$work/fakes:$PATH ask play
    same 'a Python that is too old' "$status, $(echo "$notice" | grep -c 'python3 (3.9 or later)')" '0, 1'
    rm "$work/fakes/python3"
    take_link_away
}

second_looks() {
    folder looks
    put_link
    ends 4 0
    link_ends 5 0
    began=$(date +%s)
    MAIL_PAUSE=600 ask play
    same 'after a second look the play is done once more' "$status, $(runs)" '0, 2'
    same '  at once' "$(($(date +%s) - began < 300))" 1
    folder looks-for-ever
    ends 4 4 4 4 4 4 4
    link_ends 5 5 5 5 5 5 5
    MAIL_PAUSE=600 ask play
    same '  and at most three times in a row' "$status, $(runs)" '4, 4'
    folder no-such-host
    ends 4 4 4
    link_ends 4 4 4
    MAIL_PAUSE=0 ask play --retry 2
    same 'a wrong address ends --retry' "$status, $(runs)" '4, 1'
    folder lost-line
    ends 4 4 0
    link_ends 3 3 0
    MAIL_PAUSE=0 ask play --retry 2
    same "  and a lost line doesn't" "$status, $(runs)" '0, 3'
    take_link_away
}

# Waits for what was started by `hold`, and puts its status into $status, and into $gone whether the stub of the program ended before it.
ended() {
    wait "$held"
    status=$?
    read -r running <"$work/stub/running"
    if is_gone "$running"; then gone=gone; else gone=running; fi
    rm -f "$work/stub/hold"
}

signals() {
    for signal in INT TERM; do
        folder "first-$signal"
        put_link
        hold play
        kill "-$signal" "$held"
        ended
        same "a first $signal ends after the command" "$status, $(tail -n 1 "$work/stub/linked"), $gone" '4, USR1, gone'
        has '  and says so' "$(cat "$work/held")" 'ending after the command under way; once more stops at once'
        has '  and the next play waits' "$(cat "$MAIL_DIR/mowerbean.play")" lost
    done
    while read -r first second code; do
        folder "second-$first-$second"
        put_link
        hold_on play
        kill "-$first" "$held"
        # Two within half a second of the first one's answer are one.
        soon grep -q 'once more stops at once' "$work/held"
        sleep 1
        kill "-$second" "$held"
        ended
        same "a second signal, $second, stops at once" "$status, $(tail -n 1 "$work/stub/linked"), $gone" "$code, TERM, gone"
        has '  and the next play waits' "$(cat "$MAIL_DIR/mowerbean.play")" lost
    done <<'CASES'
INT INT 130
INT TERM 143
TERM HUP 129
CASES
    folder hang-up
    put_link
    hold play
    kill -HUP "$held"
    ended
    same 'HUP stops at once' "$status, $(tail -n 1 "$work/stub/linked"), $gone" '129, TERM, gone'
    folder twice-at-once
    put_link
    # A busy machine may let half a second go by between the two.
    sed -i 's/^ONE_SIGNAL=.*/ONE_SIGNAL=30000/' "$work/stub/libexec/mowerbean/front/play.sh"
    hold play
    kill -INT "$held"
    kill -INT "$held" 2>/dev/null
    ended
    cp "$top/libexec/front/play.sh" "$work/stub/libexec/mowerbean/front/play.sh"
    same 'two signals at one moment are one' "$status, $(tail -n 1 "$work/stub/linked")" '4, USR1'
    signals_of_a_terminal
    take_link_away
    signals_without_link
}

# A terminal sends its interrupt to all that runs there, and shells differ in what they keep it from.
signals_of_a_terminal() {
    cp "$stub" "$work/kept"
    for shell in dash 'bash --posix' 'busybox sh'; do
        path=$(command -v "${shell%% *}") || continue
        sed "1s|.*|#!$path${shell#"${shell%% *}"}|" "$work/kept" >"$stub"
        folder "terminal-${shell%% *}"
        put_link
        rm -f "$work/stub/running"
        : >"$work/stub/hold"
        with_interrupts "$(command -v setsid)" "$stub" play >"$work/held" 2>&1 </dev/null &
        held=$!
        wait_for "$work/stub/running"
        kill -INT "-$held"
        ended
        same "an interrupt of a terminal, with $shell" "$status, $(tail -n 1 "$work/stub/linked"), $gone" '4, USR1, gone'
    done
    cp "$work/kept" "$stub"
}

# As `hold`, over a link that doesn't end the session when it is asked to.
hold_on() {
    sed -i 's/(WORK . "hold").unlink.*/pass/' "$work/stub/libexec/mowerbean/link"
    hold "$@"
}

signals_without_link() {
    while read -r signal code; do
        folder "alone-$signal"
        hold play
        kill "-$signal" "$held"
        ended
        same "without link $signal stops at once" "$status, $gone" "$code, gone"
    done <<'CASES'
INT 130
TERM 143
HUP 129
CASES
    if command -v setpriv >/dev/null; then
        folder killed
        hold play
        kill -KILL "$held"
        read -r running <"$work/stub/running"
        soon is_gone "$running"
        ended
        same '  and the program ends with a front that is killed' "$gone" gone
    fi
    folder pausing
    echo "lost $(date +%s)" >"$MAIL_DIR/mowerbean.play"
    MAIL_PAUSE=777 with_interrupts "$stub" play >/dev/null 2>&1 </dev/null &
    held=$!
    soon pgrep -P "$held" -x sleep
    pause=$(pgrep -P "$held" -x sleep)
    kill -TERM "$held"
    wait "$held"
    status=$?
    soon is_gone "$pause"
    same 'a signal ends the pause' "$status, $([ -n "$pause" ] && is_gone "$pause" && echo gone), $(runs)" '143, gone, 0'
}

# What the program leaves in mowerbean.sent, where it connects by itself.
late_letters() {
    while IFS='|' read -r title line least most; do
        folder "late-$title"
        echo "$line" >"$MAIL_DIR/mowerbean.sent"
        date +%s | tee "$work/stub/times" | sed 's/^/lost /' >"$MAIL_DIR/mowerbean.play"
        MAIL_PAUSE=0 ask play
        same "mowerbean.sent: $line" "$status, $(($(between) >= least && $(between) < most)), $(cd "$MAIL_DIR" && echo *)" \
            '0, 1, journal.0 mowerbean.lock mowerbean.play'
    done <<'CASES'
whole|6000 whole|3|1000
held|6000000 held|0|1000
odd|whole|0|1000
CASES
}
