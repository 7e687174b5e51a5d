# The program and link themselves over a line that is held in a letter: one that is under way when a signal comes is there once.
# shellcheck shell=sh disable=SC2034,SC2154  # it shares its names with try-front, which reads this file

# Starts a server at the end of a line that can be held, and makes a journal for it.
line_begins() {
    MAIL_DIR=$work/line MAIL_USER=ann MAIL_PASSWORD=hidden-word MAIL_PAUSE=1
    export MAIL_DIR MAIL_USER MAIL_PASSWORD MAIL_PAUSE
    mkfifo "$work/line_ends"
    "$top/tools/front/held-line" "$work/line_port" <"$work/line_ends" &
    exec 6>"$work/line_ends"
    wait_for "$work/line_port"
    MAIL_SERVER=127.0.0.1:$(cat "$work/line_port")
    export MAIL_SERVER
    cp "$top"/libexec/link* "$work/real/libexec/mowerbean"
    # Within the minute for which its end is waited link must not end by itself, as no program came.
    sed -i 's/^PROGRAM_TIME = [0-9.]*/PROGRAM_TIME = 600.0/' "$work/real/libexec/mowerbean/link_words.py"
    "$real" init INBOX Archive >/dev/null
}

line_ends() {
    exec 6>&-
    unset MAIL_DIR MAIL_USER MAIL_PASSWORD MAIL_PAUSE MAIL_SERVER
    rm -f "$work/real/libexec/mowerbean"/link*
}

# Plays a letter of 200,000 bytes, and comes back once the line is held in the middle of it.
play_letter() {
    {
        printf 'Message-ID: <%s@x>\n\n' "$1"
        head -c 200000 /dev/zero | tr '\0' x | fold -w 70
    } | "$real" append Archive >/dev/null
    rm -f "$work/line_port.held"
    : >"$work/line_port.hold"
    with_interrupts "$real" -v play >"$work/held" 2>&1 </dev/null &
    held=$!
    wait_for "$work/line_port.held"
}

# What runs of this play: the front, the program and link, but zombies.
at_work() {
    ps -eo stat=,args= | awk -v place="$work/real/" '!/^Z/ && !/awk/ && index($0, place) { count++ } END { print count + 0 }'
}

nothing_plays() {
    [ "$(at_work)" -eq 0 ]
}

# Lets the line go, and plays again: what the play says but for how many actions it had, and how many letters the server has.
played_again() {
    rm "$work/line_port.hold"
    echo "$("$real" play | cut -d ' ' -f 3-), $("$real" list Archive | wc -l | tr -d ' ')"
}

held_lines() {
    line_begins
    said=$("$real" play --trace "$work/trace" 2>"$work/notice")
    same 'a play through link' "$said, $?" 'played 0 conflicts 0, 0'
    same '  whose trace is for its owner alone' "$(stat -c %a "$work/trace"), $(grep -c 'AUTHENTICATE' "$work/trace")" '600, 1'
    same '  and has no password' "$(grep -c "hidden-word\|$(printf '\0ann\0hidden-word' | base64)" "$work/trace")" 0
    play_letter asked
    kill -INT "$held"
    soon grep -q 'ending after the command under way' "$work/held"
    rm "$work/line_port.hold"
    wait "$held"
    same 'INT in a letter waits for its end' "$?, $(grep -c '^S: P1 OK' "$work/held"), $(at_work)" '4, 1, 0'
    same '  and there is one of it' "$("$real" play), $("$real" list Archive | wc -l | tr -d ' ')" 'played 0 conflicts 0, 1'
    play_letter killed
    kill -KILL "$held"
    wait "$held" 2>/dev/null
    soon nothing_plays
    same 'after KILL of the front nothing plays on' "$(grep -c '^S: P2 OK' "$work/held"), $(at_work)" '0, 0'
    same '  and after the next play the letter is there once' "$(played_again)" 'conflicts 0, 2'
    # A front that is killed between the start of link and its port.
    sed 's/^    link_pid=\$!$/    kill -KILL $$/' "$top/libexec/front/link.sh" >"$work/real/libexec/mowerbean/front/link.sh"
    (exec "$real" play) >/dev/null 2>&1
    cp "$top/libexec/front/link.sh" "$work/real/libexec/mowerbean/front/link.sh"
    soon nothing_plays
    same 'a front that is killed as link starts holds up nothing' "$(at_work), $("$real" play)" '0, played 0 conflicts 0'
    # The program ends before it connects.
    cp "$MAIL_DIR/journal.0" "$work/kept"
    printf 'X' | dd of="$MAIL_DIR/journal.0" bs=1 seek=3 conv=notrunc 2>/dev/null
    said=$(timeout 120 "$real" play 2>/dev/null)
    same 'link ends with a program that never connects' "$said, $?, $(at_work)" 'error journal header, 9, 0'
    cp "$work/kept" "$MAIL_DIR/journal.0"
    play_letter stopped
    kill -HUP "$held"
    wait "$held"
    same 'HUP in a letter stops at once' "$?, $(grep -c '^S: P3 OK' "$work/held"), $(at_work)" '129, 0, 0'
    same '  and after the next play the letter is there once' "$(played_again)" 'conflicts 0, 3'
    line_ends
}
