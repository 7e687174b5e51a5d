# One run at a time, the files beside the journal, and what init makes of a file that it finds.
# shellcheck shell=sh disable=SC2034,SC2154  # it shares its names with try-front, which reads this file

turns() {
    if ! command -v flock >/dev/null; then
        echo "skipped: flock isn't installed"
        return
    fi
    folder turns
    hold flag INBOX 1 + x
    "$stub" move INBOX 1 Archive >"$work/second" 2>&1 &
    second=$!
    sleep 1
    same 'a command waits for another one' "$(cat "$work/second")" ''
    ask list INBOX
    same "  and list doesn't, which only reads" "$status, $(echo "$said" | head -n 1)" '0, words [list] [INBOX]'
    release
    wait "$second"
    same '  and then it has its turn' "$?, $(head -n 1 "$work/second")" '0, words [move] [INBOX] [1] [Archive]'
    turns_beside_a_play
    hold flag INBOX 1 + x
    kill -KILL "$held"
    wait "$held" 2>/dev/null
    "$stub" flag INBOX 1 + x >"$work/second" 2>&1 &
    second=$!
    sleep 1
    same 'the lock stays with a program whose front was killed' "$(cat "$work/second")" ''
    rm "$work/stub/hold"
    wait "$second"
    same '  and then goes on' "$?" 0
    same 'the files are for their owner alone' "$(stat -c %a "$MAIL_DIR/mowerbean.lock" "$MAIL_DIR/mowerbean.play" | tr '\n' ' ')" '600 600 '
    locks_that_fail
}

turns_beside_a_play() {
    hold play
    ask -w 0 flag INBOX 1 + x
    same 'a play and -w 0' "$status, $said" '75, '
    has '  and why' "$notice" 'a play is under way'
    ask -w 1 move INBOX 1 Archive
    same '  and -w 1' "$status, $said" '75, '
    has '  which waits for a second' "$notice" '(waited 1 seconds)'
    ask play
    same '  and a play' "$status, $said" '75, '
    has '  which waits for none' "$notice" 'a play is under way in'
    for word in list queue report history letter; do
        ask "$word"
        same "  and $word works beside it" "$status" 0
    done
    "$stub" append Archive >"$work/second" 2>&1 &
    second=$!
    sleep 1
    same '  and append waits' "$(cat "$work/second")" ''
    release
    wait "$second"
    same '    and then it has its turn' "$?, $(head -n 1 "$work/second")" '0, words [append] [Archive]'
    # A clock that goes back with each look at it lengthens no wait.
    echo 1000000000 >"$work/clock"
    # shellcheck disable=SC2016  # the script's own words
    printf '#!/bin/sh\nread -r now <"%s"\necho $((now - 100)) | tee "%s"\n' "$work/clock" "$work/clock" >"$work/fakes/date"
    chmod +x "$work/fakes/date"
    hold flag INBOX 1 + x
    PATH=$work/fakes:$PATH timeout 300 "$stub" -w 2 flag INBOX 1 + x >/dev/null 2>&1
    same 'a clock that goes back' $? 75
    rm "$work/fakes/date"
    release
}

locks_that_fail() {
    printf '#!/bin/sh\necho "flock: 9: No locks available" >&2\nexit 71\n' >"$work/fakes/flock"
    chmod +x "$work/fakes/flock"
    PATH=$work/fakes:$PATH ask flag INBOX 1 + x
    same 'a lock that can not be had' "$status, $said" '75, '
    has '  and why' "$notice" 'no lock can be had'
    same '  in one line' "$(echo "$notice" | wc -l | tr -d ' ')" 1
    rm "$work/fakes/flock"
}

# The files beside the journal: what they aren't, and what a full disk leaves.
files() {
    for name in play lock boxes sent line 'then'; do
        folder "planted-$name"
        echo precious >"$work/precious"
        ln -s "$work/precious" "$MAIL_DIR/mowerbean.$name"
        ask play
        same "mowerbean.$name as a link" "$status, $said, $(cat "$work/precious")" '78, , precious'
        rm "$MAIL_DIR/mowerbean.$name"
        mkfifo "$MAIL_DIR/mowerbean.$name"
        timeout 120 "$stub" play >"$work/notice" 2>&1 </dev/null
        same "mowerbean.$name as a FIFO" "$?, $(grep -c 'is no plain file' "$work/notice")" '78, 1'
    done
    folder open
    chmod 770 "$MAIL_DIR"
    ask play
    has 'a folder that others may write' "$notice" 'others may write in'
    folder nothing
    rm "$MAIL_DIR/journal.0"
    for word in list queue report play 'flag INBOX 1 + x'; do
        # shellcheck disable=SC2086  # words
        ask $word
    done
    same 'a folder without a journal stays empty' "$(ls -A "$MAIL_DIR")" ''
    full_disk
    over_the_names
}

full_disk() {
    folder full
    said=$( (ulimit -f 0 && exec "$stub" play) 2>/dev/null </dev/null)
    same 'a full disk' "$said, $?, $(runs)" 'error disk, 3, 0'
    mkdir "$MAIL_DIR/mowerbean.play.new"
    ask play
    same "a mark that can't be written" "$said, $status, $(runs)" 'error disk, 3, 0'
    has '  and why' "$notice" "mowerbean.play can't be written"
    rmdir "$MAIL_DIR/mowerbean.play.new"
    for mark in '' begun begu 'lost' 'lost soon' 'lost 99999999999999999999' 'lost 12 34' 'ended 1'; do
        printf '%s' "$mark" >"$MAIL_DIR/mowerbean.play"
        quick_sleep
        MAIL_PAUSE=7 PATH=$work/fakes:$PATH ask play
        same "the mark '$mark' counts as lost" "$status, $(slept)" '0, 7'
    done
    rm "$work/fakes/sleep" "$work/fakes/date"
    echo 'lost 0899999999' >"$MAIL_DIR/mowerbean.play"
    ask play
    same 'a time with a leading zero' "$status, $notice" "0, $(without_link)"
    same '  and the mark behind it' "$(cat "$MAIL_DIR/mowerbean.play"), $(cd "$MAIL_DIR" && echo *)" \
        'ended, journal.0 mowerbean.lock mowerbean.play'
}

# The program's own files, of which the front makes none.
over_the_names() {
    MAIL_DIR=$work/names
    "$real" init INBOX Archive >/dev/null
    said=$( (ulimit -f 0 && "$real" flag INBOX 1 + x) 2>/dev/null)
    same 'a limit of file size' "$said, $?" 'refused no-message, 10'
    said=$(printf 'Message-ID: <a@x>\n\nhello\n' | (ulimit -f 0 && "$real" append Archive) 2>/dev/null)
    same '  is a failing disk, and no signal' "$said, $?" 'error disk, 3'
}

# Files that init finds: nothing is written over what isn't its own.
foreign_files() {
    while IFS='|' read -r title bytes; do
        MAIL_DIR=$work/found
        rm -rf "$MAIL_DIR" && mkdir -m 700 "$MAIL_DIR"
        # shellcheck disable=SC2059  # bytes
        printf "$bytes" >"$MAIL_DIR/journal.0"
        said=$("$real" init INBOX Archive 2>"$work/notice")
        same "init over $title" "$said, $?" 'ready, 0'
    done <<'CASES'
an empty file|
a stop of its own|\000
a stop inside the magic word|\000ODM
a stop behind the magic word|\000ODMAILJ2\000\000\000\001
a stop of an earlier program behind its word|\000ODMAILJ1\000\000\000\001
zeros|\000\000\000\000\000\000\000\000\000\000\000\000\000\000\000\000
zeros behind a front of the word|\000ODMA\000\000\000\000\000
CASES
    while IFS='|' read -r title bytes; do
        for side in 0 1; do
            MAIL_DIR=$work/found
            rm -rf "$MAIL_DIR" && mkdir -m 700 "$MAIL_DIR"
            # shellcheck disable=SC2059  # bytes
            printf "$bytes" | tee "$work/kept" >"$MAIL_DIR/journal.$side"
            said=$("$real" init INBOX Archive 2>"$work/notice")
            same "init over $title as journal.$side" "$said, $?" 'error journal header, 9'
            same '  which stays as it is' "$(cmp "$work/kept" "$MAIL_DIR/journal.$side" && echo so)" so
        done
    done <<'CASES'
notes|my notes, of which there is no other copy\n
a short file with an open head|\001ODM
another word|\000ODMAILJ3
a word behind zeros|\000\000DMAILJ2
a damaged journal|XODMAILJ2\000\000\000\001\001
a damaged journal of an earlier program|XODMAILJ1\000\000\000\001\001
CASES
    damaged_journal
    two_files
}

damaged_journal() {
    MAIL_DIR=$work/damaged
    "$real" init INBOX Archive >/dev/null
    printf 'Message-ID: <a@x>\n\nhello\n' | "$real" append Archive >/dev/null
    cp "$MAIL_DIR/journal.0" "$work/kept"
    for byte in '\000' X; do
        # shellcheck disable=SC2059  # a byte
        printf "$byte" | dd of="$MAIL_DIR/journal.0" bs=1 conv=notrunc 2>/dev/null
        for word in queue 'init INBOX Archive'; do
            # shellcheck disable=SC2086  # words
            said=$("$real" $word 2>&1)
            same "$word, with a damaged first byte" "$?, $(echo "$said" | grep -c 'BACKUP has the way back')" '9, 1'
        done
    done
    # The way back, as BACKUP has it.
    printf '\001' | dd of="$MAIL_DIR/journal.0" bs=1 conv=notrunc 2>/dev/null
    same '  and the way back' "$(cmp "$work/kept" "$MAIL_DIR/journal.0" && "$real" queue)" '1 waiting append Archive <a@x>'
}

# One file counts, and the other one is closed: a stop left it that was telling the journal anew there. That is no damage.
two_files() {
    MAIL_DIR=$work/two
    "$real" init INBOX Archive >/dev/null
    printf 'Message-ID: <a@x>\n\nhello\n' | "$real" append Archive >/dev/null
    for closed in 1 0; do
        cp "$MAIL_DIR/journal.$((1 - closed))" "$MAIL_DIR/journal.$closed"
        # The generation behind that of the other one.
        # shellcheck disable=SC2059  # a byte
        printf "\\00$((3 - closed))" | dd of="$MAIL_DIR/journal.$closed" bs=1 seek=12 conv=notrunc 2>/dev/null
        for length in 1 9 14 all; do
            cp "$MAIL_DIR/journal.$closed" "$work/kept"
            printf '\000' | dd of="$MAIL_DIR/journal.$closed" bs=1 conv=notrunc 2>/dev/null
            [ "$length" = all ] || truncate -s "$length" "$MAIL_DIR/journal.$closed"
            said=$("$real" queue 2>&1)
            same "journal.$closed is closed, of length $length: queue" "$said, $?" '1 waiting append Archive <a@x>, 0'
            said=$("$real" init INBOX Archive 2>&1)
            same '  and init' "$said, $?" 'error journal exists, 9'
            cp "$work/kept" "$MAIL_DIR/journal.$closed"
        done
    done
    printf '\000' | tee "$work/closed" | dd of="$MAIL_DIR/journal.0" bs=1 conv=notrunc 2>/dev/null
    dd if="$work/closed" of="$MAIL_DIR/journal.1" bs=1 conv=notrunc 2>/dev/null
    said=$("$real" queue 2>&1)
    same 'both are closed' "$?, $(echo "$said" | grep -c 'BACKUP has the way back')" '9, 2'
}
