# Whose settings count: the line, the environment and the file; who may have written the file; and which account a journal knows.
# shellcheck shell=sh disable=SC2034,SC2154  # it shares its names with try-front, which reads this file

sources() {
    folder sources
    config "dir=$work/sources" 'server=mail' 'user=ann' 'password_command=echo own' 'pause=0'
    cp "$configs/work.conf" "$configs/default.conf"
    ask play
    same 'the default account' "$(echo "$said" | tail -n 1)" "$MAIL_DIR mail:143 ann own"
    MAIL_SERVER=other MAIL_USER=bob MAIL_PASSWORD=his ask play
    same 'the environment decides over it' "$(echo "$said" | tail -n 1)" "$MAIL_DIR other:143 bob his"
    while IFS='|' read -r given part; do
        rm -f "$work/stub/times"
        # shellcheck disable=SC2086  # settings
        said=$(env $given "$stub" play 2>"$work/notice" </dev/null)
        same "with $given" "$?, $said, $(runs)" '78, , 0'
        has '  and why' "$(cat "$work/notice")" "$part"
        # shellcheck disable=SC2086  # settings
        said=$(env $given "$stub" -a work play 2>/dev/null </dev/null | tail -n 1)
        same '  but with -a the account counts' "$said" "$MAIL_DIR mail:143 ann own"
        # shellcheck disable=SC2086  # settings
        env $given "$stub" list INBOX >/dev/null 2>&1
        same '  and list needs none of them' "$?" 0
    done <<'CASES'
MAIL_SERVER=other|user= and no MAIL_USER
MAIL_USER=bob|server= and no MAIL_SERVER
MAIL_PASSWORD=his|server= and no MAIL_SERVER
MAIL_SERVER=other MAIL_USER=bob|password_command= and no MAIL_PASSWORD
MAIL_SERVER=other MAIL_PASSWORD=his|user= and no MAIL_USER
CASES
    config "dir=$work/sources" 'server=mail' 'user=ann'
    MAIL_PASSWORD=his ask -a work play
    same "a password that doesn't count" "$(echo "$said" | tail -n 1)" "$MAIL_DIR mail:143 ann none"
    has '  is named' "$notice" 'MAIL_PASSWORD does not count with -a'
    rm "$configs/default.conf"
    MAIL_USER=bob ask play
    same 'without a file the environment counts' "$(echo "$said" | tail -n 1)" "$MAIL_DIR localhost:143 bob none"
    odd_values
}

odd_values() {
    while IFS='|' read -r line part; do
        config 'user=ann' "$line"
        ask -a work list INBOX
        same "$line" "$status, $said" '78, '
        has '  and why' "$notice" "line 2: $part"
    done <<'CASES'
tls="mail:993"|no quotes stand around a value
user='ann'|no quotes stand around a value
dir="~/mail"|no quotes stand around a value
tls=mail:993 # the new one|a comment has a line of its own
user=ann # me|a comment has a line of its own
CASES
    config "dir=$work/sources" "password_command=printf '%s' \"a b\" # this" 'user=a#b'
    ask -a work play
    same 'password_command is for sh' "$status, $(echo "$said" | tail -n 1)" "0, $MAIL_DIR localhost:143 a#b a b"
}

owners() {
    config "dir=$work/owners"
    mkdir -m 770 "$work/owners"
    ask -a work list INBOX
    same 'a folder of a journal that others may write' "$status, $notice" '0, '
    ask -a work flag INBOX 1 + x
    same '  is named by what writes' "$status, $notice" "0, mowerbean: others may write in $work/owners: chmod 700 it"
    chmod 700 "$work/owners"
    for mode in 620 602 622; do
        chmod "$mode" "$configs/work.conf"
        ask -a work list INBOX
        same "a file of mode $mode" "$status, $said" '78, '
        has '  and why' "$notice" "others may change $configs/work.conf"
    done
    chmod 600 "$configs/work.conf"
    for mode in 770 707 1777; do
        chmod "$mode" "$configs"
        ask -a work list INBOX
        same "its folder with mode $mode" "$status, $said" '78, '
        has '  and why' "$notice" "others may write in $configs"
    done
    chmod 755 "$configs"
    chmod 444 "$configs/work.conf"
    ask -a work list INBOX
    same 'a file that others may read' "$status, $notice" '0, '
    chmod 600 "$configs/work.conf"
    if [ "$(id -u)" -eq 0 ]; then
        chown 12345 "$configs/work.conf"
        ask -a work list INBOX
        same "another user's file" "$status, $said" '78, '
        has '  and why' "$notice" 'belongs to another user'
        chown 0 "$configs/work.conf"
        chown 12345 "$configs"
        ask -a work list INBOX
        same "another user's folder" "$status, $said" '78, '
        has '  and why' "$notice" 'belongs to another user'
        chown 0 "$configs"
    fi
    mkdir "$work/elsewhere"
    mv "$configs/work.conf" "$work/elsewhere/mine"
    ln -s "$work/elsewhere/mine" "$configs/work.conf"
    ask -a work list INBOX
    same 'a file behind a link' "$status, $notice" '0, '
    chmod 666 "$work/elsewhere/mine"
    ask -a work list INBOX
    same '  that others may change' "$status" 78
    rm "$configs/work.conf"
}

# A play whose journal grows, which the stub's doesn't.
play_that_learns() {
    mv "$work/stub/libexec/mowerbean/mowerbean" "$work/kept"
    # shellcheck disable=SC2016  # the script's own words
    printf '#!/bin/sh\n[ "$1" != play ] || { echo more >>"$MAIL_DIR/journal.0"; echo "$MAIL_SERVER $MAIL_USER"; }\n' \
        >"$work/stub/libexec/mowerbean/mowerbean"
    chmod +x "$work/stub/libexec/mowerbean/mowerbean"
    ask "$@"
    mv "$work/kept" "$work/stub/libexec/mowerbean/mowerbean"
}

known_servers() {
    folder known
    config "dir=$MAIL_DIR" 'server=typo' 'user=ann'
    ask -a work play
    same "a play that got nothing keeps no account" "$status, $(ls "$MAIL_DIR")" '0, journal.0
mowerbean.lock
mowerbean.play'
    config "dir=$MAIL_DIR" 'server=mail' 'user=ann'
    play_that_learns -a work play
    same 'one that learns something does' "$status, $(cat "$MAIL_DIR/mowerbean.server"), $(stat -c %a "$MAIL_DIR/mowerbean.server")" '0, ann@mail:143, 600'
    ask -a work play
    same '  and may be played again' "$status" 0
    while IFS='|' read -r server user; do
        config "dir=$MAIL_DIR" "server=$server" "user=$user" "password_command=touch '$work/asked'; echo own"
        rm -f "$work/stub/times"
        ask -a work play
        same "another account, $user at $server" "$status, $said, $(runs), $(ls "$work/asked" 2>/dev/null)" '78, , 0, '
        has '  and how to say that it moved' "$notice" "was played as ann@mail:143, and not as $user@$server:143. Nothing was played. If it is the same account at another place: mowerbean -a work play --moved"
        ask -a work list INBOX
        same '  but list is as ever' "$status" 0
    done <<'CASES'
other|ann
mail|bob
CASES
    play_that_learns -a work play --moved
    same 'it moved' "$status, $(cat "$MAIL_DIR/mowerbean.server")" '0, bob@mail:143'
    ask -a work play
    same '  once' "$status" 0
    MAIL_SERVER=third MAIL_USER=eve MAIL_PASSWORD=x ask play
    same "nor does another's letter come into a mailbox by the environment" "$status, $said" '78, '
    rm "$MAIL_DIR/mowerbean.server"
    ask -a work play
    same 'an account that is not kept' "$status, $(ls "$MAIL_DIR/mowerbean.server" 2>/dev/null)" '0, '
    echo journal >"$MAIL_DIR/journal.1"
    ask -a work play
    same '  is, where the journal was told anew and so was played' "$status, $(cat "$MAIL_DIR/mowerbean.server")" '0, bob@mail:143'
    mkdir "$MAIL_DIR/mowerbean.server.new"
    rm "$MAIL_DIR/mowerbean.server"
    rm -f "$work/stub/times"
    ask -a work play
    same "what can't be kept isn't played" "$status, $said, $(runs)" '3, error disk, 0'
    has '  and why' "$notice" "mowerbean.server can't be written"
}
