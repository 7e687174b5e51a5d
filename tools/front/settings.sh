# What the front makes of an account's lines and of the environment: addresses, numbers, folders, passwords.
# shellcheck shell=sh disable=SC2034,SC2154  # it shares its names with try-front, which reads this file

settings() {
    folder settings
    while IFS='|' read -r given taken; do
        MAIL_SERVER=$given ask play
        same "MAIL_SERVER=$given" "$status, $(echo "$said" | sed -n 's/^.*settings \(.*\) none none$/\1/p')" "0, $taken"
    done <<'CASES'
mail|mail:143
mail:0143|mail:143
10.0.0.1:1143|10.0.0.1:1143
[::1]|[::1]:143
[::1]:1143|[::1]:1143
CASES
    while IFS='|' read -r given part; do
        MAIL_SERVER=$given ask play
        same "MAIL_SERVER=$given is refused" "$status, $said" '78, '
        has '  and why' "$notice" "$part"
    done <<'CASES'
|it is empty
mail:0|port
mail:99999|port
mail:|port
mail:imap|port
mail:143:143|brackets
::1:1|brackets
:143|host
-x:143|host
[mail|host
mail:143 |a blank
imap://mail:143|imap://
CASES
    MAIL_SERVER=nowhere:0 ask list INBOX
    same '  but by play alone' "$status" 0
    account_lines
    numbers
    folders_named
}

account_lines() {
    while IFS='|' read -r title one two part; do
        config "$one" "$two" "dir=$MAIL_DIR"
        ask -a work play
        same "$title" "$status, $said" '78, '
        has '  and why' "$notice" "$part"
    done <<'CASES'
a server that is none|user=ann|server=mail:x|line 2: server=mail:x names no server
two servers|server=mail:143|tls=mail|line 2: there is server= already
two of one kind|tls=a|tls=b|line 2: there is tls= already
TLS without link|user=ann|tls=mail|tls= wants the helper link
STARTTLS without link|user=ann|starttls=mail|starttls= wants the helper link
TLS with link=no|link=no|tls=mail|link=no
a link that is none|user=ann|link=maybe|link is yes or no
a time that is none|user=ann|time=0|time is a number
a memory that is none|user=ann|memory=lots|memory is a number
a relative cafile|user=ann|cafile=ca.pem|cafile has to begin
a cafile that is not there|server=mail|cafile=/nowhere/ca.pem|is not there
CASES
    config 'server=mail' 'link=no' "dir=$MAIL_DIR" 'pause=0'
    ends 4 4 0
    ask -a work play --retry 2
    same 'without link' "$status, $(grep -c '^MAIL_LINK=' "$work/stub/env")" '0, 0'
    same '  the front says so once' "$(echo "$notice" | grep -c 'guarded by the pause alone')" 1
    ask -a work play --trace "$work/trace"
    same '  and --trace is refused' "$status, $said" '78, '
    ask -a work -v play
    same '  and -v' "$status, $said" '78, '
    config 'memory=64M' 'time=090' "dir=$MAIL_DIR"
    ask -a work play
    same 'memory= and time=' "$(cat "$work/stub/memory"), $(sed -n 's/^MAIL_TIME=//p' "$work/stub/env")" '65536, 90'
    MAIL_TIME=0100 ask play
    same '  and MAIL_TIME' "$(sed -n 's/^MAIL_TIME=//p' "$work/stub/env")" 100
    MAIL_TIME=soon ask play
    same '  which has to be a number' "$status, $said" '78, '
}

numbers() {
    config 'pause=08' "dir=$MAIL_DIR"
    ask -a work play
    same 'pause=08' "$status, $notice" "0, $(without_link)"
    MAIL_PAUSE=08 ask play
    same 'MAIL_PAUSE=08' "$status, $notice" "0, $(without_link)"
    ask play --retry 08
    same '--retry 08' "$status, $notice" "0, $(without_link)"
    ask -w 08 flag INBOX 1 + x
    same '-w 08' "$status, $notice" '0, '
    while IFS='|' read -r words; do
        # shellcheck disable=SC2086  # words
        ask $words
        same "$words" "$status, $said" '2, error words'
    done <<'CASES'
-w soon flag INBOX 1 + x
-w 86401 flag INBOX 1 + x
-w 1 play
-v list INBOX
play --retry 1000
CASES
}

# The one line of a play that has no link.
without_link() {
    echo "mowerbean: $work/stub/libexec/mowerbean/link is not there, so the program connects by itself: a letter that arrives late is guarded by the pause alone"
}

folders_named() {
    MAIL_DIR='' ask list INBOX
    same 'an empty MAIL_DIR' "$status, $said" '78, '
    has '  and why' "$notice" 'MAIL_DIR is empty'
    MAIL_DIR=$work/caf$(printf '\351') ask init INBOX
    same "a MAIL_DIR that isn't UTF-8" "$status, $said, $(ls -d "$work"/caf* 2>/dev/null)" '78, , '
}

passwords() {
    folder passwords
    odd=$(printf 'caf\351')
    MAIL_PASSWORD=$odd ask play
    same "a MAIL_PASSWORD that isn't UTF-8" "$status, $said" '78, '
    has '  and why' "$notice" 'not UTF-8'
    # shellcheck disable=SC1003
    config 'password_command=printf "caf\\351\\n"' "dir=$MAIL_DIR"
    ask -a work play
    same "a password_command's that isn't UTF-8" "$status, $said" '78, '
    # shellcheck disable=SC1003,SC2016  # the words as they stand
    for word in 'café' '€' '𝄞' 'a b~!"$`\'; do
        MAIL_PASSWORD=$word ask play
        same "the password $word" "$status, $(sed -n 's/^MAIL_PASSWORD=//p' "$work/stub/env")" "0, $word"
    done
    mkdir "$work/credentials"
    echo of-systemd >"$work/credentials/mail"
    # shellcheck disable=SC2016  # the command's own words
    config 'password_command=cat "$CREDENTIALS_DIRECTORY/mail" 2>/dev/null || echo by-hand' "dir=$MAIL_DIR"
    CREDENTIALS_DIRECTORY=$work/credentials ask -a work play
    same 'a credential of systemd' "$status, $(sed -n 's/^MAIL_PASSWORD=//p' "$work/stub/env")" '0, of-systemd'
    ask -a work play
    same '  and without it' "$status, $(sed -n 's/^MAIL_PASSWORD=//p' "$work/stub/env")" '0, by-hand'
    unseen_passwords
}

# Each program that the front runs leaves its environment, where the password may stand in that of mowerbean's program alone.
unseen_passwords() {
    mkdir "$work/seen"
    shown_by=$(command -v env)
    for tool in awk cat date dirname find flock grep head id mktemp mkfifo mv od python3 readlink rm sed sleep tr; do
        path=$(command -v "$tool") || continue
        # shellcheck disable=SC2016  # the script's own words
        printf '#!/bin/sh\n%s >"%s/$$.%s"\nexec %s "$@"\n' "$shown_by" "$work/seen" "$tool" "$path" >"$work/fakes/$tool"
        chmod +x "$work/fakes/$tool"
    done
    echo hidden-word >"$work/secret"
    config "password_command=cat '$work/secret'" "dir=$MAIL_DIR" 'pause=1'
    ends 4 0
    # The caller exports names that the script uses.
    for words in '-a work' ''; do
        given=MAIL_PASSWORD=hidden-word
        [ -z "$words" ] || given=MAIL_USER=ann
        # shellcheck disable=SC2086  # words or none
        said=$(env "$given" password=x told=x account_command=x MAIL_PAUSE=1 "PATH=$work/fakes:$PATH" "$stub" $words play --retry 1 2>&1)
        same "a password of ${words:-the environment}" "$?, $(sed -n 's/^MAIL_PASSWORD=//p' "$work/stub/env")" '0, hidden-word'
    done
    same '  is in the environment of no other program' "$(grep -l hidden-word "$work/seen"/* | sed 's/.*\.//' | sort -u | tr '\n' ' ')" ''
    same '    of the ones that were looked at' "$(($(find "$work/seen" -type f | wc -l) > 10))" 1
    rm -r "$work/fakes" && mkdir "$work/fakes"
}
