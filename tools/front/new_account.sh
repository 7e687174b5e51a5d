# `mowerbean account`, through link itself and at a small server.
# shellcheck shell=sh disable=SC2034,SC2154  # it shares its names with try-front, which reads this file

# Answers the questions of `mowerbean account` with these lines.
answers() {
    name=$1
    shift
    said=$(printf '%s\n' "$@" | "$real" account "$name" 2>"$work/notice")
    status=$?
    notice=$(cat "$work/notice")
    written=$(cat "$configs/$name.conf" 2>/dev/null)
}

new_accounts() {
    unset MAIL_DIR
    mv "$configs" "$work/other_configs"
    cp "$top"/libexec/link* "$work/real/libexec/mowerbean"
    mkfifo "$work/server_ends"
    "$top/tools/front/account-server" "$work/account_port" <"$work/server_ends" &
    exec 6>"$work/server_ends"
    wait_for "$work/account_port"
    server=127.0.0.1:$(cat "$work/account_port")
    accounts_that_are_right
    accounts_that_are_wrong
    accounts_without_a_server
    exec 6>&-
    rm -rf "$work/real/libexec/mowerbean"/link* "$configs"
    mv "$work/other_configs" "$configs"
}

accounts_that_are_right() {
    answers new "$server" '' ann "echo pw" INBOX 'Sent Items' ''
    same 'account' "$status, $said" "0, written $configs/new.conf"
    same '  writes the file' "$written" "# Written by mowerbean account. All lines that may stand here: man mowerbean
server=$server
user=ann
password_command=echo pw"
    same '  for its owner alone' "$(stat -c %a "$configs" "$configs/new.conf" | tr '\n' ' ')" '700 600 '
    has '  says what it found' "$notice" 'mowerbean: logged in as ann
mowerbean: mailbox INBOX: there
mowerbean: mailbox Sent Items: there
'
    has '  and what is next' "$notice" "mowerbean: next: mowerbean -a new init INBOX 'Sent Items'; mowerbean -a new play"
    said=$("$real" -a new init INBOX 2>&1)
    same '  and the account works' "$?, $said" '0, ready'
    answers new "$server" '' ann "echo pw" INBOX ''
    same 'an account that is there' "$status, $said, $(grep -c '^Server' "$work/notice")" '78, , 0'
    answers asked "server:x" "$server" tcp '' '' '"ann"' ann '' 'echo pw' 'a"b' INBOX ''
    same 'wrong answers are asked for again' "$status, $(echo "$notice" | grep -c 'mowerbean: ')" '0, 10'
    printf '%s\n' "$server" '' login 'echo pw' INBOX '' | "$real" account >/dev/null 2>&1
    same 'without a name it is the default account' "$?, $(sed -n 3p "$configs/default.conf")" '0, user=login'
}

accounts_that_are_wrong() {
    answers wrong "$server" '' ann 'echo other' INBOX '' no
    same 'a wrong password' "$status, $said, $written" '5, , '
    has '  and why' "$notice" 'the server refused the log-in: NO [AUTHENTICATIONFAILED] not so'
    same '  which is not shown' "$(echo "$notice" | grep -c 'other')" 0
    answers wrong "$server" '' old 'echo pw' INBOX '' no
    same 'a server that lacks QRESYNC' "$status, $said" '7, '
    has '  and why' "$notice" 'the server lacks QRESYNC'
    answers wrong "$server" '' ann 'echo pw' Plain '' no
    same 'a mailbox without mod-sequences' "$status, $said" '7, '
    has '  and why' "$notice" 'mailbox Plain: it keeps no mod-sequences'
    answers wrong "$server" '' ann false INBOX '' no
    same 'a command that fails' "$status, $said, $written" '78, , '
    answers wrong "$server" '' ann 'echo pw' INBOX Archive '' no
    same "a mailbox that isn't there" "$status, $said, $written" '5, , '
    has '  and which ones there are' "$notice" 'mowerbean: mailbox Archive: not there: NO [NONEXISTENT] no such mailbox
mowerbean: the server has INBOX, Plain, Sent Items'
    answers wrong "$server" '' ann 'echo pw' INBOX Archive '' yes
    same '  and it is written all the same' "$status, $(echo "$written" | sed -n 3p)" '0, user=ann'
    answers short "$server" '' ann 'echo pw' INBOX Archive '' n y
    same '  n is no' "$status, $said, $written" '5, , '
    answers short "$server" '' ann 'echo pw' INBOX Archive '' y
    same '  y is yes' "$status, $(echo "$written" | sed -n 3p)" '0, user=ann'
}

accounts_without_a_server() {
    answers offline 127.0.0.1:1 '' ann 'echo pw' '' no
    same 'no connection' "$status, $said, $written" '4, , '
    has '  and why' "$notice" 'no connection to 127.0.0.1:1'
    answers offline 127.0.0.1:1 '' ann
    same 'answers that end' "$status, $said, $written" '78, , '
    rm "$work/real/libexec/mowerbean/link"
    answers offline mail.example.org '' ann 'echo pw' '' yes
    same 'without link it is not tried' "$status, $(echo "$written" | sed -n 2p)" '0, tls=mail.example.org:993'
    has '  and the mailboxes are three' "$notice" 'next: mowerbean -a offline init INBOX Archive Sent; mowerbean -a offline play'
    answers starts mail.example.org starttls ann 'echo pw' '' yes
    same 'STARTTLS has its own port' "$(echo "$written" | sed -n 2p)" 'starttls=mail.example.org:143'
    answers none mail.example.org '' ann 'echo pw' '' no
    same '  and not written, where that is asked' "$status, $said, $written" '70, , '
    said=$( (ulimit -f 0 && printf '%s\n' mail '' ann 'echo pw' '' yes | "$real" account full) 2>/dev/null | cat)
    same 'a full disk leaves no file' "$said, $(ls "$configs/full.conf" 2>/dev/null)" ', '
    rm -rf "$configs" && ln -s /nowhere "$configs"
    answers offline mail '' ann 'echo pw' '' yes
    same "a folder that can't be made" "$status, $said" '78, '
    rm "$configs"
    answers ../x mail
    same 'a name that is a path' "$status, $said" '78, '
    said=$("$real" account a b 2>&1 </dev/null)
    same 'two names' "$?, $said" '2, error words
mowerbean: b is one word too many: mowerbean account [NAME]'
}
