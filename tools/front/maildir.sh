# The Maildir beside mowerbean, by its own tests; and sync, where no server answers.
# shellcheck shell=sh disable=SC2034,SC2154  # it shares its names with try-front, which reads this file

maildirs() {
    said=$(MAILDIR_ROUNDS=10 python3 "$top/contrib/test_maildir.py" 2>&1)
    same 'the tests of mowerbean-maildir' "$?, $(printf '%s\n' "$said" | tail -n 1)" '0, OK'
    config "dir=$work/synced" 'user=ann' 'password_command=echo pw' 'server=127.0.0.1:1' 'link=no' 'pause=0'
    said=$("$real" -a work sync 2>"$work/notice")
    same 'sync without maildir=' "$?, $said" '78, '
    config "dir=$work/synced" 'user=ann' 'password_command=echo pw' 'server=127.0.0.1:1' 'link=no' 'pause=0' "maildir=$work/Mail" 'trash=Trash'
    said=$("$real" -a work sync 2>"$work/notice")
    same 'sync without a journal' "$?, $said" '9, '
    cp "$top/contrib/maildir" "$work/real/bin/mowerbean-maildir"
    "$real" -a work init INBOX 'Sent Items' >/dev/null
    said=$("$real" -a work sync 2>"$work/notice")
    same 'sync whose trash is no mailbox' "$?, $said, $(cat "$work/notice")" \
        "78, , mowerbean: trash=Trash names none of the journal's mailboxes. Nothing was done"
    rm -r "$work/synced"
    "$real" -a work init INBOX 'Sent Items' Trash >/dev/null
    "$real" -a work -q sync >/dev/null 2>&1
    printf 'From: ann\nSubject: one\n\nhello\n' >"$work/Mail/Sent Items/cur/1.P2.host:2,S"
    said=$("$real" -a work -q sync 2>"$work/notice")
    same 'sync where no server answers' "$?, $said" '4, accepted 1 append "Sent Items" seen
error link'
    same '  has what was done in the Maildir accepted' "$("$real" -a work queue | sed 's/<.*/<>/')" '1 waiting append "Sent Items" <>'
    same '  and gives the file its name' "$(cd "$work/Mail/Sent Items/cur" && echo *)" "d1.$(printf 'Sent Items' | sha256sum | cut -c 1-8):2,S"
    same '  with a Message-ID' "$(grep -c '^Message-ID: <[0-9a-f]\{32\}@.*>' "$work/Mail/Sent Items/cur"/*)" 1
    said=$("$real" -a work -q sync 2>/dev/null)
    same '  once' "$said" 'error link'
    same '  and for all' "$("$real" -a work queue | wc -l | tr -d ' ')" 1
    same '  in folders for their owner alone' "$(stat -c %a "$work/Mail/INBOX" "$work/Mail/INBOX/cur" "$work/Mail/.mowerbean" | sort -u)" 700
    same '  and the journal and the Maildir have one word' "$(cat "$work/synced/mowerbean.maildir")" "$(cat "$work/Mail/.mowerbean/journal")"
    config "dir=$work/another_account" 'user=ben' 'server=127.0.0.1:1' 'link=no' 'pause=0' "maildir=$work/Mail"
    "$real" -a work init INBOX 'Sent Items' >/dev/null
    said=$("$real" -a work -q sync 2>&1)
    has "sync into another account's Maildir" "$said" "$work/Mail is the Maildir of another journal than that of $work/another_account. Nothing was done"
    same '  asks for nothing' "$("$real" -a work queue)" ''
    config "dir=$work/synced" 'user=ann' 'password_command=echo pw' 'server=127.0.0.1:1' 'link=no' 'pause=0' "maildir=$work/Mail" 'trash=Trash'
    exec 7>>"$work/synced/mowerbean.sync"
    flock 7
    said=$("$real" -a work sync 2>"$work/notice")
    same 'a second sync at once' "$?, $said" '75, '
    exec 7>&-
    said=$("$real" -a work sync INBOX 2>"$work/notice")
    same 'sync of a mailbox' "$?, $said" '2, error words'
    ended_syncs
    whole_syncs
}

# Whether the tool has its lock. To try that lock would keep it from the tool for a moment.
maildir_is_locked() {
    grep ":$(stat -c %i "$work/Mail/.mowerbean/lock") " /proc/locks
}

# Syncs that a terminal or a system ends while the tool of the Maildir is at work. Shells differ in what they do then.
ended_syncs() {
    mv "$work/Mail/.mowerbean/state.json" "$work/state.json"
    mkfifo "$work/Mail/.mowerbean/state.json"
    cp "$real" "$work/kept"
    for shell in dash 'bash --posix' 'busybox sh'; do
        path=$(command -v "${shell%% *}") || continue
        sed "1s|.*|#!$path${shell#"${shell%% *}"}|" "$work/kept" >"$real"
        while read -r signal code; do
            with_interrupts "$(command -v setsid)" "$real" -a work -q sync >"$work/held" 2>&1 </dev/null &
            held=$!
            soon maildir_is_locked
            kill "-$signal" "-$held"
            wait "$held" 2>/dev/null
            same "$signal ends a sync, with $shell" "$?, $(cat "$work/held")" "$code, "
            flock -w 60 "$work/Mail/.mowerbean/lock" true
            same '  and what it has started' "$?" 0
        done <<'CASES'
INT 130
TERM 143
CASES
    done
    cp "$work/kept" "$real"
    mv "$work/state.json" "$work/Mail/.mowerbean"
}

# Syncs over the program, at a small server.
whole_syncs() {
    mkfifo "$work/server_words"
    "$top/tools/front/mail-server" "$work/mail_port" <"$work/server_words" &
    exec 7>"$work/server_words"
    wait_for "$work/mail_port"
    read -r mail_port <"$work/mail_port"
    cp "$top"/libexec/link* "$work/real/libexec/mowerbean"
    rm -rf "$work/Mail"
    synced "$work/whole" 'largest=1K'
    "$real" -a work init INBOX Archive Trash >/dev/null
    large_texts
    wishes_back
    mailboxes_made_anew
    exec 7>&-
    wait
    rm -f "$work/real/libexec/mowerbean"/link*
    config "dir=$work/whole" "server=127.0.0.1:$mail_port" 'link=no' 'largest=1K' "maildir=$work/Mail"
    said=$("$real" -a work sync 2>&1)
    has 'largest= without link' "$?, $said" '78, mowerbean: largest= wants the helper link, but the account has link=no'
    for size in '' 0 x 1G 1k 9999999999; do
        config "dir=$work/whole" "largest=$size"
        said=$("$real" -a work queue 2>/dev/null)
        same "largest=$size" "$?, $said" '78, '
    done
}

# An account with a Maildir at the small server, and further lines.
synced() {
    dir=$1
    shift
    config "dir=$dir" 'user=ann' 'password_command=echo pw' "server=127.0.0.1:$mail_port" 'pause=0' "maildir=$work/Mail" 'trash=Trash' "$@"
}

# One sync: what it says, what it says on standard error, and its status.
sync_once() {
    said=$("$real" -a work -q sync 2>"$work/notice" </dev/null)
    status=$?
    notice=$(cat "$work/notice")
}

# How often texts were asked for so far.
texts_asked() {
    rm -f "$work/mail_port.asked"
    echo asked >&7
    wait_for "$work/mail_port.asked"
    cat "$work/mail_port.asked"
}

# The names of a folder's messages, without the sign of their mailbox.
messages() {
    (cd "$work/Mail/$1" && find cur new -type f) | sed 's/\.[0-9a-f]*\(:2,.*\)\{0,1\}$/\1/' | LC_ALL=C sort | tr '\n' ' '
}

large_texts() {
    sync_once
    same 'a sync leaves a large text out' "$status, $notice" '0, mowerbean: INBOX 41 is left out: its text has 2036 bytes, and largest= allows 1024'
    same '  and fetches the others' "$said" 'played 0 conflicts 0
INBOX 40 kept 56
INBOX 42 kept 66'
    same '  into the Maildir' "$(messages INBOX)" 'cur/5.42:2,S new/5.40 '
    same '  with a note' "$(stat -c %a "$work/whole/mowerbean.large"), $(cat "$work/whole/mowerbean.large")" '600, 5.41.INBOX 2036'
    sync_once
    same '  and asks once' "$status, $said, $notice, $(texts_asked)" '0, played 0 conflicts 0, , 3'
    said=$("$real" -a work fetch INBOX 41 2>&1)
    same '  and fetch by name gets it' "$?, $said" '0, kept 2036'
    sync_once
    same '  into the Maildir, too' "$status, $(messages INBOX)" '0, cur/5.41:2,S cur/5.42:2,S new/5.40 '
    rm "$work/whole/bodies/5.41.INBOX"
    synced "$work/whole" 'largest=2036'
    sync_once
    same 'a larger limit fetches it' "$status, $said, $notice" '0, played 0 conflicts 0
INBOX 41 kept 2036, '
    same '  and forgets the note' "$(cat "$work/whole/mowerbean.large")" ''
    mv "$work/whole/mowerbean.large" "$work/large"
    ln -s "$work/large" "$work/whole/mowerbean.large"
    sync_once
    same 'a note that is no plain file' "$status, $said" '78, '
    rm "$work/whole/mowerbean.large"
}

wishes_back() {
    tag=$(printf INBOX | sha256sum | cut -c 1-8)
    mv "$work/Mail/INBOX/new/5.40.$tag" "$work/Mail/Archive/cur/5.40.$tag:2,FS"
    rm "$work/Mail/INBOX/cur/5.42.$tag:2,S"
    sync_once
    same 'wishes of a Maildir' "$status, $notice, $said" '0, , accepted 1 move INBOX 40 Archive
accepted 2 flag Archive d1 + flagged seen
accepted 3 move INBOX 42 Trash
played 3 conflicts 0
Archive 7 kept 56
Trash 1 kept 66'
    same '  are done' "$("$real" -a work history | sed 's/ done [0-9 ]*/ /')" '1 move INBOX 40 Archive
2 flag Archive d1 + \flagged \seen
3 move INBOX 42 Trash'
    same '  and the Maildir has them so' "$(messages INBOX)- $(messages Archive)- $(messages Trash)" 'cur/5.41:2,S - cur/9.7:2,FS - cur/3.1:2,S '
}

mailboxes_made_anew() {
    printf '5.1.INBOX 2000\n9.1.Archive 3000\n' >"$work/whole/mowerbean.large"
    echo recreate >&7
    texts_asked >/dev/null
    synced "$work/whole" 'largest=1900'
    sync_once
    same 'a note of a mailbox that was made anew does not count' "$status, $notice" \
        '0, mowerbean: INBOX 1 is left out: its text has 2036 bytes, and largest= allows 1900'
    same '  nor one of another mailbox; and there is a new one' "$(cat "$work/whole/mowerbean.large")" '9.1.Archive 3000
6.1.INBOX 2036'
    # Under a UID from which a message was moved there is another one, once the mailbox was made anew.
    synced "$work/whole"
    sync_once
    mv "$work/Mail/INBOX/cur/6.1.$tag:2,S" "$work/Mail/Archive/cur/6.1.$tag:2,S"
    sync_once
    echo put >&7
    echo recreate >&7
    texts_asked >/dev/null
    sync_once
    same 'a message of a mailbox that was made anew, under a UID of before' "$status, $(messages INBOX)" '0, new/7.1 '
}
