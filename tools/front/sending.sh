# send-later, over a queue that stands here, over msmtp's and from mutt: neither half of a letter is lost where the other one fails.
# shellcheck shell=sh disable=SC2034,SC2154  # it shares its names with try-front, which reads this file

# Puts it beside the front over the program, with a queue that keeps its words and the letter and ends with the status in `queue_ends`.
put_sender() {
    mkdir -p "$work/real/share/mowerbean" "$work/queued"
    cp "$top/contrib/save-sent" "$top/contrib/send-later" "$top/contrib/spool.sh" "$work/real/share/mowerbean"
    cat >"$work/fakes/queue" <<QUEUE
#!/bin/sh
[ ! -e "$work/queue_ends" ] || exit "\$(cat "$work/queue_ends")"
printf '[%s]' "\$@" >"$work/queued/words"
cat >"$work/queued/letter"
[ ! -e "$work/queue_dies" ] || kill -KILL \$PPID
QUEUE
    chmod +x "$work/fakes/queue"
    spool=$HOME/.local/state/mowerbean/spool
    rm -rf "$spool"
}

# Sends this text on these words.
send() {
    text=$1
    shift
    rm -f "$work/queued"/*
    # shellcheck disable=SC2059  # the text's own line ends
    said=$(printf "$text" | "$work/real/share/mowerbean/send-later" -a work --queue "'$work/fakes/queue'" "$@" 2>"$work/notice")
    status=$?
    notice=$(cat "$work/notice")
}

# How often the action that was asked for last is an append of a Message-ID.
last_asked() {
    "$real" -a work queue | tail -n 1 | cut -d ' ' -f 3-
}

sending() {
    unset MAIL_DIR
    put_sender
    config "dir=$work/sending"
    "$real" -a work init INBOX Sent >/dev/null
    send 'Subject: x\n\nbody\n' -f ann@x -- 'bob@y' 'a b@y'
    same 'send-later' "$status, $said, $(spooled)" '0, accepted 1, * '
    same '  queues it with the words of sendmail' "$(cat "$work/queued/words")" '[-f][ann@x][--][bob@y][a b@y]'
    same '  and both have one Message-ID' "append Sent $(sed -n 's/^Message-ID: //p' "$work/queued/letter")" "$(last_asked)"
    send 'Message-ID: <own@x>\nBcc: eve@z\n\nbody' bob@y
    same '  its own, where it has one' "$(cat "$work/queued/letter"), $(last_asked)" 'Message-ID: <own@x>
Bcc: eve@z

body, append Sent <own@x>'
    halves
    from_others
}

halves() {
    echo 69 >"$work/queue_ends"
    send 'Message-ID: <down@x>\n\nbody\n' bob@y
    same 'a queue that fails' "$status, $said, $(spooled), $(last_asked)" '69, , unsent , append Sent <own@x>'
    has '  the letter is kept, and named' "$notice" "kept as $spool/"
    same '    as it is' "$(head -n 1 "$spool"/*.unsent)" 'Message-ID: <down@x>'
    rm "$work/queue_ends" "$spool"/*
    mv "$work/sending" "$work/moved"
    mkdir "$work/sending"
    send 'Message-ID: <early@x>\n\nbody\n' bob@y
    same 'a journal that is not there' "$status, $(cat "$work/queued/words"), $(spooled)" '0, [bob@y], letter words '
    has '  the letter need not be sent again' "$notice" "don't send it again"
    rm -r "$work/sending" && mv "$work/moved" "$work/sending"
    save '' --again
    same '  and goes into the mailbox later' "$status, $(spooled), $(last_asked)" '0, * , append Sent <early@x>'
    save '' --again
    same '  once' "$status, $said" '0, '
    send 'Message-ID: <a@x>\n\nbody\n' --box Nowhere bob@y
    same 'a mailbox that is none' "$status, $said, $(cat "$work/queued/words"), $(spooled)" '0, refused no-mailbox, [bob@y], refused words '
    rm "$spool"/*
    : >"$work/queue_dies"
    send 'Message-ID: <killed@x>\n\nbody\n' bob@y
    rm "$work/queue_dies"
    same 'a stop after it was queued' "$status, $(head -n 1 "$work/queued/letter"), $(spooled)" '137, Message-ID: <killed@x>, sending words '
    save '' --again
    same '  hands nothing in by itself' "$status, $said, $(spooled)" '0, , sending words '
    rm "$spool"/*
    send '' bob@y
    same 'an empty letter' "$status, $(ls "$work/queued"), $(spooled)" '13, , * '
}

from_others() {
    enqueue=/usr/libexec/msmtp/msmtpqueue/msmtp-enqueue.sh
    if [ -x "$enqueue" ]; then
        said=$(printf 'Message-ID: <q@x>\n\nbody\n' | "$work/real/share/mowerbean/send-later" -a work -f ann@x -- bob@y)
        same "msmtp's queue" "$?, $(cat "$HOME/.msmtpqueue"/*.msmtp), $(head -n 1 "$HOME/.msmtpqueue"/*.mail)" '0, -f ann@x -- bob@y, Message-ID: <q@x>'
        rm -r "$HOME/.msmtpqueue"
    else
        echo "skipped: msmtp isn't installed"
    fi
    # Mutt cuts its commands at each blank.
    if command -v mutt >/dev/null && [ "$work" = "${work%% *}" ]; then
        sed "s|@PREFIX@|$work/real|g" "$top/contrib/muttrc" >"$work/muttrc"
        same 'muttrc' "$(mutt -n -F "$work/muttrc" -Q pipe_split -Q pipe_decode 2>&1 | tr '\n' ' ')" 'pipe_split is set pipe_decode is unset '
        sed -n "s|^#\(set .*\)\"$|\1 -a work --queue $work/fakes/queue\"|p; s|^#\(set record.*\)|\1|p" "$work/muttrc" >"$work/sendrc"
        echo body | mutt -n -F "$work/sendrc" -s x bob@y >/dev/null 2>&1
        same 'from mutt' "$?, append Sent $(sed -n 's/^Message-ID: //p' "$work/queued/letter")" "0, $(last_asked)"
        has '  with its words' "$(cat "$work/queued/words")" '[bob@y]'
    else
        echo "skipped: mutt isn't installed, or $work has a blank"
    fi
}
