# The spool in which save-sent and send-later keep a message until mowerbean has accepted it, and what is done with it there.
# It is ~/.local/state/mowerbean/spool, or that folder of XDG_STATE_HOME. NAME.words has the account, the mailbox and the flags of:
#
#   NAME.letter    nothing was done, and `save-sent --again` tries it anew
#   NAME.refused   mowerbean refused it: mend it, and hand it in yourself
#   NAME.unsure    it may have been accepted: look for its Message-ID in `mowerbean queue` and on the server first
#   NAME.sending   send-later, or the command of its queue, was cut off: it may be in that queue, and it isn't in a mailbox
#   NAME.unsent    it is in no queue and no mailbox
#
# shellcheck shell=sh disable=SC2034,SC2154  # it shares its settings with the script that reads this file

DISK=3
NO_INPUT=13
NO_PROGRAM=70

say() {
    echo "${0##*/}: $1" >&2
}

find_mowerbean() {
    mowerbean=$(command -v "$beside/../../bin/mowerbean" || command -v "$beside/../mowerbean" || command -v mowerbean) || {
        say 'mowerbean is not there'
        exit "$NO_PROGRAM"
    }
}

# Makes the spool, for its owner alone.
make_spool() {
    state=${XDG_STATE_HOME:-${HOME:-}/.local/state}
    spool=$state/mowerbean/spool
    umask 077
    if ! { mkdir -p -- "$spool" && [ -w "$spool" ]; } 2>/dev/null; then
        say "the message can't be kept in $spool. Nothing was done"
        exit "$DISK"
    fi
}

# Whether the header of a message, which ends at the first empty line, has the field.
has_identifier() {
    LC_ALL=C tr -d '\r' <"$1" | LC_ALL=C sed '/^$/q' | LC_ALL=C grep -iq '^message-id[[:blank:]]*:'
}

random() {
    od -An -N8 -tx1 /dev/urandom | tr -d ' \n'
}

new_identifier() {
    echo "Message-ID: <$(date +%Y%m%d%H%M%S).$$.$(random)@$(uname -n | tr -cd 'A-Za-z0-9.-')>"
}

# A message without the line that an mbox has before it, which is no part of it.
without_mbox_line() {
    IFS= read -r first <"$1"
    case $first in
        'From '*) tail -n +2 -- "$1" ;;
        *) cat -- "$1" ;;
    esac
}

# Keeps standard input in the spool as $kept.NAME, for the first word, with a Message-ID where it has none. The other words are those
# of its append.
keep_message() {
    as=$1
    shift
    kept=$spool/$(date +%Y%m%d-%H%M%S)-$(random)
    if ! cat >"$kept.part"; then
        say "the message could not be read, or not be kept. Nothing was done, and what came of it is $kept.part"
        exit "$NO_INPUT"
    fi
    if [ ! -s "$kept.part" ]; then
        rm -f -- "$kept.part"
        say 'there is no message on standard input. Nothing was done'
        exit "$NO_INPUT"
    fi
    if ! printf '%s\n' "$account" "$@" >"$kept.words" || ! {
        has_identifier "$kept.part" || new_identifier
        without_mbox_line "$kept.part"
    } >"$kept.$as"; then
        rm -f -- "$kept.words" "$kept.$as"
        say "the disk failed. Nothing was done, and the message is $kept.part"
        exit "$DISK"
    fi
    rm -f -- "$kept.part"
}

# Hands $kept.unsure in, by the words in $kept.words, and names it by what came of it. A stop at any moment leaves it unsure.
hand_in() {
    set --
    {
        read -r account
        while IFS= read -r word; do
            set -- "$@" "$word"
        done
    } <"$kept.words"
    "$mowerbean" ${account:+-a "$account"} append "$@" <"$kept.unsure"
    status=$?
    case $status in
        0)
            rm -f -- "$kept.unsure" "$kept.words"
            return
            ;;
        2 | 10) as=refused ;;
        9 | 11 | 13 | 14 | 70 | 75 | 78) as=letter ;;
        *) as=unsure ;;
    esac
    if [ "$as" != unsure ]; then
        mv -f -- "$kept.unsure" "$kept.$as"
    fi
    say "the message is kept as $kept.$as"
}
