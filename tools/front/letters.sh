# What stands beside mowerbean: save-sent with its spool, and the completion of words in bash.
# shellcheck shell=sh disable=SC2034,SC2154  # it shares its names with try-front, which reads this file

# Hands this text to save-sent, as it is installed, on these words.
save() {
    text=$1
    shift
    # shellcheck disable=SC2059  # the text's own line ends
    said=$(printf "$text" | "$work/real/share/mowerbean/save-sent" "$@" 2>"$work/notice")
    status=$?
    notice=$(cat "$work/notice")
}

# What is in the spool, by the ends of the names.
spooled() {
    (cd "$spool" && for file in *; do echo "${file##*.}"; done | sort | tr '\n' ' ')
}

letters() {
    unset MAIL_DIR
    mkdir -p "$work/real/share/mowerbean"
    cp "$top/contrib/save-sent" "$top/contrib/spool.sh" "$work/real/share/mowerbean"
    spool=$HOME/.local/state/mowerbean/spool
    config "dir=$work/sent"
    save 'Subject: early\n\nbody\n' -a work Archive '\Seen'
    same 'save-sent, before there is a journal' "$status, $(spooled)" '3, unsure words '
    rm -f "$spool"/*
    "$real" -a work init INBOX Archive >/dev/null
    save 'Subject: x\n\nbody\n' -a work Archive '\Seen'
    same 'save-sent gives an identifier' "$status, ${said% *}, $("$real" -a work queue | tail -n 1 | grep -c 'append Archive <.*@.*>$')" \
        '0, accepted, 1'
    same '  and leaves nothing in the spool' "$(spooled)" '* '
    save '' -a work Archive
    same 'an empty message' "$status, $said, $(spooled)" '13, , * '
    has '  and why' "$notice" 'no message on standard input'
    save 'Message-ID: <a@x>\nMessage-ID: <b@x>\n\nbody\n' -a work Archive
    same 'a message that is refused' "$status, $said, $(spooled)" '10, refused no-message-id, refused words '
    same '  is kept as it is' "$(sed -n 2p "$spool"/*.refused)" 'Message-ID: <b@x>'
    has '  and its file is named' "$notice" "kept as $spool/"
    same '  for its owner alone' "$(stat -c %a "$spool" "$spool"/*.refused | tr '\n' ' ')" '700 600 '
    rm -f "$spool"/*
    save 'From ann@x Mon Jan  1 00:00:00 2026\nMessage-ID: <mbox@x>\n\nbody\n' -a work Archive
    same 'the line of an mbox before a message' "$status, $("$real" -a work queue | tail -n 1 | cut -d ' ' -f 3-)" '0, append Archive <mbox@x>'
    same '  is not in it' "$(grep -c 'From ann' "$work/sent/journal.0")" 0
    handed_in_again
}

handed_in_again() {
    exec 7>>"$work/sent/mowerbean.lock"
    flock 7
    cp "$real" "$work/real/bin/patient"
    sed -i 's/^LONG_PATIENCE=.*/LONG_PATIENCE=1/' "$real"
    save 'Message-ID: <late@x>\n\nbody\n' -a work 'Archive' '\Flagged' 'a key'
    same 'save-sent where another run is at work for long' "$status, $(spooled)" '75, letter words '
    save '' --again
    same '  and once more' "$status, $(spooled)" '75, letter words '
    exec 7>&-
    mv "$work/real/bin/patient" "$real"
    save '' --again
    same '  is refused behind it for its flag' "$status, $said, $(spooled)" '10, refused bad-flag, refused words '
    rm -f "$spool"/*
    exec 7>>"$work/sent/mowerbean.lock"
    flock 7
    sed -i 's/^LONG_PATIENCE=.*/LONG_PATIENCE=0/' "$real"
    save 'Message-ID: <late@x>\n\nbody\n' -a work Archive '\Flagged'
    exec 7>&-
    save '' --again
    same '  and is accepted, where nothing is wrong' "$status, ${said% *}, $(spooled)" '0, accepted, * '
    same '    as what it is' "$("$real" -a work queue | tail -n 1 | cut -d ' ' -f 2-)" 'waiting append Archive <late@x>'
    same '    with its flags' "$("$real" -a work list Archive | tail -n 1 | cut -d ' ' -f 2-)" '- \flagged'
    save '' --again
    same '  once' "$status, $said" '0, '
}

# Each word that is put in reads back as the name that it stands for, and nothing is executed.
completion() {
    if ! command -v bash >/dev/null; then
        echo "skipped: bash isn't installed"
        return
    fi
    MAIL_DIR=$work/completion
    export MAIL_DIR
    # shellcheck disable=SC2016  # names
    "$real" init INBOX 'a;b' '$(touch${IFS}x)' '`id`' 'Sent Items' "it's" >/dev/null
    cat >"$work/complete.bash" <<'BASH'
. "$1/contrib/completion/mowerbean.bash"
complete_words() {
    COMP_WORDS=("$@") COMP_CWORD=$(($# - 1))
    _mowerbean
}
complete_words mowerbean list ''
for each in "${COMPREPLY[@]}"; do
    eval "printf '[%s]' $each"
done
complete_words mowerbean flag Nowhere ''
echo "${COMPREPLY[*]}"
complete_words mowerbean flag INBOX 1 + "'\\Se"
echo "${COMPREPLY[*]}"
BASH
    said=$(cd "$work" && PATH=$work/real/bin:$PATH bash "$work/complete.bash" "$top")
    # shellcheck disable=SC2016  # names
    same 'completion quotes what it puts in' "$(echo "$said" | sed -n 1p), $(ls "$work/x" 2>/dev/null)" \
        '[INBOX][a;b][$(touch${IFS}x)][`id`][Sent Items][it'"'"'s], '
    same '  offers nothing behind a refusal' "$said" "$(echo "$said" | sed -n 1p)
\\Seen"
    completed_behind_options
    unset MAIL_DIR
}

# Each shell offers the six mailboxes behind options of the command, too.
completed_behind_options() {
    cat >"$work/behind.bash" <<'BASH'
. "$1/contrib/completion/mowerbean.bash"
COMP_WORDS=(mowerbean fetch --retry 3 '') COMP_CWORD=4
_mowerbean
echo "${#COMPREPLY[@]}"
BASH
    cat >"$work/behind.zsh" <<'ZSH'
_arguments() { state=words }
compadd() { print ${#${(P)2}} }
words=(fetch --retry 3 '') CURRENT=4
. "$1/contrib/completion/_mowerbean"
ZSH
    cat >"$work/behind.fish" <<'FISH'
source $argv[1]/contrib/completion/mowerbean.fish
count (complete -C 'mowerbean -qw5 fetch --retry 3 ')
FISH
    for shell in bash zsh fish; do
        if ! command -v "$shell" >/dev/null; then
            echo "skipped: $shell isn't installed"
            continue
        fi
        said=$(cd "$work" && PATH=$work/real/bin:$PATH "$shell" "$work/behind.$shell" "$top" 2>&1)
        same "the mailboxes that $shell offers behind an option" "$said" 6
    done
}
