# -A: one command for all accounts, one after another.
# shellcheck shell=sh disable=SC2034,SC2154  # it shares its names with try-front, which reads this file

# Makes an account with a folder that the front takes for a journal's, and these further lines.
account() {
    name=$1
    shift
    mkdir -p "$work/all/$name"
    echo journal >"$work/all/$name/journal.0"
    printf '%s\n' "dir=$work/all/$name" "$@" >"$configs/$name.conf"
    chmod 600 "$configs/$name.conf"
}

all_accounts() {
    unset MAIL_DIR
    rm -f "$configs"/*.conf "$work/stub/ends"
    ask -A play
    same '-A without an account' "$status, $said" '78, '
    account ann server=mail:143 user=ann 'password_command=echo one'
    account bob server=post:143 'password_command=echo two'
    account zoe
    said=$(MAIL_SERVER=other:1 MAIL_USER=eve MAIL_PASSWORD=hidden-word MAIL_DIR=$work/nowhere "$stub" -A play 2>"$work/notice" </dev/null)
    same '-A play' "$?, $said" "0, words [play]
$work/all/ann mail:143 ann one
words [play]
$work/all/bob post:143 none two
words [play]
$work/all/zoe localhost:143 none none"
    same '  with a heading for each' "$(grep -c '^mowerbean: account \(ann\|bob\|zoe\)$' "$work/notice")" 3
    ends 4 1 0
    ask -A list INBOX
    same '  and the status that is the highest' "$status, $(echo "$said" | grep -c '^words \[list\] \[INBOX\]$')" '4, 3'
    ask -A list -- -x
    same '  with words that look like options' "$status, $(echo "$said" | grep -c '^words \[list\] \[-x\]$')" '0, 3'
    ask -A history
    same '  also for the history' "$status, $said" '0, words [history]
'"$work/all/ann none ann none
words [history]
$work/all/bob none none none
words [history]
$work/all/zoe none none none"
    account bob nonsense
    ask -q -A queue
    same '  also where an account has none' "$status, $(echo "$said" | grep -c '^words \[queue\]$')" '78, 2'
    # shellcheck disable=SC2016  # the command's own words
    account bob 'password_command=read -r line && echo "$line"'
    said=$(printf 'typed\n' | "$stub" -A play 2>/dev/null)
    same '  a password may be asked for' "$(echo "$said" | sed -n 4p)" "$work/all/bob localhost:143 none typed"
    said=$("$stub" -A queue 2>/dev/null <&-)
    same '  and input may be closed' "$?, $(echo "$said" | grep -c '^words')" '0, 3'
    for words in '-A flag INBOX 1 + x' '-A append Archive' '-A letter 1' '-A -a ann play' '-A init INBOX'; do
        # shellcheck disable=SC2086  # words
        ask $words
        same "$words" "$status, $said" '2, error words'
    done
    all_signals
    rm -f "$configs"/*.conf
}

all_signals() {
    put_link
    while read -r signal code last ran; do
        rm -f "$work/stub/times" "$work/stub/ends" "$work/stub/linked"
        hold -A play
        kill "-$signal" "$held"
        ended
        same "$signal ends -A after the account at work" "$status, $(tail -n 1 "$work/stub/linked"), $(runs), $gone" "$code, $last, $ran, gone"
    done <<'CASES'
INT 130 USR1 1
TERM 143 USR1 1
HUP 129 TERM 0
CASES
    take_link_away
}
