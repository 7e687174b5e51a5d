# One command for all accounts (-A): a run of this script for each, one after another.
# shellcheck shell=sh disable=SC2034,SC2154  # it shares its settings with mowerbean, which reads this file

# A signal ends the account at work as it would by itself, and there is no next one. A shell keeps INT from what it runs in the
# background, so that gets TERM in its place.
signalled_all() {
    signals=$((signals + 1)) asked=$1
    case $1 in
        INT) pass_on TERM "$account_pid" ;;
        *) pass_on "$1" "$account_pid" ;;
    esac
}

look_at_all() {
    [ -z "$account" ] || stop_words '-A is for all accounts, and -a for one: see mowerbean --help'
    case ${1-} in
        play | list | queue | report | history) ;;
        *) stop_words '-A is for play, list, queue, report and history: see mowerbean --help' ;;
    esac
    find_configs
    set -- "$configs"/*.conf
    if [ -z "$configs" ] || [ ! -e "$1" ]; then
        stop "$BAD_ACCOUNT" "there is no account's file in ${configs:-~/.config/mowerbean}"
    fi
}

# Runs the command for each account, and leaves the highest of their statuses in $status. What the environment says is about one
# account, so it doesn't count.
do_all() {
    look_at_all "$@"
    unset MAIL_DIR MAIL_SERVER MAIL_USER MAIL_PAUSE MAIL_TIME
    case $0 in
        */*) self=$0 ;;
        *) self=./$0 ;;
    esac
    account_pid=''
    trap 'signalled_all INT' INT
    trap 'signalled_all TERM' TERM
    trap 'signalled_all HUP' HUP
    # A command that prints a password may ask for one.
    if (exec 5<&0) 2>/dev/null; then exec 5<&0; else exec 5</dev/null; fi
    for file in "$configs"/*.conf; do
        account=${file##*/}
        account=${account%.conf}
        say "account $account"
        "$self" ${quiet:+-q} ${verbose:+-v} -a "$account" -- "$@" <&5 5<&- &
        account_pid=$!
        await "$account_pid"
        account_pid=''
        status=$((ended > status ? ended : status))
        if [ -n "$asked" ]; then
            status=$(status_of_signal "$asked")
            return
        fi
    done
}
