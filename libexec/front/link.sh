# The helper `link`, which stands between the program and the server for one play: whether it is to be had, and its start.
# shellcheck shell=sh disable=SC2034,SC2154  # it shares its settings with mowerbean, which reads this file

# Whether link is to be had: $with_link is yes, or $without says why not.
look_for_link() {
    with_link='' without=''
    if [ "$account_link" = no ]; then
        without='the account has link=no'
    elif [ ! -f "$libexec/link" ]; then
        without="$libexec/link is not there"
    elif ! python3 -c 'import sys; sys.exit(sys.version_info < (3, 9))' </dev/null >/dev/null 2>&1; then
        without='python3 (3.9 or later) is not there'
    else
        with_link=yes
    fi
}

# Without link the program connects by itself, plainly: TLS and the logs of a session are link's.
choose_link() {
    look_for_link
    if [ -n "$with_link" ]; then
        return
    fi
    if [ "$way" != server ]; then
        bad_setting "$way= wants the helper link, but $without"
    fi
    if [ -n "$trace$verbose" ]; then
        bad_setting "--trace and -v want the helper link, but $without"
    fi
    if [ -z "$quiet" ]; then
        say "$without, so the program connects by itself: a letter that arrives late is guarded by the pause alone"
    fi
}

# How many actions wait, for the line of progress.
actions() {
    run queue 2>/dev/null | grep -c '^[0-9]'
}

# Starts link in the background, and reads the port at which it waits for the program. Without a port it didn't come up.
start_link() {
    set -- --folder "$folder" "--$way" "$address" --owner "$$"
    [ -z "$account_cafile" ] || set -- "$@" --cafile "$account_cafile"
    [ -z "$session_time" ] || set -- "$@" --time "$session_time"
    [ -z "$trace" ] || set -- "$@" --trace "$trace"
    [ -z "$verbose" ] || set -- "$@" --verbose
    [ -z "$is_reading" ] || set -- "$@" --reading
    [ -z "$largest" ] || set -- "$@" --largest "$largest"
    if [ -n "$is_reading" ]; then
        :
    elif [ -z "$quiet" ] && [ -t 2 ]; then
        set -- "$@" --progress --actions "$(actions)"
    elif [ -n "$verbose" ]; then
        set -- "$@" --actions "$(actions)"
    fi
    open_bell || return 0
    python3 -Es "$libexec/link" "$@" </dev/null >&7 6<&- 7>&- &
    link_pid=$!
    exec 7>&-
    [ -z "$asked$stopped" ] || pass_on TERM "$link_pid"
    read -r port <&6 || port=''
    exec 6<&-
    as_number "$port" 65535 || port=''
}

# Opens both ends of a FIFO, 6 to read and 7 to write. It has no name any more then, so nothing waits for an end that never comes.
open_bell() {
    room=$(mktemp -d) || return 1
    if ! mkfifo "$room/bell"; then
        rm -rf "$room"
        return 1
    fi
    exec 7<>"$room/bell"
    exec 6<"$room/bell"
    rm -rf "$room"
}
