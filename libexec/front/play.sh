# A play: its pause, the program and link at work, the signals that end them, and the plays after it.
# shellcheck shell=sh disable=SC2034,SC2154  # it shares its settings with mowerbean, which reads this file

# How many plays in a row link may ask for at once, each after a second look for a letter.
MOST_LOOKS=3
# Two signals within these hundredths of a second are one: `timeout` sends its signal to the front, and then to its whole group.
ONE_SIGNAL=50

under_way='' program_pid='' link_pid='' link_status=0 nap_pid='' signals=0 asked='' asked_at=0 stopped=''

# --- the pause

# A full disk must not take the pause away, so a play that can't be marked isn't begun.
write_mark() {
    put_line "$mark" "$1"
}

no_mark() {
    no_file "$mark" 'the pause after a lost connection'
}

no_file() {
    echo 'error disk'
    say "$1 can't be written, so $2 could be forgotten. Nothing was played: is the disk full?"
    explain 3
    exit 3
}

# The seconds that a letter's end may need on its way, where the last play sent it and saw no answer. The program keeps that in
# mowerbean.sent, where it connects by itself; what link keeps in mowerbean.line counts here only where there is no link.
late_seconds() {
    late=0 bytes=0 how=''
    if [ -f "$folder/mowerbean.sent" ]; then
        read -r bytes how <"$folder/mowerbean.sent"
    elif [ -z "$with_link" ] && [ -f "$folder/mowerbean.line" ]; then
        read -r _ bytes how _ <"$folder/mowerbean.line"
    fi 2>/dev/null
    case $how in
        whole | catenate | crlf) as_number "$bytes" 1073741824 && late=$((as_number / 2000)) ;;
    esac
}

# Puts into $left how many seconds are left until a play may begin: none, unless the last one lost its connection or was cut off.
# A mark that can't be read, or that is none, counts as one of a play that was cut off just now.
left_to_wait() {
    left=0 how='' ended='' more=''
    late_seconds
    whole=$(((pause > gap ? pause : gap) + late))
    if [ ! -e "$mark" ] || [ "$whole" -eq 0 ]; then
        left=$late
        return
    fi
    read -r how ended more 2>/dev/null <"$mark"
    # A second more, as parts of one are cut off.
    left=$((whole + 1))
    case $how:$ended:$more in
        ended::) left=$late ;;
        lost:*:)
            now=$(date +%s)
            if as_number "$ended" "$now"; then
                left=$((as_number + whole + 1 - now))
                left=$((left > 0 ? left : 0))
            fi
            ;;
    esac
}

# Whether the mark is still the one for which this run has waited.
is_waited_for() {
    [ -n "$waited_for" ] && [ "$(cat "$mark" 2>/dev/null)" = "$waited_for" ]
}

late_words() {
    [ "$late" -eq 0 ] || echo ' after a letter, whose end may be on its way'
}

# Waits until a play may begin, and then has the lock. Meanwhile others may have it.
wait_for_turn() {
    waited_for=''
    while :; do
        take_lock "$PATIENCE" play
        mark=$folder/mowerbean.play
        left_to_wait
        if [ "$left" -eq 0 ] || [ -n "$at_once" ] || is_waited_for; then
            break
        fi
        # The wait is over then, whatever the clock shows, unless another play left its own mark meanwhile.
        waited_for="lost $(($(date +%s) + left - whole - 1))"
        write_mark "$waited_for" || no_mark
        leave_lock
        if [ -z "$quiet" ] && [ -t 2 ]; then
            say "waiting $left seconds, since the last play lost its connection or was cut off$(late_words)"
        fi
        nap "$left"
    done
    rm -f -- "$folder/mowerbean.sent"
    [ -n "$with_link" ] || rm -f -- "$folder/mowerbean.line"
}

# --- signals

# Waits for a child, whatever signals come meanwhile, and puts its status into $ended.
await() {
    ended=127
    while :; do
        seen=$signals
        if [ -n "$stopped" ]; then
            end_for_good "$1"
        fi
        wait "$1"
        code=$?
        # A child that the shell has told of already is unknown to it.
        [ "$code" -eq 127 ] || ended=$code
        [ "$signals" -ne "$seen" ] || return 0
    done
}

nap() {
    sleep "$1" &
    nap_pid=$!
    await "$nap_pid"
    nap_pid=''
}

# Gives a child five seconds to end.
end_for_good() {
    turns=0
    while [ "$turns" -lt 50 ] && kill -0 "$1" 2>/dev/null; do
        turns=$((turns + 1))
        sleep 0.1 2>/dev/null || sleep 1
    done
    kill -KILL "$1" 2>/dev/null
}

status_of_signal() {
    case $1 in
        HUP) echo 129 ;;
        INT) echo 130 ;;
        *) echo 143 ;;
    esac
}

# Puts hundredths of seconds of a clock that doesn't jump into $moment, where the system has one.
take_moment() {
    if read -r moment _ 2>/dev/null </proc/uptime; then
        as_number "${moment%.*}${moment#*.}" 9999999999 && moment=$as_number
    else
        moment=$(date +%s)00
    fi
}

# Sends a signal to a child, if it was started.
pass_on() {
    [ -z "$2" ] || kill "-$1" "$2" 2>/dev/null
}

# Takes away link's line of progress, where one may stand.
clear_line() {
    if [ -t 2 ]; then
        printf '\r\033[K' >&2
    fi
}

# A first INT or TERM lets the command under way end, which link alone can see to. Else, and for the next one, and for HUP, all ends
# at once. A child whose number isn't known yet is ended where it is started.
signalled() {
    signals=$((signals + 1))
    if [ -z "$under_way" ]; then
        pass_on TERM "$nap_pid"
        exit "$(status_of_signal "$1")"
    fi
    take_moment
    if [ "$1" != HUP ] && [ -z "$asked" ] && [ -n "$with_link" ]; then
        asked=$1 asked_at=$moment
        pass_on USR1 "$link_pid"
        clear_line
        say 'ending after the command under way; once more stops at once'
    elif [ "$1" = HUP ] || [ -z "$with_link" ] || [ $((moment - asked_at)) -ge "$ONE_SIGNAL" ]; then
        stopped=$1
        pass_on TERM "$program_pid"
        pass_on TERM "$link_pid"
    fi
}

# --- one play

# Starts the program in the background, alone with the password. Without link it ends with this script, where the system can do that:
# setpriv then becomes the program.
start_program() {
    set -- "$program" "$@"
    if [ -z "$with_link" ] && setpriv --pdeathsig TERM true 2>/dev/null; then
        set -- setpriv --pdeathsig TERM "$@"
    fi
    (
        # An interrupt of the terminal goes to this one too; bash doesn't keep it from a subshell of a script with traps.
        trap '' INT QUIT
        if [ -n "$session_time" ]; then
            export MAIL_TIME="$session_time"
        fi
        export MAIL_SERVER="$address"
        if [ -n "$with_link" ]; then
            export MAIL_LINK=yes MAIL_SERVER="127.0.0.1:$port"
        fi
        limit_memory
        if [ -n "$has_password" ]; then
            export MAIL_PASSWORD="$password"
        fi
        exec "$@"
    ) </dev/null &
    program_pid=$!
    [ -z "$stopped" ] || pass_on TERM "$program_pid"
}

# Lets the program carry these words out to its end, and link after it. $link_status is that of link. $status is the program's, if it was
# started.
play_to_the_end() {
    under_way=yes status='' link_status=0 port=''
    if [ -n "$with_link" ]; then
        start_link
    fi
    if [ -z "$asked$stopped" ] && { [ -n "$port" ] || [ -z "$with_link" ]; }; then
        start_program "$@"
        await "$program_pid"
        status=$ended program_pid=''
        # Link still waits for the program, if that ended before it connected. With these statuses it did connect, or tried to.
        case $status in
            [014-8]) ;;
            *) pass_on USR2 "$link_pid" ;;
        esac
    fi
    if [ -n "$link_pid" ]; then
        await "$link_pid"
        link_status=$ended link_pid=''
    fi
    under_way=''
}

# Puts into $status what a signal or a missing link made of the play.
take_status() {
    case $status:$stopped:$asked in
        [01]:*) ;;
        *:?*:*) status=$(status_of_signal "$stopped") ;;
        ::?*) status=$(status_of_signal "$asked") ;;
        ::) take_missing_port ;;
    esac
}

# Link gives no port where it can't use its words, and says why; or it didn't start.
take_missing_port() {
    if [ "$link_status" -eq 2 ]; then
        status=$BAD_ACCOUNT
    else
        say "the helper $libexec/link did not start. Nothing was played"
        status=$NO_PROGRAM
    fi
}

# A play after its pause. A command that the server didn't carry out yet may be under way as long as that.
play_once() {
    wait_for_turn
    if [ -n "$can_lock" ] && [ -r "$folder" ]; then
        exec 8<"$folder"
        flock -w 5 8 2>/dev/null
    fi
    keep_server || no_file "$folder/mowerbean.server" 'whose the journal is'
    look_before
    write_mark begun || {
        forget_server
        no_mark
    }
    play_to_the_end play
    take_status
    forget_server
    case $status in
        0 | 1 | 2 | 9 | "$NO_PROGRAM" | "$BAD_ACCOUNT") write_mark ended ;;
        *) write_mark "lost $(date +%s)" ;;
    esac
    look_after
    if [ -n "$can_lock" ]; then
        exec 8>&-
    fi
    leave_lock
}

# --- the plays of one command

# The words of play. How many of them are options is left in $options.
take_play_options() {
    options=$#
    while [ $# -gt 0 ]; do
        case $1:$# in
            -v:*) verbose=yes ;;
            --moved:*) moved=yes ;;
            --retry:1 | --retry-for:1 | --trace:1 | --then:1) break ;;
            --retry:*)
                as_number "$2" 999 || stop_words '--retry takes a number up to 999: see mowerbean help play'
                retries=$as_number
                shift
                ;;
            --retry-for:*)
                as_seconds "$2" || stop_words '--retry-for takes a time such as 90s, 20m or 2h, up to 168h: see mowerbean help play'
                retry_for=$as_seconds
                shift
                ;;
            --trace:*)
                trace=$2
                [ -n "$trace" ] || stop_words '--trace takes the name of a file: see mowerbean help play'
                shift
                ;;
            --then:*)
                then_command=$2
                [ -n "$then_command" ] || stop_words '--then takes a command: see mowerbean help play'
                shift
                ;;
            *) break ;;
        esac
        shift
    done
    options=$((options - $#))
}

# Whether another play is to follow: at once after a second look of link, and as --retry and --retry-for have it where trying again
# may help.
plays_again() {
    at_once=''
    if [ "$status" -ne 4 ] || [ -n "$asked" ]; then
        return 1
    fi
    if [ "$link_status" -eq 5 ] && [ "$looks" -lt "$MOST_LOOKS" ]; then
        looks=$((looks + 1)) at_once=yes
        return 0
    fi
    looks=0
    may_retry || return 1
    explain "$status"
}

play() {
    retries='' retry_for='' trace='' then_command='' looks=0 at_once='' moved=''
    take_play_options "$@"
    shift "$options"
    [ -n "$retries$retry_for" ] || retries=0
    if [ $# -gt 0 ]; then
        wrong="$(printable "$1") is no word of play, or lacks its value"
        judge play "$@"
        return
    fi
    if ! has_journal; then
        # The program says what is wrong. It is given no server and no password.
        MAIL_SERVER='' "$program" play
        status=$?
        return
    fi
    take_play_settings
    look_at_server
    choose_link
    ask_password
    trap 'signalled INT' INT
    trap 'signalled TERM' TERM
    trap 'signalled HUP' HUP
    begin_retries
    begin_news
    play_once
    while plays_again; do
        play_once
    done
    trap - INT TERM HUP
    end_news
    name_unseen
}
