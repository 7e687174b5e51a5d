# `mowerbean account`: asks for an account, tries its server, and writes its file.
# shellcheck shell=sh disable=SC2034,SC2154  # it shares its settings with mowerbean, which reads this file

# Asks a question on standard error until the answer is right by a function, and puts it into $answer. An empty one means the second word.
ask() {
    while :; do
        printf '%s%s: ' "$1" "${2:+ [$2]}" >&2
        if ! IFS= read -r answer; then
            echo >&2
            bad_setting 'the answers end here'
        fi
        trim "$answer"
        answer=${trimmed:-$2} wrong=''
        "$3" "$answer" && return
        say "$wrong"
    done
}

is_way() {
    case $1 in
        tls | starttls | server) return 0 ;;
    esac
    wrong='one of tls, starttls and server, please'
    return 1
}

is_address() {
    as_address "$1" 993 && return
    wrong="that names no server: $wrong"
    return 1
}

# How a server is most likely spoken to, by its port.
likely_way() {
    case $1 in
        localhost* | 127.* | '['::1*) echo server ;;
        *:143) echo starttls ;;
        *) echo tls ;;
    esac
}

# Whether a value may stand in the file.
is_value() {
    if [ -z "$1" ]; then
        wrong='this can not be left out'
    elif ! is_utf8 "$1"; then
        wrong='this is not UTF-8'
    else
        wrong_value user "$1"
    fi
    [ -z "$wrong" ]
}

is_command() {
    if [ -z "$1" ]; then
        wrong='this can not be left out: the password itself may not stand in the file'
    fi
    [ -n "$1" ]
}

is_box_or_none() {
    [ -z "$1" ] || ! wrong_box "$1"
}

is_yes_or_no() {
    case $1 in
        yes | no | y | n) return 0 ;;
    esac
    wrong='yes or no, please'
    return 1
}

# Asks for mailboxes, a line each, and puts them into $boxes. Without one they are INBOX, Archive and Sent.
ask_boxes() {
    boxes=''
    ask 'Mailboxes, a line each; an empty line ends [INBOX, Archive and Sent]' '' is_box_or_none
    while [ -n "$answer" ]; do
        boxes=$boxes$answer$newline
        ask '  and' '' is_box_or_none
    done
    boxes=${boxes:-INBOX${newline}Archive${newline}Sent$newline}
}

# Tries the server through link, without a journal. The status is that of a play that ends so.
try_server() {
    folder=$(mktemp -d) || bad_setting 'no temporary folder can be had'
    trap 'rm -rf "$folder"' EXIT
    trap 'exit 130' INT
    quiet=yes trace='' verbose=''
    start_link
    if [ -z "$port" ]; then
        [ -z "$link_pid" ] || wait "$link_pid"
        return "$NO_PROGRAM"
    fi
    while IFS= read -r box; do
        set -- "$@" "$box"
    done <<BOXES
${boxes%"$newline"}
BOXES
    printf '%s' "$password" | python3 -Es "$libexec/try_account.py" "$port" "$account_user" "$@" >&2
    tried=$?
    wait "$link_pid"
    return "$tried"
}

# Asks for all, and puts it into the settings that play has.
ask_account() {
    ask 'Server, as HOST or HOST:PORT' '' is_address
    server=$answer
    ask 'tls, starttls, or server (no TLS: this machine, or a tunnel)' "$(likely_way "$server")" is_way
    account_way=$answer way=$answer
    [ "$way" = tls ] || as_address "$server" 143
    ask 'User' '' is_value
    account_user=$answer
    ask 'Command that prints the password (pass show mail/ann, say)' '' is_command
    account_command=$answer
    ask_boxes
}

# Writes the account's file, where none is there yet.
write_account() {
    (umask 077 && mkdir -p -- "${file%/*}") 2>/dev/null
    if ! (umask 077 && set -C && printf '%s\n' '# Written by mowerbean account. All lines that may stand here: man mowerbean' \
        "$account_way=$address" "user=$account_user" "password_command=$account_command" >"$file") 2>/dev/null; then
        [ -s "$file" ] || rm -f -- "$file" 2>/dev/null
        bad_setting "$file can't be written"
    fi
    look_at_owners
}

# What is to be done next, in words that a shell takes.
say_next() {
    words=''
    while IFS= read -r box; do
        case $box in
            *[!A-Za-z0-9._/-]*) words="$words '$(printf '%s' "$box" | sed "s/'/'\\\\''/g")'" ;;
            *) words="$words $box" ;;
        esac
    done <<BOXES
${boxes%"$newline"}
BOXES
    [ "$account" = default ] && front=mowerbean || front="mowerbean -a $account"
    say "next: $front init$words; $front play"
}

account() {
    account=${1:-${account:-default}}
    look_at_name
    forget_account
    file=$configs/$account.conf number=0
    if [ -e "$file" ] || [ -L "$file" ]; then
        bad_setting "there is an account $account already: $file"
    fi
    forget_environment
    ask_account
    look_for_link
    tried=$NO_PROGRAM
    if [ -n "$with_link" ]; then
        say "trying $address"
        (ask_password && try_server)
        tried=$?
    else
        say "$without, so the server is not tried"
    fi
    if [ "$tried" -ne 0 ]; then
        ask 'Write the file all the same' no is_yes_or_no
        case $answer in
            y | yes) ;;
            *) exit "$tried" ;;
        esac
    fi
    write_account
    echo "written $file" || exit 12
    say_next
    status=0
}
