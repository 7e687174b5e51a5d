# The account: its file, the server's address, the numbers of the settings, and the password.
# shellcheck shell=sh disable=SC2034,SC2154  # it shares its settings with mowerbean, which reads this file

# The most seconds of a pause.
LONGEST_PAUSE=3600

# What is wrong with a line counts only where nobody else may have written it.
bad_account() {
    look_at_owners
    stop "$BAD_ACCOUNT" "$file, line $number: $1. Nothing was done"
}

bad_setting() {
    stop "$BAD_ACCOUNT" "$1. Nothing was done"
}

trim() {
    trimmed=${1#"${1%%[![:space:]]*}"}
    trimmed=${trimmed%"${trimmed##*[![:space:]]}"}
}

# --- whose the files are

# Looks at the account's file, at its folder, and at the folder that is named: at their owners, and at who else may write there. One
# `ls` for all, which shows each under its own ending.
look_at_owners() {
    is_open='' seen_file='' seen_folder=''
    set -- ${file:+"$file" "${file%/*}/."} ${1:+"$1/./"}
    [ $# -gt 0 ] || return 0
    while read -r mode _ owner line; do
        case $line in
            *.conf) look_at_file "$mode" "$owner" ;;
            */./) look_at_journal "$mode" ;;
            */.) look_at_configs "$mode" "$owner" ;;
        esac
    done <<LIST
$(LC_ALL=C ls -dnL -- "$@" 2>/dev/null)
LIST
    if [ -n "$file" ] && [ "$seen_file$seen_folder" != yesyes ]; then
        stop "$BAD_ACCOUNT" "it can't be seen who may change $file. Nothing was done"
    fi
}

# Whether others may write what has this mode.
others_may_write() {
    case $1 in
        ?????w* | ????????w*) return 0 ;;
    esac
    return 1
}

# Whether a file of this owner is this user's, or root's.
is_own() {
    # shellcheck disable=SC3067  # dash, bash and busybox have it
    [ "$2" = 0 ] || [ -O "$1" ]
}

look_at_file() {
    seen_file=yes
    is_own "$file" "$2" || stop "$BAD_ACCOUNT" "$file belongs to another user. Nothing was done"
    if others_may_write "$1"; then
        stop "$BAD_ACCOUNT" "others may change $file. Nothing was done: chmod 600 it"
    fi
    case $1 in
        ????r* | ???????r*) is_open=yes ;;
    esac
}

look_at_configs() {
    seen_folder=yes
    is_own "${file%/*}" "$2" || stop "$BAD_ACCOUNT" "${file%/*} belongs to another user. Nothing was done"
    if others_may_write "$1"; then
        stop "$BAD_ACCOUNT" "others may write in ${file%/*}, where $file is. Nothing was done: chmod go-w it"
    fi
}

look_at_journal() {
    if others_may_write "$1"; then
        say "others may write in $folder: chmod 700 it"
    fi
}

# --- what a value says

# Puts a path of the file into $path.
as_path() {
    # shellcheck disable=SC2088  # the tilde is the file's, and is put into words here
    case $2 in
        /*) path=$2 ;;
        '~/'*) path=${HOME:-}/${2#'~/'} ;;
        *) bad_account "$1 has to begin with / or ~/" ;;
    esac
}

# Puts HOST:PORT into $address, with the second word for the port where none is named. Else $wrong says what is wrong.
as_address() {
    wrong='' host=$1 port=$2
    case $1 in
        '') wrong='it is empty' ;;
        *[[:space:]]*) wrong='there is a blank in it' ;;
        *://*) wrong='it is HOST:PORT, with nothing like imap:// before it' ;;
        '['*']:'*) host=${1%:*} port=${1##*:} ;;
        '['*']') ;;
        *:*:*) wrong='an IPv6 address stands in brackets, as in [::1]:143' ;;
        *:*) host=${1%:*} port=${1##*:} ;;
    esac
    [ -z "$wrong" ] || return 1
    case $host in
        '['*']')
            name=${host#'['}
            name=${name%']'}
            ;;
        *:*) name='' ;;
        *) name=$host ;;
    esac
    case $name in
        '' | -* | *[!][0-9A-Za-z._:%-]* | *']'* | *'['*)
            wrong='its host is a name, an IPv4 address, or an IPv6 address in brackets'
            return 1
            ;;
    esac
    if ! as_number "$port" 65535 || [ "$as_number" -eq 0 ]; then
        wrong='its port is a number from 1 to 65535'
        return 1
    fi
    address=$host:$as_number
}

# Puts the seconds of a pause into $pause.
as_pause() {
    as_number "$1" "$LONGEST_PAUSE" || {
        wrong="pause is a number of seconds up to $LONGEST_PAUSE, and not $1"
        return 1
    }
    pause=$as_number
}

# Puts the limit of a session into $session_time.
as_time() {
    if ! as_number "$1" 999999999 || [ "$as_number" -eq 0 ]; then
        wrong="time is a number of seconds from 1 to 999999999, and not $1"
        return 1
    fi
    session_time=$as_number
}

# Puts kilobytes into $memory.
as_memory() {
    case $1 in
        *M) times=1024 ;;
        *G) times=1048576 ;;
        *) times=1 ;;
    esac
    if ! as_number "${1%[MG]}" 99999999 || [ "$as_number" -eq 0 ]; then
        wrong="memory is a number of kilobytes, or one with M or G, and not $1"
        return 1
    fi
    memory=$((as_number * times))
}

# Puts bytes into $account_largest.
as_largest() {
    case $1 in
        *K) times=1024 ;;
        *M) times=1048576 ;;
        *) times=1 ;;
    esac
    if ! as_number "${1%[KM]}" 999999999 || [ "$as_number" -eq 0 ]; then
        wrong="largest is a number of bytes, or one with K or M, and not $1"
        return 1
    fi
    account_largest=$((as_number * times))
}

# --- the file

take_server_line() {
    if [ -n "$account_way" ]; then
        bad_account "there is $account_way= already: one of server=, tls= and starttls= names the server"
    fi
    case $1 in
        tls) default_port=993 ;;
        *) default_port=143 ;;
    esac
    as_address "$2" "$default_port" || bad_account "$1=$2 names no server: $wrong"
    account_way=$1 account_server=$address
}

# Takes a line of the file: its name and its value.
take_line() {
    case $1 in
        server | tls | starttls) take_server_line "$1" "$2" ;;
        dir) as_path "$1" "$2" && account_dir=$path ;;
        maildir) as_path "$1" "$2" && account_maildir=$path ;;
        trash) account_trash=$2 ;;
        cafile) as_path "$1" "$2" && account_cafile=$path ;;
        user) account_user=$2 ;;
        password_command) account_command=$2 ;;
        pause) as_pause "$2" || bad_account "$wrong" ;;
        time) as_time "$2" || bad_account "$wrong" ;;
        memory) as_memory "$2" || bad_account "$wrong" ;;
        largest) as_largest "$2" || bad_account "$wrong" ;;
        link)
            case $2 in
                yes | no) account_link=$2 ;;
                *) bad_account "link is yes or no, and not $2" ;;
            esac
            ;;
        password)
            look_at_owners
            if [ -n "$is_open" ]; then
                say "others can read $file, and a password stands in it: chmod 600 it, and change the password"
            fi
            bad_account 'no password may stand here: give a password_command'
            ;;
        *) bad_account "no such name: $1" ;;
    esac
}

# Says in $wrong what would be taken as a part of a value, where it is meant as something else.
wrong_value() {
    wrong=''
    case $1:$2 in
        password_command:*) ;;
        *:\"*\" | *:\'*\') wrong="no quotes stand around a value: $2" ;;
        *:*[[:blank:]]#*) wrong="a comment has a line of its own, which begins with #: $2" ;;
    esac
    [ -n "$wrong" ]
}

# Reads a file of lines NAME=value. Nothing of it is executed but password_command, by play.
read_account() {
    file=$1
    if [ ! -f "$file" ] || [ ! -r "$file" ]; then
        stop "$BAD_ACCOUNT" "the account's file $file is not there, or can't be read. Nothing was done"
    fi
    number=0
    while IFS= read -r line || [ -n "$line" ]; do
        number=$((number + 1))
        trim "$line"
        case $trimmed in
            '' | '#'*) continue ;;
            *=*) ;;
            *) bad_account 'no NAME=value' ;;
        esac
        value=${trimmed#*=}
        trim "${trimmed%%=*}"
        name=$trimmed
        trim "$value"
        wrong_value "$name" "$trimmed" && bad_account "$wrong"
        take_line "$name" "$trimmed"
    done <"$file"
}

# With an account on the line that account alone counts.
forget_environment() {
    not_counted=$has_password
    unset MAIL_DIR MAIL_SERVER MAIL_USER MAIL_PAUSE MAIL_TIME
    password='' has_password=''
}

forget_account() {
    account_dir='' account_way='' account_server='' account_cafile='' account_user='' account_command='' account_link=''
    account_maildir='' account_trash='' account_largest=''
    file='' is_open='' not_counted='' pause=2 session_time=''
}

# The folder of the accounts' files; none where no home is known.
find_configs() {
    configs=${XDG_CONFIG_HOME:-${HOME:+$HOME/.config}}
    configs=${configs:+$configs/mowerbean}
}

# Looks at the account's name, and where its file is to be.
look_at_name() {
    find_configs
    case $account in
        '') return ;;
        .* | -* | *[!A-Za-z0-9._@+-]*) stop "$BAD_ACCOUNT" "an account's name has letters, digits and ._@+- alone: $account" ;;
    esac
    [ -n "$configs" ] || stop "$BAD_ACCOUNT" 'neither XDG_CONFIG_HOME nor HOME is set, so no account is found'
}

# Reads the account's file, where there is one, and fills what the environment leaves open. For a command that writes, which says so by
# a word, the journal's folder is looked at, too.
take_account() {
    forget_account
    look_at_name
    if [ -n "$account" ]; then
        forget_environment
        read_account "$configs/$account.conf"
    elif [ -n "$configs" ] && [ -e "$configs/default.conf" ]; then
        read_account "$configs/default.conf"
    fi
    if [ -n "$file" ] && [ -z "${MAIL_DIR+x}" ]; then
        MAIL_DIR=${account_dir:-${XDG_DATA_HOME:-${HOME:-}/.local/share}/mowerbean/${account:-default}}
    fi
    take_folder
    look_at_owners ${1:+"$folder"}
    take_source
}

# The journal's folder. An empty name would be the root of the file system.
take_folder() {
    folder=.
    if [ -n "${MAIL_DIR+x}" ]; then
        folder=$MAIL_DIR
        export MAIL_DIR
    fi
    case $folder in
        '') bad_setting 'MAIL_DIR is empty: it names the folder of the journal' ;;
        -*) folder=./$folder ;;
    esac
    is_utf8 "$folder" || bad_setting 'MAIL_DIR is not UTF-8'
}

# Server, user and password come from one source, as one server must not be given what is for another. The environment is it where it
# has any of the three.
take_source() {
    mixed=''
    if [ -z "${MAIL_SERVER+x}${MAIL_USER+x}$has_password" ]; then
        if [ -n "$account_user" ]; then
            export MAIL_USER="$account_user"
        fi
        return
    fi
    if [ -n "$account_way" ] && [ -z "${MAIL_SERVER+x}" ]; then
        mixed="$account_way= and no MAIL_SERVER"
    elif [ -n "$account_user" ] && [ -z "${MAIL_USER+x}" ]; then
        mixed='user= and no MAIL_USER'
    elif [ -n "$account_command" ] && [ -z "$has_password" ]; then
        mixed='password_command= and no MAIL_PASSWORD'
    fi
    account_way='' account_server='' account_cafile='' account_command=''
}

# What play takes of the environment in place of the file.
take_play_settings() {
    if [ -n "$mixed" ]; then
        bad_setting "a part of server, user and password would be the environment's, and a part ${file}'s ($mixed). Set all three variables, or name the account by -a"
    fi
    if [ -n "$not_counted" ] && [ -z "$account_command" ]; then
        say "MAIL_PASSWORD does not count with -a, and $file has no password_command"
    fi
    way=${account_way:-server} address=${account_server:-localhost:143}
    if [ -n "${MAIL_SERVER+x}" ]; then
        as_address "$MAIL_SERVER" 143 || bad_setting "MAIL_SERVER=$MAIL_SERVER names no server: $wrong"
        way=server
    fi
    if [ -n "${MAIL_PAUSE+x}" ]; then
        as_pause "$MAIL_PAUSE" || bad_setting "MAIL_PAUSE: $wrong"
    fi
    if [ -n "${MAIL_TIME+x}" ]; then
        as_time "$MAIL_TIME" || bad_setting "MAIL_TIME: $wrong"
    fi
    if [ -n "$account_cafile" ] && [ ! -r "$account_cafile" ]; then
        bad_setting "the cafile $account_cafile is not there, or can't be read"
    fi
    is_utf8 "${MAIL_USER-}" || bad_setting 'the user is not UTF-8'
}

# Keeps the program, which is about to take the place of this shell, within the account's memory.
limit_memory() {
    # shellcheck disable=SC3045  # dash, bash and busybox have it
    if [ -n "$memory" ] && ! ulimit -v "$memory" 2>/dev/null; then
        stop "$BAD_ACCOUNT" "memory=$memory can't be had: the limit of this session is lower. Nothing was done"
    fi
}

# --- the password

# Whether a text is UTF-8, by the forms of RFC 3629, section 4.
is_utf8() {
    case $1 in
        *[!\ -~]*) ;;
        *) return 0 ;;
    esac
    next='[89ab][0-9a-f]'
    two="(c[2-9a-f]|d[0-9a-f])$next"
    three="(e0[ab][0-9a-f]|e[1-9a-cef]$next|ed[89][0-9a-f])$next"
    four="(f0[9ab][0-9a-f]|f[1-3]$next|f48[0-9a-f])$next$next"
    {
        printf '%s' "$1" | od -An -v -tx1 | tr -d ' \n'
        echo
    } | grep -Eqx "([0-7][0-9a-f]|$two|$three|$four)*"
}

# Asks for the password, where a command for it is set and the environment has none. It is handed on in the environment of the
# program alone, never as an argument. The program would send one that isn't UTF-8 as an empty one.
ask_password() {
    if [ -z "$has_password" ] && [ -n "$account_command" ]; then
        if [ -n "$is_open" ]; then
            say "others can read $file: chmod 600 it"
        fi
        if ! told=$(sh -c "$account_command"); then
            bad_setting 'password_command failed'
        fi
        # Its first line, as password stores give more.
        password=${told%%
*}
        [ -n "$password" ] || bad_setting 'password_command gave no password'
        has_password=yes
    fi
    is_utf8 "$password" || bad_setting 'the password is not UTF-8'
}
