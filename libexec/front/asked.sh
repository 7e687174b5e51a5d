# What is asked for: which word of a command is wrong, the names of flags, and the mailboxes' names, as people see and write them.
# shellcheck shell=sh disable=SC2034,SC2154  # it shares its settings with mowerbean, which reads this file

# How many mailboxes or flags a command may have, and how many bytes a mailbox's name.
MOST_WORDS=32
LONGEST_NAME=128
newline='
'

# The usage of a command, which is the first line of its help.
usage_of() {
    usage=$(help_of "$1" 2>/dev/null) || usage='see mowerbean --help'
    printf '%s\n' "${usage%%"$newline"*}"
}

# --- which word is wrong

# Says in $wrong which word of a command is wrong, or nothing. The program judges them, in any case.
find_wrong() {
    wrong=''
    case ${1-} in
        init) wrong_boxes "$@" ;;
        flag) wrong_flags "$@" ;;
        move) wrong_count 3 3 'BOX ID BOX' "$@" || wrong_box "$2" || wrong_id "$3" || wrong_box "$4" ;;
        append) wrong_count 1 $((MOST_WORDS + 1)) BOX "$@" || wrong_box "$2" ;;
        letter) wrong_count 1 1 N "$@" || wrong_number "$2" ;;
        show) wrong_count 2 2 'BOX ID' "$@" || wrong_box "$2" || wrong_uid "$3" ;;
        dates) wrong_count 1 1 BOX "$@" || wrong_box "$2" ;;
        queue | history) wrong_count 0 0 '' "$@" ;;
        account) wrong_count 0 1 NAME "$@" ;;
        play | sync | report | list | fetch | read | --help | --version) ;;
        *) wrong="no such command: $(printable "${1-}")" ;;
    esac
}

# A word without what a terminal could take as more than a letter, in one line.
printable() {
    printf '%s' "$1" | LC_ALL=C tr '\000-\037\177' '?'
}

# Whether a command has too few words or too many, by how many it has at least and at most, and by their names.
wrong_count() {
    least=$1 most=$2 names=$3
    shift 4
    if [ $# -lt "$least" ]; then
        # shellcheck disable=SC2086  # the names are words
        nth $(($# + 1)) $names
        wrong="$nth is missing"
    elif [ $# -gt "$most" ] && [ "$most" -ge "$MOST_WORDS" ]; then
        wrong="there are more than $MOST_WORDS flags"
    elif [ $# -gt "$most" ]; then
        nth $((most + 1)) "$@"
        wrong="$(printable "$nth") is one word too many"
    else
        return 1
    fi
}

# Puts one of the words into $nth.
nth() {
    shift "$1"
    nth=$1
}

wrong_boxes() {
    shift
    if [ $# -eq 0 ]; then
        wrong='BOX is missing'
    elif [ $# -gt "$MOST_WORDS" ]; then
        wrong="there are more than $MOST_WORDS mailboxes"
    fi
    [ -z "$wrong" ] || return 0
    while [ $# -gt 0 ]; do
        wrong_box "$1" && return
        as_name "$1"
        one=$name
        shift
        for other in "$@"; do
            as_name "$other"
            if [ "$name" = "$one" ]; then
                wrong="the mailbox $one is there twice"
                return
            fi
        done
    done
}

wrong_box() {
    case $1 in
        '') wrong="a mailbox's name is empty" ;;
        *[!\ -~]*) wrong="$(printable "$1") is no mailbox's name: it can have ASCII characters alone" ;;
        *[\"\\\&*%]*) wrong="$1 is no mailbox's name: it can have none of \" \\ & * %" ;;
        *) [ ${#1} -gt "$LONGEST_NAME" ] && wrong="$1 is no mailbox's name: it has more than $LONGEST_NAME bytes" ;;
    esac
    [ -n "$wrong" ]
}

# A mailbox's name as the program takes it: INBOX in any case is one.
as_name() {
    case $1 in
        [Ii][Nn][Bb][Oo][Xx]) name=INBOX ;;
        *) name=$1 ;;
    esac
}

wrong_id() {
    case ${1#d} in
        '' | 0* | *[!0-9]*) ;;
        *) as_number "${1#d}" 4294967295 && return 1 ;;
    esac
    wrong="$(printable "$1") is no ID, which is a UID, or d and an action's number, as list shows it"
}

# A message that is on the server has its text there. That of a dN is a letter that waits.
wrong_uid() {
    case $1 in
        '' | 0* | *[!0-9]*) ;;
        *) as_number "$1" 4294967295 && return 1 ;;
    esac
    wrong="$(printable "$1") is no UID of a message on the server, as list shows it"
    case $1 in
        d*) wrong="$wrong: the letter of action ${1#d} is shown by mowerbean letter ${1#d}" ;;
    esac
}

# Several messages may be asked for, or all that are new.
wrong_fetch() {
    wrong=''
    if [ $# -lt 2 ]; then
        wrong_count 2 2 'BOX ID' fetch "$@"
        return
    fi
    wrong_box "$1" && return
    shift
    if [ "$*" = new ]; then
        return
    fi
    for word in "$@"; do
        wrong_uid "$word" && return
    done
}

wrong_number() {
    case $1 in
        '' | 0* | *[!0-9]*) ;;
        *) as_number "$1" 4294967295 && return 1 ;;
    esac
    wrong="$(printable "$1") is no action's number"
}

wrong_flags() {
    wrong_count 3 $((MOST_WORDS + 3)) 'BOX ID SIGN' "$@" || wrong_box "$2" || wrong_id "$3" || wrong_sign "$4" || [ $# -gt 4 ] ||
        wrong='FLAG is missing'
}

wrong_sign() {
    case $1 in
        + | -) return 1 ;;
    esac
    wrong="$(printable "$1") is no SIGN, which is + or -"
}

# --- flags

# Puts into $flag what a word means as a flag. The five names mean the system's flags. In a shell an unquoted backslash is lost, so what
# differs from a name by its case alone is taken for neither.
as_flag() {
    case $1 in
        seen | flagged | answered | draft | deleted) flag=\\$1 ;;
        [Ss][Ee][Ee][Nn] | [Ff][Ll][Aa][Gg][Gg][Ee][Dd] | [Aa][Nn][Ss][Ww][Ee][Rr][Ee][Dd] | \
            [Dd][Rr][Aa][Ff][Tt] | [Dd][Ee][Ll][Ee][Tt][Ee][Dd])
            stop_words "$1 is no keyword here: the flag is '\\$1' with its quotes, or the name in lower case: $(usage_of "$command")"
            ;;
        *) flag=$1 ;;
    esac
}

# Hands an action in, with its flags for their names: these begin after so many words.
with_flags() {
    plain=$1 left=$(($# - 1)) at=0
    shift
    while [ "$at" -lt "$left" ]; do
        word=$1 at=$((at + 1))
        shift
        if [ "$at" -gt "$plain" ]; then
            as_flag "$word"
            word=$flag
        fi
        set -- "$@" "$word"
    done
    hand_in "$@"
}

# --- mailboxes, as they are shown

# Whether the file of the mailboxes' names can be read.
has_boxes() {
    [ -f "$folder/mowerbean.boxes" ] && [ ! -L "$folder/mowerbean.boxes" ] && [ -r "$folder/mowerbean.boxes" ]
}

# The mailboxes, a name a line.
print_boxes() {
    while IFS= read -r name; do
        as_name "$name"
        printf '%s\n' "$name"
    done <"$folder/mowerbean.boxes"
}

# Puts a mailbox's name as IMAP writes it into $quoted: in quotes, where it has a space.
quote() {
    case $1 in
        *' '*) quoted="\"$1\"" ;;
        *) quoted=$1 ;;
    esac
}

# An action as queue prints it, by the words that were handed in.
as_queued() {
    line=$1
    shift
    for word in "$@"; do
        quote "$word"
        line="$line $quoted"
    done
    printf '%s\n' "$line"
}

# Says which mailboxes there are, where a word of a refused command names none of them.
name_boxes() {
    has_boxes || return 0
    case $1:$# in
        move:4) set -- "$2" "$4" ;;
        flag:* | append:* | list:* | fetch:* | show:* | read:* | dates:*) set -- "$2" ;;
        *) return ;;
    esac
    boxes=$newline$(print_boxes)$newline missing='' all=''
    for word in "$@"; do
        as_name "$word"
        case $boxes in
            *"$newline$name$newline"*) ;;
            *) missing=$name ;;
        esac
    done
    [ -n "$missing" ] || return 0
    while IFS= read -r name; do
        as_name "$name"
        quote "$name"
        all="$all${all:+, }$quoted"
    done <"$folder/mowerbean.boxes"
    say "$missing is none of the journal's mailboxes, which are $all. Nothing was written"
    has_said=yes
}

# --- the queue

# Whether a mailbox's name may have a space.
has_spaces() {
    has_boxes || return 0
    while IFS= read -r name; do
        case $name in
            *' '*) return 0 ;;
        esac
    done <"$folder/mowerbean.boxes"
    return 1
}

# Puts names that have spaces into quotes, in an action as the program prints it. What can be read in several ways stays as it is.
WITH_QUOTES='
    function quoted(name) { return name ~ / / ? "\"" name "\"" : name }
    function is_box(name) { return !has_names || name in boxes }
    function add_box(name) { has_names = 1; boxes[name] }
    function read_as(text) { readings++; reading = text }
    # The mailbox ends before a space, and what follows has the form of the verb.
    function read_end(verb, name, rest) {
        if (verb == "append" && rest ~ /^<[^ ]*>$/ || verb == "flag" && rest ~ /^d?[1-9][0-9]* [+-] /)
            read_as(verb " " quoted(name) " " rest)
        if (verb == "move" && match(rest, /^d?[1-9][0-9]* /) && is_box(substr(rest, RLENGTH + 1)))
            read_as(verb " " quoted(name) " " substr(rest, 1, RLENGTH) quoted(substr(rest, RLENGTH + 1)))
    }
    function with_quotes(action,    verb, at) {
        readings = 0
        verb = substr(action, 1, index(action, " ") - 1)
        for (at = length(verb) + 2; at < length(action); at++)
            if (substr(action, at, 1) == " " && is_box(substr(action, length(verb) + 2, at - length(verb) - 2)))
                read_end(verb, substr(action, length(verb) + 2, at - length(verb) - 2), substr(action, at + 1))
        return readings == 1 ? reading : action
    }
'

# The mailboxes' names for awk, which end with an empty line.
boxes_for_awk() {
    if has_boxes; then
        print_boxes
    fi
    echo
}

# How an action stands, before what it asks for, in a line of queue and of history.
STANDS='/^[0-9]+ (waiting|begun|done( [0-9]+ [0-9]+)?|(nothing|unsure) [a-z-]+( [0-9]+)*) /'

# Prints the queue or the history, with quotes around names that have spaces.
print_actions() {
    if ! has_spaces; then
        run "$1"
        status=$?
        return
    fi
    told=$(run "$1")
    status=$?
    [ -n "$told" ] || return 0
    {
        boxes_for_awk
        printf '%s\n' "$told"
    } | awk "$WITH_QUOTES"'
        !is_after { if ($0 == "") is_after = 1; else add_box($0); next }
        match($0, '"$STANDS"') { $0 = substr($0, 1, RLENGTH) with_quotes(substr($0, RLENGTH + 1)) }
        { print }
    ' 2>/dev/null || status=12
}
