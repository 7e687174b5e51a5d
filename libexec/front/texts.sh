# The texts that are kept for reading without a network: fetch, show, read, and the rows of list --long.
# shellcheck shell=sh disable=SC2034,SC2154  # it shares its settings with mowerbean, which reads this file

# --- fetch

# Lets the program get one message, after the pause of a play that lost its connection. A fetch asks questions alone, so it leaves no
# command behind that the server may still carry out; but the play before it may have.
fetch_once() {
    wait_for_turn
    look_at_server
    write_mark begun || no_mark
    show_place "$1"
    play_to_the_end fetch "$box" "$1" >"$said"
    take_status
    # Link left the text out for its size, and has said so.
    if [ "$status" -eq 4 ] && [ "$link_status" -eq 6 ]; then
        status=0
        : >"$said"
    fi
    case $status in
        4) write_mark "lost $(date +%s)" ;;
        *) write_mark ended ;;
    esac
    leave_lock
    print_said "$1"
}

# How far it is, on a terminal, where there are several messages.
show_place() {
    if [ "$count" -gt 1 ] && [ -z "$quiet$verbose" ] && [ -t 2 ]; then
        printf '\r\033[K%s of %s' "$at" "$count" >&2
    fi
}

# Prints the program's line; of several messages the ID stands before it.
print_said() {
    [ "$count" -eq 1 ] || [ -n "$verbose" ] || clear_line
    line=$(cat "$said")
    if [ -n "$line" ]; then
        if [ -n "$many" ]; then
            quote "$box"
            line="$quoted $1 $line"
        elif [ "$count" -gt 1 ]; then
            line="$1 $line"
        fi
        printf '%s\n' "$line" 2>/dev/null || status=12
    fi
}

# Gets one message, as often as --retry and --retry-for have it.
fetch_one() {
    gap=0
    fetch_once "$1"
    while [ "$status" -eq 4 ] && [ -z "$asked" ] && may_retry; do
        explain "$status"
        fetch_once "$1"
    done
}

# Gets these messages, one after another. What can't be had of one (it is gone, say) keeps none of the others back. Without a connection,
# a disk or a server that goes on, what was got before is kept.
fetch_all() {
    said=$(mktemp) || stop "$NO_PROGRAM" 'no temporary file can be made. Nothing was fetched'
    trap 'rm -f "$said"' EXIT
    count=$# at=0 worst=0
    for id in "$@"; do
        at=$((at + 1))
        fetch_one "$id"
        worst=$((status > worst ? status : worst))
        case $status in
            0 | 10) ;;
            *) break ;;
        esac
    done
    rm -f "$said"
    status=$worst
}

# Puts what list and dates print of $box into $told and $dates, or prints why there is none, and fails.
take_rows() {
    told=$(run list "$box")
    status=$?
    if [ "$status" -eq 0 ]; then
        dates=$(run dates "$box")
        status=$?
        [ "$status" -ne 0 ] || return 0
        told=$dates
    fi
    [ -z "$told" ] || printf '%s\n' "$told" || status=12
    return 1
}

# Puts into $ids the UIDs of the mailbox that have no text yet, as list shows them. Else the program has said why.
take_new_ids() {
    take_rows || return 1
    ids=$(printf '%s\n\n%s\n' "$dates" "$told" | awk '
        $0 == "" { is_list = 1; next }
        !is_list { kept[$1]; next }
        $1 ~ /^[0-9]+$/ && !($1 in kept) { print $1 }
    ')
}

# The words of fetch and of read. How many of them are options is left in $options.
take_fetch_options() {
    retries='' retry_for='' trace='' then_command='' at_once='' moved=''
    take_play_options "$@"
    [ -z "$then_command$moved" ] || stop_words '--then and --moved are for play: see mowerbean help fetch'
    [ -n "$retries$retry_for" ] || retries=0
}

# What is the same for all messages of one fetch.
begin_fetch() {
    is_reading=yes
    take_play_settings
    look_at_server
    choose_link
    ask_password
    trap 'signalled INT' INT
    trap 'signalled TERM' TERM
    trap 'signalled HUP' HUP
    begin_retries
}

# Gets the messages of $box with these IDs.
fetch_these() {
    if ! has_journal; then
        # The program says what is wrong. It is given no server and no password.
        MAIL_SERVER='' "$program" fetch "$box" "$1"
        status=$?
        return
    fi
    begin_fetch
    fetch_all "$@"
    trap - INT TERM HUP
}

fetch() {
    take_fetch_options "$@"
    shift "$options"
    wrong_fetch "$@"
    if [ -n "$wrong" ]; then
        judge fetch "$@"
        return
    fi
    box=$1
    shift
    if [ "$1" = new ]; then
        take_new_ids || return 0
        # shellcheck disable=SC2086  # UIDs
        set -- $ids
    fi
    if [ $# -gt 0 ]; then
        fetch_these "$@"
    elif [ -z "$quiet" ] && [ -t 2 ]; then
        say "each message of $box has its text here"
    fi
}

# --- show, and read

# A text as a terminal may have it: without what a terminal could take as more than a letter.
visible() {
    LC_ALL=C tr -d '\r' | LC_ALL=C tr '\000-\010\013-\037\177' '?'
}

# Shows a text: byte for byte, but on a terminal, where PAGER has it, if it is set.
show() {
    if [ ! -t 1 ]; then
        run show "$@"
        status=$?
        return
    fi
    run show "$@" >/dev/null
    status=$?
    if [ "$status" -ne 0 ]; then
        run show "$@"
        status=$?
    elif [ -n "${PAGER-}" ]; then
        run show "$@" | visible | sh -c "$PAGER"
    else
        run show "$@" | visible
    fi
}

# Whether the message has no text here yet.
is_not_kept() {
    [ "$(run show "$1" "$2" | head -c 20 | tr -d '\000')" = 'refused not-kept' ]
}

# Shows a text, which is got first where it isn't here. The line of fetch goes to standard error, as standard output is for the text.
read_text() {
    take_fetch_options "$@"
    shift "$options"
    wrong=''
    wrong_count 2 2 'BOX ID' read "$@" || wrong_box "$1" || wrong_uid "$2"
    if [ -n "$wrong" ]; then
        wrong="$wrong: $(usage_of read)"
        stop_words "$wrong"
    fi
    box=$1
    if is_not_kept "$@"; then
        fetch_these "$2" >&2
        [ "$status" -eq 0 ] || return
    fi
    show "$@"
}

# --- list --long

list() {
    is_long='' box='' left=$#
    while [ "$left" -gt 0 ]; do
        word=$1 left=$((left - 1))
        shift
        if [ "$word" = --long ]; then
            is_long=yes
        else
            set -- "$@" "$word"
        fi
    done
    wrong_count 1 1 BOX list "$@" || wrong_box "$1"
    if [ -n "$wrong" ]; then
        judge list "$@"
    elif [ -z "$is_long" ]; then
        run list "$1"
        status=$?
    else
        box=$1
        list_long
    fi
}

# Prints the rows of $box with what its kept texts tell.
list_long() {
    take_rows || return 0
    [ -n "$told" ] || return 0
    take_width
    print_headings 2>/dev/null || status=12
}

# Puts the terminal's width into $width, or 0 where there is none.
take_width() {
    width=0
    if [ -t 1 ]; then
        size=$(stty size <&1 2>/dev/null)
        as_number "${COLUMNS:-${size#* }}" 10000 && width=$as_number
    fi
}

# The rows with tabs between what they have: the ID, the flags, and of a kept text the date, From and Subject. The program says of which
# messages there are texts. Its files are read at once, where only one can be meant, as it would read its journal for each.
# shellcheck disable=SC2016  # the names are those of the shell that awk starts
ROWS='
    function file_of(uid) { return uid in files ? files[uid] : "" }
    function unfolded(text) { gsub(/[\t ]+/, " ", text); sub(/^ /, "", text); sub(/ $/, "", text); return text }
    function take_line(line) {
        sub(/\r$/, "", line)
        if (line ~ /^[ \t]/) { if (field != "") heads[field] = heads[field] line; return }
        field = match(line, /^[!-9;-~]+[ \t]*:/) ? tolower(substr(line, 1, RLENGTH - 1)) : ""
        sub(/[ \t]+$/, "", field)
        if (field in heads || field != "from" && field != "subject") field = ""
        else heads[field] = substr(line, RLENGTH + 1)
    }
    # The head of a message ends with an empty line.
    function take_head(uid,    file, line, command) {
        split("", heads)
        field = ""
        file = file_of(uid)
        command = "exec \"$MOWERBEAN_PROGRAM\" show \"$MOWERBEAN_BOX\" " uid
        if (file != "")
            while ((getline line <file) > 0 && line != "\r" && line != "") take_line(line)
        else
            while ((command | getline line) > 0 && line != "\r" && line != "") take_line(line)
        close(file != "" ? file : command)
    }
    part == 0 {
        if ($0 == "") { part = 1; next }
        uid = $0
        sub(/^[0-9]+\./, "", uid)
        if (substr(uid, index(uid, ".") + 1) == name && $0 ~ /^[0-9]+\.[0-9]+\./) {
            uid = substr(uid, 1, index(uid, ".") - 1)
            # In mawk files[uid] would be there already as the right side is looked at.
            is_second = uid in files
            files[uid] = is_second ? "" : folder "/" $0
        }
        next
    }
    part == 1 { if ($0 == "") part = 2; else dates[$1] = $2; next }
    {
        id = flags = $0
        sub(/ .*/, "", id)
        sub(/^[^ ]* [^ ]* ?/, "", flags)
        if (!(id in dates)) { print id "\t" flags; next }
        take_head(id)
        print id "\t" flags "\t" dates[id] "\t" unfolded(heads["from"]) "\t" unfolded(heads["subject"])
    }
'

# Where there is no python3: dates in UTC, and the header fields as they stand.
# shellcheck disable=SC2016  # awk's own
PLAIN_ROWS='
    function two(n) { return n < 10 ? "0" n : n }
    # By the days since 1970, of years that begin with March.
    function day_of(days,    era, of_era, year, of_year, month) {
        days += 719468
        era = int((days >= 0 ? days : days - 146096) / 146097)
        of_era = days - era * 146097
        year = int((of_era - int(of_era / 1460) + int(of_era / 36524) - int(of_era / 146096)) / 365)
        of_year = of_era - (365 * year + int(year / 4) - int(year / 100))
        month = int((5 * of_year + 2) / 153)
        return year + era * 400 + (month > 9) "-" two(month < 10 ? month + 3 : month - 9) "-" two(of_year - int((153 * month + 2) / 5) + 1)
    }
    function date_of(seconds,    days, rest) {
        if (seconds == "-") return sprintf("%17s", "")
        days = int(seconds / 86400)
        if (days * 86400 > seconds) days--
        rest = seconds - days * 86400
        return day_of(days) " " two(int(rest / 3600)) ":" two(int(rest % 3600 / 60)) "Z"
    }
    # What a cut left of a letter of several bytes goes too.
    function cut(text, most) {
        if (length(text) <= most) return text
        text = substr(text, 1, most > 0 ? most : 0)
        sub(/[\300-\377][\200-\277]*$/, "", text)
        return text
    }
    BEGIN { FS = "\t" }
    {
        end = $2 == "" ? "" : "  " $2
        if (NF < 3) line = $1 end
        else {
            line = $1 "  " date_of($3) "  " $4 "  " $5
            line = (width ? cut(line, width - length(end)) : line) end
        }
        gsub(/[\001-\037\177]/, "?", line)
        print width ? cut(line, width) : line
    }
'

print_headings() {
    as_name "$box"
    file_name=$(printf '%s' "$name" | tr / %)
    {
        ls -- "$folder/bodies" 2>/dev/null
        printf '\n%s\n' "$dates${dates:+$newline}"
        printf '%s\n' "$told"
    } | MOWERBEAN_PROGRAM=$program MOWERBEAN_BOX=$box LC_ALL=C awk -v folder="$folder/bodies" -v name="$file_name" "$ROWS" | {
        if python3 -c '' </dev/null >/dev/null 2>&1; then
            python3 -Es "$libexec/headings" "$width"
        else
            LC_ALL=C awk -v width="$width" "$PLAIN_ROWS"
        fi
    }
}
