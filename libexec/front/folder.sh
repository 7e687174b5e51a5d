# The journal's folder: one run at a time, the files beside the journal, and whether a file there is one of init's.
# shellcheck shell=sh disable=SC2034,SC2154  # it shares its settings with mowerbean, which reads this file

# The front of the journal's magic words, ODMAILJ1 and ODMAILJ2, which follow its first byte.
MAGIC=4f444d41494c4a

# Makes the journal's folder, for its owner alone. Where it can't be made the program says what is wrong.
make_folder() {
    if [ ! -e "$folder" ]; then
        (umask 077 && mkdir -p -- "$folder") 2>/dev/null && chmod 700 "$folder"
    fi
}

has_journal() {
    [ -s "$folder/journal.0" ] || [ -s "$folder/journal.1" ]
}

# Whether a file of the folder may be written. It is made for its owner alone.
writes() {
    (umask 077 && : >>"$1") 2>/dev/null
}

# Puts a line into a file: beside it first, so that a stop or a full disk leaves it as it was.
put_line() {
    if [ -e "$1.new" ] || [ -L "$1.new" ]; then
        rm -f -- "$1.new" 2>/dev/null || return 1
    fi
    if (umask 077 && set -C && printf '%s\n' "$2" >"$1.new") 2>/dev/null && mv -f -- "$1.new" "$1" 2>/dev/null; then
        return 0
    fi
    rm -f -- "$1.new" 2>/dev/null
    return 1
}

# Refuses what isn't a plain file: a link would be followed, and a FIFO would hang.
look_at_files() {
    for name in lock play boxes sent line server shown 'then' sync large maildir; do
        if [ -L "$folder/mowerbean.$name" ] || { [ -e "$folder/mowerbean.$name" ] && [ ! -f "$folder/mowerbean.$name" ]; }; then
            stop "$BAD_ACCOUNT" "$folder/mowerbean.$name is no plain file. Nothing was done: look who put it there, and remove it"
        fi
    done
}

# --- one run at a time

in_use() {
    stop "$IN_USE" "$1 in $folder. Nothing was done: try again later"
}

# A play holds the folder itself locked, beside the lock of each run.
plays_now() {
    flock -n -s "$folder" true 2>/dev/null
    [ $? -eq 1 ]
}

# Tries to get the lock, and knows another run's from one that can't be had.
try_lock() {
    trouble=$(flock "$@" 9 2>&1)
    case $? in
        0) return 0 ;;
        1) return 1 ;;
    esac
    stop "$IN_USE" "no lock can be had in $folder (${trouble#flock: }). Nothing was done: does its file system keep locks?"
}

# Takes the lock, and holds it until this script and what it runs end. It waits for another run up to so many seconds, and
# counts its own turns, as a clock may jump. A play doesn't wait for a play.
take_lock() {
    lock=$folder/mowerbean.lock
    can_lock=
    if [ ! -d "$folder" ]; then
        return
    fi
    look_at_files
    if ! command -v flock >/dev/null 2>&1 || ! writes "$lock"; then
        return
    fi
    can_lock=yes
    exec 9>>"$lock"
    turns=0
    try_lock -n && return
    while [ "$turns" -lt "$1" ]; do
        if plays_now; then
            [ "${2-}" != play ] || in_use 'a play is under way'
            if [ "$turns" -eq 0 ] && [ -z "$quiet" ] && [ -t 2 ]; then
                say "waiting up to $1 seconds, since a play is under way"
            fi
        fi
        turns=$((turns + 1))
        try_lock -w 1 && return
    done
    if plays_now; then
        in_use "a play is under way (waited $turns seconds)"
    fi
    in_use "another run is at work (waited $turns seconds)"
}

leave_lock() {
    if [ -n "$can_lock" ]; then
        exec 9>&-
    fi
}

# --- init

# The bytes of standard input from a place on, as hex digits.
bytes() {
    od -An -v -tx1 -j "$1" -N "$2" 2>/dev/null | tr -d ' \n'
}

# Whether a file counts as a journal: its first byte is open, and its header is whole.
counts() {
    if [ ! -f "$1" ]; then
        return 1
    fi
    head=$(bytes 0 14 <"$1")
    case $head in
        01"$MAGIC"3[12]*) [ "${#head}" -eq 28 ] ;;
        *) return 1 ;;
    esac
}

# Whether one of the two files counts. Then the other one is an older journal, or what a stop left that was telling the journal anew
# there, and no damage.
one_counts() {
    counts "$folder/journal.0" || counts "$folder/journal.1"
}

# Whether a stop inside init may have left this file: its first byte is 0, and then comes a front of the magic word.
left_by_init() {
    head=$(bytes 0 9 <"$1")
    case $head in
        00*) head=${head#00} ;;
        *) return 1 ;;
    esac
    magic=$MAGIC
    while [ -n "$magic" ] && [ "${head%"${head#??}"}" = "${magic%"${magic#??}"}" ]; do
        head=${head#??} magic=${magic#??}
    done
    case $magic$head in
        3[12]) ;;
        *) case $head in *[!0]*) return 1 ;; esac ;;
    esac
    ! lost_its_first_byte "$1"
}

# Whether this is a journal but for its first byte. A closed first byte is what a stop inside init leaves, unless a record stands
# after the first one.
lost_its_first_byte() {
    case $(bytes 1 8 <"$1") in
        "$MAGIC"3[12]) ;;
        *) return 1 ;;
    esac
    case $(bytes 0 1 <"$1") in
        01) return 1 ;;
        00) ;;
        *) return 0 ;;
    esac
    length=$(bytes 14 4 <"$1")
    [ "$(bytes 13 1 <"$1")" = 01 ] && [ "${#length}" -eq 8 ] && [ "$(bytes $((18 + 0x$length)) 1 <"$1")" = 01 ]
}

# Says where a journal is damaged in its first byte alone, as there is a way back.
report_damage() {
    if one_counts; then
        return
    fi
    for file in "$folder/journal.0" "$folder/journal.1"; do
        if [ -f "$file" ] && lost_its_first_byte "$file"; then
            say "$file is a journal whose first byte is damaged: BACKUP has the way back. Don't begin anew"
        fi
    done
}

# Whether a file stands in the way of init: one that holds something, and that neither init nor a stop inside it left. One with
# an open first byte and a whole header is left to the program's judgement, and so is what stands beside a journal.
is_in_the_way() {
    if [ ! -f "$1" ] || [ ! -s "$1" ]; then
        return 1
    fi
    head=$(bytes 0 14 <"$1")
    case $head in
        01*) [ "${#head}" -lt 28 ] ;;
        *) ! left_by_init "$1" ;;
    esac
}

# What was kept of an earlier journal in this folder isn't so of a new one.
forget_journal() {
    for name in server shown large; do
        if [ -e "$folder/mowerbean.$name" ]; then
            rm -f -- "$folder/mowerbean.$name"
        fi
    done
}

init() {
    make_folder
    take_lock "$PATIENCE"
    for file in "$folder/journal.0" "$folder/journal.1"; do
        if [ $# -gt 0 ] && ! one_counts && is_in_the_way "$file"; then
            echo 'error journal header' || exit 12
            lost_its_first_byte "$file" || say "$file is no journal of this program, and stays as it is: move it away"
            status=9
            return
        fi
    done
    run init "$@"
    status=$?
    if [ "$status" -eq 0 ]; then
        put_line "$folder/mowerbean.boxes" "$(printf '%s\n' "$@")"
        forget_journal
    fi
}
