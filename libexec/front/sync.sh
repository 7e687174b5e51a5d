# sync: the Maildir's wishes, a play, the texts that are new, and the Maildir, one behind the other.
# shellcheck shell=sh disable=SC2034,SC2154  # it shares its settings with mowerbean, which reads this file

# The tool of the Maildir, in a checkout or as it is installed.
find_maildir() {
    if [ -f "$top/crates.txt" ]; then
        maildir=$top/contrib/maildir
    else
        maildir=$top/mowerbean-maildir
    fi
    [ -x "$maildir" ] || stop "$NO_PROGRAM" "$maildir is not there: install mowerbean again"
    command -v python3 >/dev/null || stop "$NO_PROGRAM" 'sync wants python3 (3.9 or later), which is not there'
    case $0 in
        */*) self=$0 ;;
        *) self=$(command -v -- "$0") || self=./$0 ;;
    esac
}

# One sync at a time, over all its parts. Other commands go on beside it.
lock_sync() {
    look_at_files
    if command -v flock >/dev/null 2>&1 && writes "$folder/mowerbean.sync"; then
        exec 4>>"$folder/mowerbean.sync"
        flock -n 4 || in_use 'another sync is at work'
    fi
}

# The mailbox to which deleted messages go has to be one of the journal's.
look_at_trash() {
    [ -n "$account_trash" ] || return 0
    as_name "$account_trash"
    account_trash=$name
    while IFS= read -r name; do
        as_name "$name"
        [ "$name" != "$account_trash" ] || return 0
    done <"$folder/mowerbean.boxes"
    bad_setting "trash=$account_trash names none of the journal's mailboxes"
}

# Lets the tool do one part, for all mailboxes of the journal. It asks through this front, and holds no lock of its own there.
run_maildir() {
    part=$1
    shift
    python3 -Es "$maildir" --mowerbean "$self" ${account:+-a "$account"} ${account_trash:+--trash "$account_trash"} "$part" "$@" \
        "$account_maildir" </dev/null 4>&-
}

# Takes those UIDs out of $ids of whose texts link has noted that they are larger than $largest. A note is a line `VALIDITY.UID.BOX SIZE`; the
# play before has taken away those of an older mailbox of the name.
leave_large_out() {
    [ -n "$largest" ] && [ -f "$folder/mowerbean.large" ] || return 0
    ids=$({
        cat "$folder/mowerbean.large"
        printf '\n%s\n' "$ids"
    } | LC_ALL=C awk -v box="$box" -v most="$largest" '
        $0 == "" { is_id = 1; next }
        is_id { if (!($1 in large)) print $1; next }
        {
            size = $NF
            name = substr($0, 1, length($0) - length(size) - 1)
            sub(/^[0-9]+\./, "", name)
            uid = name
            sub(/\..*/, "", uid)
            if (name == uid "." box && size + 0 > most + 0) large[uid]
        }
    ')
}

# The texts that are new of each mailbox. A lost connection ends it, and so does a signal: the next sync goes on from there.
fetch_news() {
    boxes=$(print_boxes)
    while IFS= read -r box && [ "$status" -ne 4 ] && [ -z "$asked$stopped" ]; do
        take_new_ids || break
        leave_large_out
        # shellcheck disable=SC2086  # UIDs
        set -- $ids
        [ $# -eq 0 ] || fetch_these "$@"
        worst_fetch=$((status > worst_fetch ? status : worst_fetch))
    done <<LIST
$boxes
LIST
    worst_fetch=$((status > worst_fetch ? status : worst_fetch))
}

# Carries all out. A part that could not be done to its end keeps the next ones back where they stand on it. The status is that of the play,
# or else the highest of the others.
sync_all() {
    run_maildir wishes || wished=$?
    play "$@"
    played=$status worst_fetch=0
    case $played in
        0 | 1)
            status=0 is_reading=yes many=yes largest=$account_largest
            fetch_news
            run_maildir write --played || written=$?
            ;;
        *) run_maildir write || written=$? ;;
    esac
    status=$played
    for other in "$worst_fetch" "$wished" "$written"; do
        [ "$played" -gt 1 ] || [ "$other" -le "$status" ] || status=$other
    done
}

sync() {
    wished=0 written=0
    retries='' retry_for='' trace='' then_command='' moved=''
    take_play_options "$@"
    if [ $# -gt "$options" ]; then
        shift "$options"
        stop_words "$(printable "$1") is no option of sync: see mowerbean help sync"
    fi
    [ -n "$account_maildir" ] || bad_setting 'sync wants the line maildir=FOLDER in the account'
    has_journal || stop 9 'there is no journal yet: mowerbean init makes one'
    has_boxes || stop "$BAD_ACCOUNT" "$folder/mowerbean.boxes, which init wrote, is not there"
    if [ -n "$account_largest" ]; then
        look_for_link
        [ -n "$with_link" ] || bad_setting "largest= wants the helper link, but $without"
    fi
    look_at_trash
    find_maildir
    lock_sync
    sync_all "$@"
}
