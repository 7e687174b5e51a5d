# When a play is tried again: how often (--retry), for how long (--retry-for), and the pauses between.
# shellcheck shell=sh disable=SC2034,SC2154  # it shares its settings with mowerbean, which reads this file

# The first pause of --retry-for and the longest one, in seconds; and the most that can be asked for, a week.
FIRST_GAP=2
LONGEST_GAP=60
LONGEST_RETRY=604800

# Puts the seconds of 90s, 20m or 2h into $as_seconds.
as_seconds() {
    case $1 in
        *s) times=1 ;;
        *m) times=60 ;;
        *h) times=3600 ;;
        *) return 1 ;;
    esac
    as_number "${1%?}" "$LONGEST_RETRY" || return 1
    as_seconds=$((as_number * times))
    [ "$as_seconds" -gt 0 ] && [ "$as_seconds" -le "$LONGEST_RETRY" ]
}

# Begins to count: $until is when the time is over, and $gap the seconds before the next one.
begin_retries() {
    gap=0 until=''
    if [ -n "$retry_for" ]; then
        signs=$(journal_signs)
        take_moment
        until=$((moment + retry_for * 100))
    fi
}

# The sizes of the journal's files.
journal_sizes() {
    wc -c "$folder/journal.0" "$folder/journal.1" 2>/dev/null
}

# By what a play that gained something is known, as it has recorded it: the journal's files were written. Their sizes don't tell it, as
# a journal that was told anew stands over the bytes of an older one. A play that only tells it anew counts too, and comes once in a row.
journal_signs() {
    journal_sizes
    stat -c '%n %y' "$folder/journal.0" "$folder/journal.1" 2>/dev/null
}

# Puts the pause before the next play into $gap: the first one again, where the last play gained something.
take_gap() {
    signs_before=$signs
    signs=$(journal_signs)
    if [ "$gap" -eq 0 ] || [ "$signs" != "$signs_before" ]; then
        gap=$FIRST_GAP
    else
        gap=$((gap * 2 < LONGEST_GAP ? gap * 2 : LONGEST_GAP))
    fi
}

# Whether --retry and --retry-for leave room for one more play. A wrong address, name or certificate stays wrong.
may_retry() {
    if [ "$retries" = 0 ] || [ "$link_status" -eq 4 ]; then
        return 1
    fi
    if [ -n "$retry_for" ]; then
        take_gap
        take_moment
        rest=$(((until - moment) / 100))
        [ "$rest" -ge "$FIRST_GAP" ] || return 1
        # The last pause is as long as the time allows.
        gap=$((gap < rest ? gap : rest))
    fi
    [ -z "$retries" ] || retries=$((retries - 1))
}
