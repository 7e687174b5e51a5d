# What a play brought, and the command of --then, which is run where it brought something.
# shellcheck shell=sh disable=SC2034,SC2154  # it shares its settings with mowerbean, which reads this file

# What came is what `list` and `report` print after a play and didn't before it. `list` has the waiting actions' effects already, so an
# action that was done as it was asked for makes no difference, but for the message of a dN, which is then there under a UID.

# Makes room for what is printed before and after a play.
begin_news() {
    new=0 changed=0 gone=0 conflicts=0 has_news='' is_marked='' lists=''
    if [ -n "$then_command$verbose" ]; then
        lists=$(mktemp -d) || stop "$NO_PROGRAM" 'no folder for temporary files can be made. Nothing was played'
        trap 'rm -rf "$lists"' EXIT
    fi
}

# Keeps what `list` and `report` print now, or fails. The mailboxes' names are those that init kept.
keep_lists() {
    mkdir "$lists/$1" && run report >"$lists/$1/report" && [ -f "$folder/mowerbean.boxes" ] || return
    count=0
    while IFS= read -r box; do
        count=$((count + 1))
        run list "$box" >"$lists/$1/$count" </dev/null || return
    done <"$folder/mowerbean.boxes"
} 2>/dev/null

# Before a play.
look_before() {
    if [ -z "$lists" ]; then
        return
    fi
    rm -rf "$lists/before" "$lists/after"
    can_look=''
    ! keep_lists before || can_look=yes
    if [ -n "$then_command" ] && [ -z "$is_marked" ]; then
        mark_command
        is_marked=yes
    fi
}

# Marks that the command may have to be run, by how many lines the report has that it was told of. A mark that is there is of a play
# that was cut off, or of a command that failed: it is run after this play.
mark_command() {
    known='' lines=$(report_lines before)
    lines=${lines:-0}
    if [ -e "$folder/mowerbean.then" ]; then
        has_news=yes
        read -r known <"$folder/mowerbean.then"
        as_number "$known" "$lines" && conflicts=$((lines - as_number))
    else
        put_line "$folder/mowerbean.then" "$lines"
    fi
}

report_lines() {
    wc -l 2>/dev/null <"$lists/$1/report" | tr -d ' '
}

# After a play. One that was stopped at once leaves its news to the next one.
look_after() {
    if [ -z "$lists" ] || [ -n "$stopped" ]; then
        return
    fi
    if [ -n "$can_look" ] && keep_lists after; then
        count=0
        while IFS= read -r box; do
            count=$((count + 1))
            # shellcheck disable=SC2046  # three numbers
            take_news "$box" $(compare_lists "$count")
        done <"$folder/mowerbean.boxes"
        take_conflicts
    else
        # Nothing says that nothing came.
        case $status in
            [01]) has_news=yes ;;
        esac
    fi
}

# Prints how many messages of a mailbox are new, changed and gone.
compare_lists() {
    awk '
        { id = $1; rest = $0; sub(/^[^ ]* [^ ]* ?/, "", rest) }
        FILENAME == ARGV[1] { before[id] = rest; next }
        FILENAME == ARGV[2] { conflict["d" id]; next }
        { after[id] }
        id in before { changed += before[id] != rest; next }
        id !~ /^d/ { new++ }
        END {
            for (id in before)
                if (!(id in after)) {
                    if (id !~ /^d/) gone++
                    else if (!(id in conflict)) landed++
                }
            new -= landed
            print (new > 0 ? new : 0), changed + 0, gone + 0
        }
    ' "$lists/before/$1" "$lists/after/report" "$lists/after/$1"
}

# Counts what came to a mailbox, and says it in a log.
take_news() {
    if [ "$2$3$4" = 000 ]; then
        return
    fi
    new=$((new + $2)) changed=$((changed + $3)) gone=$((gone + $4)) has_news=yes
    [ -z "$verbose" ] || say "$1: $2 new, $3 changed, $4 gone"
}

take_conflicts() {
    more=$(($(report_lines after) - $(report_lines before)))
    if [ "$more" -gt 0 ]; then
        conflicts=$((conflicts + more)) has_news=yes
    fi
}

# Runs the command of --then where something came. What it prints goes to standard error, as standard output is for play's line.
end_news() {
    [ -z "$lists" ] || rm -rf "$lists"
    if [ -z "$then_command" ] || [ -n "$stopped" ]; then
        return
    fi
    if [ -n "$has_news" ]; then
        MOWERBEAN_ACCOUNT=${file:+${account:-default}} MOWERBEAN_NEW=$new MOWERBEAN_CHANGED=$changed MOWERBEAN_GONE=$gone \
            MOWERBEAN_CONFLICTS=$conflicts sh -c "$then_command" </dev/null >&2
        code=$?
        if [ "$code" -ne 0 ]; then
            say "the command of --then ended with status $code, and is run again after the next play --then"
            return
        fi
    fi
    rm -f -- "$folder/mowerbean.then"
}
