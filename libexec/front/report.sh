# What became of the actions: the report with its sentences, and which conflicts nobody has seen yet.
# shellcheck shell=sh disable=SC2034,SC2154  # it shares its settings with mowerbean, which reads this file

# The sentences by their kinds. An action is unsure where an earlier play was cut off after it had written down that it would send the
# command: it may have been sent or not.
SENTENCES='
    BEGIN {
        cut = "An earlier play was cut off when it had this command sent or was about to. "
        of["message-gone"] = "The message was not on the server any more. Nothing was done."
        of["already-so"] = "The flags were so already. Nothing was done, and nothing is to do."
        of["flags-changed"] = "Another client changed the message each time this was tried. Nothing was done: look at it, and ask again."
        of["refused-no"] = "The server refused it (NO). Nothing was done: may the mailbox be written, and has it room?"
        of["refused-bad"] = "The server did not take the command (BAD). Nothing was done."
        of["not-permanent"] = "The mailbox does not keep such flags. Nothing was done."
        of["target-unknown"] = "The action that was to make the message ended as a conflict. Nothing was done: see that action."
        of["found-so"] = cut "The flags were then as asked, by you or by another client. Nothing is to do."
        of["store-unsure"] = cut "The message was then changed and its flags were not as asked: look at it, and ask again."
        of["source-gone"] = cut "The message was then not there any more: look for it where it was to go."
        of["gone-after-loss"] = cut "The message was then not there any more. Nothing is to do."
        of["ambiguous"] = cut "Several messages then had this Message-ID: look at the two UIDs, and keep one."
        of["validity-changed"] = "The mailbox was made anew on the server. Nothing was done: look at it, and ask again."
        of["reset-after-loss"] = cut "The mailbox was then made anew on the server: look at it."
    }
'

# --- what was shown

# Puts the number of the last action that a report showed into $shown. That action is in this report, unless the file is odd or belongs to
# another journal: nothing was shown then.
take_shown() {
    shown=0
    if [ -f "$folder/mowerbean.shown" ] && [ ! -L "$folder/mowerbean.shown" ]; then
        IFS= read -r shown 2>/dev/null <"$folder/mowerbean.shown" || shown=0
    fi
    as_number "$shown" 4294967295 || shown=0
    case $newline$1 in
        *"$newline$shown "*) ;;
        *) shown=0 ;;
    esac
}

# Keeps that all of this report was shown. Where it can't be kept it will be shown again.
keep_shown() {
    last=${1##*"$newline"}
    last=${last%% *}
    if as_number "$last" 4294967295 && [ "$last" -gt "$shown" ] && [ ! -d "$folder/mowerbean.shown" ]; then
        put_line "$folder/mowerbean.shown" "$last" || :
    fi
}

# Says on a terminal that there are conflicts, where --new has none to print.
say_shown_before() {
    last=${1##*"$newline"}
    last=${last%% *}
    if [ -n "$is_new" ] && [ -z "$quiet" ] && [ -t 2 ] && as_number "$last" 4294967295 && [ "$last" -le "$shown" ]; then
        say "each conflict was shown before: mowerbean${account:+ -a $account} report --long prints all"
    fi
}

# Says how many conflicts no report has shown, after a play. That explains status 1 as well.
name_unseen() {
    told=$(run report 2>/dev/null) || return 0
    [ -n "$told" ] || return 0
    take_shown "$told"
    unseen=$(printf '%s\n' "$told" | awk -v shown="$shown" '$1 + 0 > shown + 0 { count++ } END { print count + 0 }')
    case $unseen in
        0 | '') return ;;
        1) say "1 conflict not seen yet: mowerbean${account:+ -a $account} report --new --long" ;;
        *) say "$unseen conflicts not seen yet: mowerbean${account:+ -a $account} report --new --long" ;;
    esac
    if [ "$status" -eq 1 ]; then
        has_said=yes
    fi
}

# --- the report

# The words of report. What is no option of it is left to the program.
report() {
    is_long='' is_new='' wrong=''
    while [ $# -gt 0 ]; do
        case $1 in
            --long) is_long=yes ;;
            --new) is_new=yes ;;
            *) break ;;
        esac
        shift
    done
    if [ $# -gt 0 ]; then
        wrong="$(printable "$1") is no option of report"
        judge report "$@"
        return
    fi
    told=$(run report)
    status=$?
    [ -n "$told" ] || return 0
    if [ "$status" -ne 0 ]; then
        printf '%s\n' "$told" || status=12
        return
    fi
    take_shown "$told"
    if print_report 2>/dev/null; then
        say_shown_before "$told"
        keep_shown "$told"
    else
        status=12
    fi
}

# Prints $told, as it was asked for.
print_report() {
    if [ -z "$is_long$is_new" ]; then
        printf '%s\n' "$told"
    elif [ -z "$is_long" ]; then
        printf '%s\n' "$told" | awk -v shown="$shown" '$1 + 0 > shown + 0'
    else
        print_long
    fi
}

# Puts under each line what was asked for, and a sentence. The history says what each action asked for; without it there are the sentences.
print_long() {
    [ -n "$is_new" ] || shown=0
    {
        boxes_for_awk
        run history 2>/dev/null
        printf '\n%s\n' "$told"
    } | awk -v shown="$shown" "$WITH_QUOTES$SENTENCES"'
        $0 == "" { part++; next }
        !part { add_box($0); next }
        part == 1 { if (match($0, '"$STANDS"')) asked[$1] = substr($0, RLENGTH + 1); next }
        $1 + 0 <= shown + 0 { next }
        { print }
        $1 in asked { print "    " with_quotes(asked[$1]) }
        $3 in of { print "    " of[$3] }
    '
}
