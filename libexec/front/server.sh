# Which account a journal is played with: it is kept beside the journal, so that no other one gets what was meant for it.
# shellcheck shell=sh disable=SC2034,SC2154  # it shares its settings with mowerbean, which reads this file

# Refuses another account than the one that the journal knows, unless the user says that it moved.
look_at_server() {
    who=${MAIL_USER-}@$address known=''
    if [ -f "$folder/mowerbean.server" ] && [ ! -L "$folder/mowerbean.server" ]; then
        IFS= read -r known 2>/dev/null <"$folder/mowerbean.server"
    fi
    if [ -n "$known" ] && [ "$known" != "$who" ] && [ -z "$moved" ]; then
        stop "$BAD_ACCOUNT" "the journal in $folder was played as $known, and not as $who. Nothing was played. If it is the same account at another place: mowerbean${account:+ -a $account} play --moved"
    fi
}

# Keeps the account, under the lock. In $unknown stand the sizes of a journal that knew none before. One that was told anew on its other
# file was played before: then the account is kept whatever this play brings, since the sizes tell nothing any more.
keep_server() {
    unknown=''
    look_at_server
    if [ "$known" = "$who" ]; then
        return
    fi
    if [ -z "$known" ] && [ ! -s "$folder/journal.1" ]; then
        unknown=$(journal_sizes)
    fi
    put_line "$folder/mowerbean.server" "$who"
}

# After a play that got nothing from the server the account isn't kept: it may have been mistyped. A journal grows with all that a play
# learns or sends.
forget_server() {
    if [ -n "$unknown" ] && [ "$unknown" = "$(journal_sizes)" ]; then
        rm -f -- "$folder/mowerbean.server"
    fi
}
