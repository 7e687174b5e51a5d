# play --retry-for: how long it tries again, the pauses between, and what isn't tried again.
# shellcheck shell=sh disable=SC2034,SC2154  # it shares its names with try-front, which reads this file

# Has `sleep` come back at once and leave its seconds in the file `slept`, under a clock that stands.
quick_sleep() {
    rm -f "$work/slept"
    # shellcheck disable=SC2016  # the script's own words
    printf '#!/bin/sh\necho "$1" >>"%s"\n' "$work/slept" >"$work/fakes/sleep"
    printf '#!/bin/sh\necho 1000000000\n' >"$work/fakes/date"
    chmod +x "$work/fakes/sleep" "$work/fakes/date"
}

# The seconds that were slept, but for the second that each wait has more.
slept() {
    awk '{ printf "%s%s", separator, $1 - 1; separator = " " }' "$work/slept" 2>/dev/null
}

retries() {
    folder retries
    quick_sleep
    ends 4 4 4 4 4 4 4 4 0
    MAIL_PAUSE=0 PATH=$work/fakes:$PATH ask play --retry-for 2h
    same '--retry-for plays until it is done' "$status, $(runs)" '0, 9'
    same '  and its pauses grow' "$(slept)" '2 4 8 16 32 60 60 60'
    rm "$work/slept"
    ends 4 4 4 4 0
    MAIL_PAUSE=5 PATH=$work/fakes:$PATH ask play --retry-for 10m
    same "  none is shorter than the account's" "$status, $(slept)" '0, 5 5 8 16'
    rm "$work/slept"
    ends 4 4 4 4 4 0
    # The third play gains something, and is lost too. On a journal that was told anew it leaves the file as long as it was.
    for gained in gained within; do
        printf '%s\n' '' '' "$gained" >"$work/stub/gains"
        MAIL_PAUSE=0 PATH=$work/fakes:$PATH ask play --retry-for 10m
        same "  and they begin anew where a play gained something ($gained)" "$status, $(slept)" '0, 2 4 2 4 8'
        rm "$work/slept"
        ends 4 4 4 4 4 0
    done
    ends 4 4 4 0
    MAIL_PAUSE=0 PATH=$work/fakes:$PATH ask play --retry-for 10m --retry 2
    same '  with --retry too, whichever ends first' "$status, $(slept)" '4, 2 4'
    rm "$work/fakes/sleep" "$work/fakes/date"
    folder retries-end
    ends 4 4 4 4 4 4 4 4
    began=$(date +%s)
    MAIL_PAUSE=0 ask play --retry-for 8s
    same '--retry-for ends when its time is over' "$status, $(($(date +%s) - began < 300)), $(($(runs) >= 1 && $(runs) <= 3))" '4, 1, 1'
    folder retries-last
    quick_sleep
    ends 4 4 4
    # No time goes by in its pauses, so the second one would be of 1200 seconds.
    sed -i 's/^FIRST_GAP=.*/FIRST_GAP=600/; s/^LONGEST_GAP=.*/LONGEST_GAP=4000/' "$work/stub/libexec/mowerbean/front/retry.sh"
    MAIL_PAUSE=0 PATH=$work/fakes:$PATH ask play --retry-for 1000s --retry 2
    cp "$top/libexec/front/retry.sh" "$work/stub/libexec/mowerbean/front/retry.sh"
    same '  its last pause is as long as the time allows' "$(slept | awk '{ print NF, $1, ($2 >= 600 && $2 <= 1000) }')" '2 600 1'
    rm "$work/fakes/sleep" "$work/fakes/date"
    folder retries-wrong
    put_link
    ends 4 4
    link_ends 4 4
    MAIL_PAUSE=0 ask play --retry-for 2h
    same '  at once, where the address is wrong' "$status, $(runs)" '4, 1'
    take_link_away
    folder retries-refused
    ends 5 0
    ask play --retry-for 2h
    same '  and where the server refused' "$status, $(runs)" '5, 1'
    for word in 20 20d 0m m 1.5h 169h 999999999999h ''; do
        ask play --retry-for "$word"
        same "--retry-for '$word'" "$status, $said" '2, error words'
        has '  and why' "$notice" 'such as 90s, 20m or 2h'
    done
}
