# What systemd is given, and the notification that its play shows.
# shellcheck shell=sh disable=SC2034,SC2154  # it shares its names with try-front, which reads this file

# Puts the units under the stub's prefix, as install does.
put_units() {
    mkdir -p "$work/units" "$work/stub/share/mowerbean"
    for unit in "$top"/contrib/systemd/*; do
        sed "s|@PREFIX@|$work/stub|g" "$unit" >"$work/units/${unit##*/}"
    done
    cp "$top/contrib/notify" "$top/contrib/save-sent" "$top/contrib/spool.sh" "$work/stub/share/mowerbean"
}

units() {
    put_units
    units_work
    notifications
}

# A command of systemd is none in a folder whose name has a blank.
units_work() {
    case $work in
        *' '*)
            echo "skipped: $work has a blank"
            return
            ;;
    esac
    unit=$work/units/mowerbean@.service
    if command -v systemd-analyze >/dev/null; then
        for each in mowerbean mowerbean-sync; do
            said=$(XDG_RUNTIME_DIR=$work systemd-analyze --user --man=no verify "$work/units/$each@work.service" \
                "$work/units/$each@work.timer" 2>&1)
            same "systemd-analyze verify $each" "$?, $said" '0, '
        done
    fi
    folder played-by-unit
    config "dir=$MAIL_DIR"
    unset MAIL_DIR
    put_link
    line=$(sed -n 's/^ExecStart=//p' "$unit" | sed 's/%i/work/')
    said=$(sh -c "$line" 2>"$work/notice")
    same "the unit's command plays" "$?, $(echo "$said" | head -n 1), $(cat "$work/notice")" '0, words [play], '
    bears
    unit=$work/units/mowerbean-sync@.service
    line=$(sed -n 's/^ExecStart=//p' "$unit" | sed 's/%i/work/')
    said=$(sh -c "$line" 2>"$work/notice")
    same "the other unit's command syncs" "$?, $said, $(cat "$work/notice")" \
        '78, , mowerbean: sync wants the line maildir=FOLDER in the account. Nothing was done'
    bears
    take_link_away
}

# Which statuses the unit takes for no failure.
bears() {
    for ended in 0 1 4 75; do
        case " 0 $(sed -n 's/^SuccessExitStatus=//p' "$unit") " in
            *" $ended "*) same "  and fails not by status $ended" 0 0 ;;
            *) same "  and fails not by status $ended" failed 0 ;;
        esac
    done
}

notifications() {
    printf '#!/bin/sh\necho "$@" >>"%s"\n[ ! -e "%s" ]\n' "$work/shown" "$work/no_desktop" >"$work/fakes/notify-send"
    chmod +x "$work/fakes/notify-send"
    folder notified
    echo INBOX >"$MAIL_DIR/mowerbean.boxes"
    put_lister
    put_lists now 1 '' ''
    put_lists next '1;2' '' '1 nothing message-gone;2 nothing already-so'
    : >"$work/no_desktop"
    PATH=$work/fakes:$PATH ask play --then "'$work/stub/share/mowerbean/notify'"
    same 'a notification that can not be shown' "$status, $(wc -l <"$work/shown" | tr -d ' ')" '0, 1'
    rm "$work/no_desktop" "$work/shown"
    PATH=$work/fakes:$PATH ask play --then "'$work/stub/share/mowerbean/notify'"
    same '  is shown after the next play' "$(cat "$work/shown")" '-a mowerbean -- 2 actions could not be done mowerbean report --new --long'
    PATH=$work/fakes:$PATH ask play --then "'$work/stub/share/mowerbean/notify'"
    same '  once' "$(wc -l <"$work/shown" | tr -d ' ')" 1
    put_lists now 1 '' ''
    put_lists next '1;2' '' ''
    PATH=$work/fakes:$PATH ask play --then "'$work/stub/share/mowerbean/notify'"
    same '  and new messages alone show none' "$(wc -l <"$work/shown" | tr -d ' ')" 1
    said=$(MOWERBEAN_ACCOUNT=work MOWERBEAN_CONFLICTS=1 PATH=$work/fakes:$PATH "$top/contrib/notify"; tail -n 1 "$work/shown")
    same '  of an account' "$said" '-a mowerbean -- One action could not be done mowerbean -a work report --new --long'
    mv "$work/kept" "$work/stub/libexec/mowerbean/mowerbean"
    rm "$work/fakes/notify-send"
}
