# What ./install says of its words, and who may build.
# shellcheck shell=sh disable=SC2034,SC2154  # it shares its names with try-front, which reads this file

# Runs ./install on these words under a folder of its own, and keeps its last line, what it says on standard error, and its status.
install_on() {
    said=$(cd "$work" && DESTDIR=$work/nowhere "$top/install" "$@" 2>"$work/notice" </dev/null)
    status=$?
    notice=$(cat "$work/notice")
}

install_words() {
    install_on --help
    same 'install --help' "$status, $notice, $(echo "$said" | grep -c '^usage: ./install PREFIX')" '0, , 1'
    same '  is whole' "$(echo "$said" | tail -n 1 | grep -c '\.$')" 1
    while IFS='|' read -r words part; do
        # shellcheck disable=SC2086  # words
        install_on $words
        same "install $words" "$status, $said, $(ls "$work/nowhere" 2>/dev/null)" '2, , '
        has '  and why' "$notice" "install: $part"
        has '    with its usage' "$notice" 'usage: ./install PREFIX'
    done <<CASES
|one PREFIX is wanted
/a /b|one PREFIX is wanted
--uninstall|one PREFIX is wanted
local|a PREFIX begins with /, as in $work/local
./local|a PREFIX begins with /, as in $work/local
--prefix=/a|--prefix=/a is no PREFIX
CASES
    # A checkout in which nothing is built, for somebody who came by sudo.
    tree=$work/by_sudo
    mkdir -p "$tree/crates"
    cp "$top/mowerbean" "$top/install" "$tree"
    cp -R "$top/libexec" "$tree/libexec"
    : >"$tree/crates.txt"
    printf '#!/bin/sh\necho 0\n' >"$work/fakes/id"
    printf '#!/bin/sh\n' >"$work/fakes/rt"
    chmod +x "$work/fakes/id" "$work/fakes/rt"
    said=$(SUDO_USER=ann PATH=$work/fakes:$PATH DESTDIR=$work/nowhere "$tree/install" /usr/local 2>&1)
    same 'root builds nothing by sudo' "$?, $(echo "$said" | grep -c 'run tools/build as yourself first')" '70, 1'
    rm "$work/fakes/id" "$work/fakes/rt"
}

# The Debian package, unpacked into a folder.
packaging() {
    if ! command -v dpkg-deb >/dev/null || ! command -v strip >/dev/null; then
        echo "skipped: dpkg-deb or strip isn't installed"
        return
    fi
    mkdir "$work/deb" "$work/deb_again"
    package=$("$top/tools/package" "$program" "$work/deb")
    same 'package' "$?, ${package##*/}" "0, mowerbean_$("$program" --version | sed 's/.* //; s/-/~/')_$(dpkg --print-architecture).deb"
    again=$("$top/tools/package" "$program" "$work/deb_again")
    same '  the same bytes, made again' "$(cmp "$package" "$again" && echo so)" so
    tree=$work/unpacked
    dpkg-deb -x "$package" "$tree"
    dpkg-deb -e "$package" "$work/control"
    same '  with what its list has' "$(cd "$tree" && md5sum --quiet -c "$work/control/md5sums" 2>&1), $(find "$tree" -type f | wc -l)" \
        ", $(wc -l <"$work/control/md5sums")"
    same '  runs from where it is' "$("$tree/usr/bin/mowerbean" --version)" "$("$program" --version)"
    MAIL_DIR=$work/packaged
    export MAIL_DIR
    said=$("$tree/usr/bin/mowerbean" init INBOX && "$tree/usr/bin/mowerbean" list INBOX && MAIL_SERVER=127.0.0.1:1 "$tree/usr/bin/mowerbean" play 2>"$work/notice")
    same '  also with link' "$?, $said, $(cat "$work/notice")" '4, ready
error link, mowerbean: no connection to 127.0.0.1:1: Connection refused'
    unset MAIL_DIR
    same '  names its place' "$(grep -c '^ExecStart=/usr/bin/mowerbean ' "$tree/usr/lib/systemd/user/mowerbean@.service")" 1
    same '  and nothing of this checkout' "$(grep -rl -e "$top" -e @PREFIX@ "$tree" | wc -l | tr -d ' ')" 0
    same '  has a compressed man page' "$(gzip -dc "$tree/usr/share/man/man1/mowerbean.1.gz" | cmp - "$top/man/mowerbean.1" && echo so)" so
    if command -v lintian >/dev/null; then
        said=$(lintian --allow-root --fail-on error,warning "$package" 2>&1)
        same '  and lintian is content' "$?, $said" '0, '
    fi
}
