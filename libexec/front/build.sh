# For a checkout: proves and builds the program where it isn't built yet or its sources are newer.
# shellcheck shell=sh disable=SC2034,SC2154  # it shares its settings with mowerbean, which reads this file

build() {
    if [ -n "${SUDO_USER-}" ] && [ "$(id -u)" -eq 0 ]; then
        stop "$NO_PROGRAM" 'the program is not built yet, and root would own what is built here: run tools/build as yourself first'
    fi
    command -v rt >/dev/null 2>&1 || stop "$NO_PROGRAM" 'the program is not built, and no Rattle toolchain (rt) is on the path'
    say 'proving and building the program. From nothing this takes long; broken off, it goes on where it stopped'
    "$top/tools/build" </dev/null >&2 || exit "$NO_PROGRAM"
    touch "$program"
}

build_where_older() {
    if [ ! -x "$program" ] ||
        [ -n "$(find "$top/crates" "$top/crates.txt" -name '*.rt' -newer "$program" | head -n 1)" ]; then
        build
    fi
}
