# Completion of mowerbean's words in bash. Mailboxes and IDs are asked of mowerbean itself, which needs no network for that.

_mowerbean_boxes() {
    mowerbean -q "${_mowerbean_front[@]}" --boxes 2>/dev/null </dev/null || echo INBOX
}

# The first word of each line of list. After a refusal there is none. The mailbox stands in the line with its quotes.
_mowerbean_ids() {
    local lines box=${1//[\\\'\"]/}
    lines=$(mowerbean -q "${_mowerbean_front[@]}" list "$box" 2>/dev/null </dev/null) && cut -d ' ' -f 1 <<<"$lines"
}

# Those of them that are on the server.
_mowerbean_uids() {
    _mowerbean_ids "$1" | grep -v '^d'
}

# Those of them whose texts were fetched.
_mowerbean_kept() {
    local lines box=${1//[\\\'\"]/}
    lines=$(mowerbean -q "${_mowerbean_front[@]}" dates "$box" 2>/dev/null </dev/null) && cut -d ' ' -f 1 <<<"$lines"
}

# The numbers of the messages that history has. No word in front of an action is a verb.
_mowerbean_letters() {
    mowerbean -q "${_mowerbean_front[@]}" history 2>/dev/null </dev/null |
        awk '{ for (i = 3; i <= NF; i++) if ($i ~ /^(flag|move|append)$/) { if ($i == "append") print $1; next } }'
}

# Offers the words that begin with what was typed. Each is quoted, since a mailbox may be named like a command of the shell.
_mowerbean_offer() {
    local typed=$1 each quoted
    shift
    for each in "$@"; do
        quoted=$(printf '%q' "$each")
        if [[ $typed == \'* ]]; then
            [[ $each != *\'* && \'$each == "$typed"* ]] && COMPREPLY+=("$each")
        elif [[ -n $each && $typed != '"'* ]] && [[ $each == "$typed"* || $quoted == "$typed"* ]]; then
            COMPREPLY+=("$quoted")
        fi
    done
}

_mowerbean_accounts() {
    local file
    for file in "${XDG_CONFIG_HOME:-$HOME/.config}"/mowerbean/*.conf; do
        [[ -e $file ]] && basename "$file" .conf
    done
}

# The words that may stand after these ones of the line, options left out.
_mowerbean_next() {
    case ${COMP_WORDS[COMP_CWORD]}:${1-} in
        -*:list) words=(--long) && return ;;
        -*:fetch | -*:read) words=(--retry --retry-for --trace) && return ;;
    esac
    case $#:${1-} in
        0:*) words=(account init play sync list fetch show read dates flag move append queue report history letter help --help --version -a -A -q -v -w -h -V) ;;
        *:play) words=(--retry --retry-for --then --trace --moved) ;;
        *:sync) words=(--retry --retry-for --then --trace) ;;
        *:report) words=(--new --long) ;;
        1:help) words=(account init play sync list fetch show read dates flag move append queue report history letter) ;;
        1:letter) mapfile -t words < <(_mowerbean_letters) ;;
        1:list | 1:fetch | 1:show | 1:read | 1:dates | 1:flag | 1:move | 1:append | 3:move) mapfile -t words < <(_mowerbean_boxes) ;;
        2:fetch) mapfile -t words < <(echo new && _mowerbean_uids "$2") ;;
        [3-9]:fetch | 2:read) mapfile -t words < <(_mowerbean_uids "$2") ;;
        2:show) mapfile -t words < <(_mowerbean_kept "$2") ;;
        2:flag | 2:move) mapfile -t words < <(_mowerbean_ids "$2") ;;
        3:flag) words=(+ -) ;;
        [4-9]:flag | [2-9]:append) words=(seen flagged answered deleted draft '\Seen' '\Flagged' '\Answered' '\Deleted' '\Draft') ;;
    esac
}

_mowerbean() {
    local at value
    local -a _mowerbean_front=() plain=() words=()
    COMPREPLY=()
    for ((at = 1; at < COMP_CWORD; at++)); do
        if [[ ${COMP_WORDS[at]} =~ ^-[qvhVA]*([aw])(.*)$ ]]; then
            value=${BASH_REMATCH[2]}
            if [[ -z $value ]] && ((++at < COMP_CWORD)); then
                value=${COMP_WORDS[at]}
            fi
            if [[ ${BASH_REMATCH[1]} == a ]]; then
                _mowerbean_front=(-a "$value")
            fi
        elif [[ ${COMP_WORDS[at]} =~ ^--(retry|retry-for|then|trace)$ ]]; then
            ((++at))
        elif [[ ${COMP_WORDS[at]} != -?* ]]; then
            plain+=("${COMP_WORDS[at]}")
        fi
    done
    if ((at == COMP_CWORD)); then
        _mowerbean_next "${plain[@]}"
    elif [[ ${_mowerbean_front[0]-} == -a && -z ${_mowerbean_front[1]-} ]]; then
        mapfile -t words < <(_mowerbean_accounts)
    fi
    _mowerbean_offer "${COMP_WORDS[COMP_CWORD]}" "${words[@]}"
}

complete -F _mowerbean mowerbean
