# Completion of mowerbean's words in fish, which quotes what it puts in. IDs are asked of mowerbean itself, which needs no network
# for that.

# The account of the line or an empty word, and the words behind the options of the front. Options of the command aren't counted.
function __mowerbean_line
    set -l words (commandline -opc)[2..]
    set -l account ''
    while set -q words[1]; and set -l found (string match -r '^-[qvA]*([aw]?)(.*)$' -- $words[1])
        set -e words[1]
        if test -n "$found[2]" -a -z "$found[3]"; and set -q words[1]
            set found[3] $words[1]
            set -e words[1]
        end
        test "$found[2]" = a; and set account $found[3]
    end
    while set -q words[2]; and string match -q -- '--*' $words[2]
        contains -- $words[2] --retry --retry-for --then --trace; and set -q words[3]; and set -e words[3]
        set -e words[2]
    end
    printf '%s\n' "$account" $words
end

function __mowerbean_words
    set -l line (__mowerbean_line)
    string join \n -- $line[2..]
end

function __mowerbean_account
    set -l line (__mowerbean_line)
    echo $line[1]
end

# Whether the next word is the one at this place behind the command, where the command is one of these.
function __mowerbean_at
    set -l words (__mowerbean_words)
    test (count $words) -eq $argv[1]; and contains -- "$words[1]" $argv[2..]
end

function __mowerbean_behind
    set -l words (__mowerbean_words)
    test (count $words) -ge $argv[1]; and contains -- "$words[1]" $argv[2..]
end

function __mowerbean_configs
    set -q XDG_CONFIG_HOME; and echo $XDG_CONFIG_HOME/mowerbean; or echo $HOME/.config/mowerbean
end

# The account's option, for what is asked of mowerbean.
function __mowerbean_front
    set -l account (__mowerbean_account)
    test -n "$account"; and printf '%s\n' -a $account
end

function __mowerbean_boxes
    set -l front (__mowerbean_front)
    mowerbean -q $front --boxes 2>/dev/null </dev/null; or echo INBOX
end

function __mowerbean_ids
    set -l words (__mowerbean_words)
    set -l front (__mowerbean_front)
    set -l lines (mowerbean -q $front list $words[2] 2>/dev/null </dev/null); or return
    string replace -r ' ' \t -- $lines
end

# Those of them that are on the server.
function __mowerbean_uids
    __mowerbean_ids | string match -v 'd*'
end

# Those of them whose texts were fetched.
function __mowerbean_kept
    set -l words (__mowerbean_words)
    set -l front (__mowerbean_front)
    set -l lines (mowerbean -q $front dates $words[2] 2>/dev/null </dev/null); or return
    string replace -r ' .*' '' -- $lines
end

# The numbers of the messages that history has. No word in front of an action is a verb.
function __mowerbean_letters
    set -l front (__mowerbean_front)
    mowerbean -q $front history 2>/dev/null </dev/null |
        awk '{ for (i = 3; i <= NF; i++) if ($i ~ /^(flag|move|append)$/) { if ($i == "append") print $1; next } }'
end

complete -c mowerbean -f
complete -c mowerbean -s A -d 'take all accounts'
complete -c mowerbean -s q -d 'explain no status'
complete -c mowerbean -s v -d 'print what is said, for play, sync and fetch'
complete -c mowerbean -s w -x -d 'wait for a play, for flag, move and append'
complete -c mowerbean -s a -x -a '(for file in (__mowerbean_configs)/*.conf; basename $file .conf; end)' -d account
complete -c mowerbean -n '__mowerbean_at 0 ""' -s h -l help -d 'print the help'
complete -c mowerbean -n '__mowerbean_at 0 ""' -s V -l version -d 'print the version'
complete -c mowerbean -n '__mowerbean_at 0 ""' -a 'account init play sync list fetch show read dates flag move append queue report history letter help'
complete -c mowerbean -n '__mowerbean_at 1 help' -a 'account init play sync list fetch show read dates flag move append queue report history letter'
complete -c mowerbean -n '__mowerbean_behind 1 play sync fetch read' -l retry -x -d 'again up to so many times'
complete -c mowerbean -n '__mowerbean_behind 1 play sync fetch read' -l retry-for -x -d 'again for so long, as 20m'
complete -c mowerbean -n '__mowerbean_behind 1 play sync' -l then -x -d 'run this where something came'
complete -c mowerbean -n '__mowerbean_behind 1 play sync fetch read' -l trace -r -d 'keep what is said in a file'
complete -c mowerbean -n '__mowerbean_behind 1 play' -l moved -d 'the account has another server or user'
complete -c mowerbean -n '__mowerbean_behind 1 report' -l long -d 'what was asked for, and a sentence'
complete -c mowerbean -n '__mowerbean_behind 1 report' -l new -d 'what no report has shown'
complete -c mowerbean -n '__mowerbean_behind 1 list' -l long -d 'dates, senders and subjects of the texts that were fetched'
complete -c mowerbean -n '__mowerbean_at 1 list fetch show read dates flag move append' -a '(__mowerbean_boxes)'
complete -c mowerbean -n '__mowerbean_at 2 fetch' -a new
complete -c mowerbean -n '__mowerbean_behind 2 fetch' -a '(__mowerbean_uids)'
complete -c mowerbean -n '__mowerbean_at 2 read' -a '(__mowerbean_uids)'
complete -c mowerbean -n '__mowerbean_at 2 show' -a '(__mowerbean_kept)'
complete -c mowerbean -n '__mowerbean_at 3 move' -a '(__mowerbean_boxes)'
complete -c mowerbean -n '__mowerbean_at 1 letter' -a '(__mowerbean_letters)'
complete -c mowerbean -n '__mowerbean_at 2 flag move' -a '(__mowerbean_ids)'
complete -c mowerbean -n '__mowerbean_at 3 flag' -a '+ -'
complete -c mowerbean -n '__mowerbean_behind 4 flag' -a "seen flagged answered deleted draft '\\Seen' '\\Flagged' '\\Answered' '\\Deleted' '\\Draft'"
complete -c mowerbean -n '__mowerbean_behind 2 append' -a "seen flagged answered deleted draft '\\Seen' '\\Flagged' '\\Answered' '\\Deleted' '\\Draft'"
