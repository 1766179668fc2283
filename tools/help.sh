# shellcheck shell=bash
# What a script in bash says of itself, its help and its usage: sourced by the scripts, each of which hands over its own path. Those in
# Python have tools/usage.py.
#
# The head comment of a script is its help: a sentence on what it is for; an indented paragraph with its calls, the usage; and what else
# a user has to know.

head_comment() { # SCRIPT
    local line
    while IFS= read -r line; do
        case $line in
        '#!'*) ;;
        '#'*)
            line=${line#'#'}
            printf '%s\n' "${line# }" || return 1
            ;;
        *) return 0 ;;
        esac
    done <"$1"
}

# Ends with the help where --help is the only argument; with 1 where it could not be written.
help_if_asked() { # SCRIPT ARGUMENTS..
    if [ $# = 2 ] && [ "$2" = --help ]; then
        head_comment "$1" || exit 1
        exit 0
    fi
}

# Ends with what is wrong with a call, and the usage.
misused() { # SCRIPT WORDS
    {
        printf '%s: %s\n\n' "${1#"${BASH_SOURCE[0]%/*/*}"/}" "$2"
        head_comment "$1" | awk 'BEGIN { RS = "" } NR == 2'
    } >&2
    exit 2
}
