# Completions of clickhost for bash. checks/help makes this file from the program's own help; it is not written by hand.
# shellcheck shell=bash disable=SC2207

_clickhost() {
    local word=${COMP_WORDS[COMP_CWORD]} words=
    COMPREPLY=()
    case $COMP_CWORD:${COMP_WORDS[1]} in
        1:-*) words='-h --help --version' ;;
    esac
    COMPREPLY=($(compgen -W "$words" -- "$word"))
    [[ ${COMPREPLY[0]-} != *: ]] || compopt -o nospace 2> /dev/null
}
complete -o default -F _clickhost clickhost
