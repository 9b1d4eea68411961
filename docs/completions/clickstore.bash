# Completions of clickstore for bash. checks/help makes this file from the program's own help; it is not written by hand.
# shellcheck shell=bash disable=SC2207

_clickstore() {
    local word=${COMP_WORDS[COMP_CWORD]} words=
    COMPREPLY=()
    case $COMP_CWORD:${COMP_WORDS[1]} in
        1:-*) words='-h --help --version' ;;
        2:-h | 2:--help | 2:help | 3:*) words='format session inspect demo publish' ;;
    esac
    if [ "$COMP_CWORD" -gt 3 ]; then
        case ${COMP_WORDS[3]}:$COMP_CWORD in
            format:4) words='--blocks' ;;
            format:6) words='--half' ;;
            session:4) words='--boot' ;;
            session:6) words='--now' ;;
            inspect:4) words='deployment application' ;;
            publish:*)
                case ${COMP_WORDS[COMP_CWORD - 1]} in
                    --name | --release | --entry | --from | --to | --publisher | --minimum | --check | --provider) ;;
                    *) words='--name --release --entry --from --to --publisher --minimum --check --provider --plain data: group:' ;;
                esac
                ;;
        esac
    fi
    COMPREPLY=($(compgen -W "$words" -- "$word"))
    [[ ${COMPREPLY[0]-} != *: ]] || compopt -o nospace 2> /dev/null
}
complete -o default -F _clickstore clickstore
