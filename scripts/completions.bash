# shellcheck shell=bash
# Completes the words of ./ledgerd in bash:
#
#     . scripts/completions.bash

_ledgerd_commands() {
    echo step run verify extract replay upgrade receipt join check asof gen
}

# The options of a command.
_ledgerd_options() {
    case $1 in
        step | run) echo --save --from --block-size --clock --database --help ;;
        verify) echo --coverage --workers --help ;;
        receipt) echo --save --table --event --help ;;
        replay | upgrade | join) echo --save --help ;;
        asof) echo --digests --help ;;
        *) echo --help ;;
    esac
}

# Whether what is given to an option is no file that stands.
_ledgerd_takes_no_file() {
    case $1 in
        --save | --block-size | --clock | --database | --workers | --table | --event) return 0 ;;
    esac
    return 1
}

_ledgerd() {
    local folder=. width word=${COMP_WORDS[COMP_CWORD]}
    # (the words behind --quiet and -C FOLDER are completed as if these weren't there)
    while [ "$COMP_CWORD" -gt 1 ]; do
        case ${COMP_WORDS[1]} in
            --quiet) width=1 ;;
            -C) width=2 ;;
            *) break ;;
        esac
        if [ "$COMP_CWORD" = "$width" ]; then
            # (the folder itself)
            mapfile -t COMPREPLY < <(compgen -d -- "$word" | sort)
            return
        fi
        [ "$width" = 1 ] || folder=${COMP_WORDS[2]}
        COMP_WORDS=("${COMP_WORDS[0]}" "${COMP_WORDS[@]:width+1}")
        COMP_CWORD=$((COMP_CWORD - width))
    done
    if [ "$COMP_CWORD" = 1 ]; then
        case $word in
            -*) mapfile -t COMPREPLY < <(compgen -W '--help --version --quiet -C' -- "$word") ;;
            *) mapfile -t COMPREPLY < <(compgen -W "$(_ledgerd_commands) help" -- "$word") ;;
        esac
    elif [ "${COMP_WORDS[1]}" = help ]; then
        mapfile -t COMPREPLY < <(compgen -W "$(_ledgerd_commands)" -- "$word")
    elif [[ $word = -* ]]; then
        mapfile -t COMPREPLY < <(compgen -W "$(_ledgerd_options "${COMP_WORDS[1]}")" -- "$word")
    elif _ledgerd_takes_no_file "${COMP_WORDS[COMP_CWORD - 1]}"; then
        COMPREPLY=()
    else
        mapfile -t COMPREPLY < <(cd "$folder" 2>/dev/null && compgen -f -- "$word" | sort)
    fi
}

complete -F _ledgerd ledgerd ./ledgerd ../ledgerd
