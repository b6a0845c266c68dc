# shellcheck shell=bash
# Completion for bash: the commands and the flags of qrp_gates, and the names of files.
# To try it: source share/bash-completion/completions/qrp_gates

_qrp_gates() {
    local word=${COMP_WORDS[COMP_CWORD]} flags
    COMPREPLY=()
    if [ "$COMP_CWORD" = 1 ]; then
        mapfile -t COMPREPLY < <(compgen -W 'clauses check strategy' -- "$word")
    elif [[ $word == -* && ${COMP_WORDS[1]} == check && ($COMP_CWORD == 2 || $COMP_CWORD == 4) ]]; then
        mapfile -t COMPREPLY < <(compgen -W --qu -- "$word")
    elif [[ $word == -* ]]; then
        case ${COMP_WORDS[*]:1:COMP_CWORD-1} in
        strategy) flags='--binary --qu' ;;
        'strategy --qu') flags=--binary ;;
        'strategy --binary') flags=--qu ;;
        *) return ;;
        esac
        mapfile -t COMPREPLY < <(compgen -W "$flags" -- "$word")
    fi
}

# What is no word of a command is the name of a file.
complete -o default -F _qrp_gates qrp_gates
