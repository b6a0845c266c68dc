# shellcheck shell=bash
# Completion for bash: the flags of qrp_strategy, which stand before the files, each once; and the names of files.
# To try it: source share/bash-completion/completions/qrp_strategy

_qrp_strategy() {
    local word=${COMP_WORDS[COMP_CWORD]} flags
    COMPREPLY=()
    case ${COMP_WORDS[*]:1:COMP_CWORD-1} in
    '') flags='--binary --qu' ;;
    --qu) flags=--binary ;;
    --binary) flags=--qu ;;
    *) return ;;
    esac
    [[ $word != -* ]] || mapfile -t COMPREPLY < <(compgen -W "$flags" -- "$word")
}

# Any other word is the name of a file.
complete -o default -F _qrp_strategy qrp_strategy
