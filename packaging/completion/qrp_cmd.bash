# shellcheck shell=bash
# Completion for bash: the commands and the flag of qrp_cmd, the options that a tool's --help has, and the names of files.
# An installed prefix has a link to this file for each tool. To try it: source share/bash-completion/completions/qrp_cmd

# _qrp_words WORDS WORD: those of the words that begin so
_qrp_words() {
    mapfile -t COMPREPLY < <(compgen -W "$1" -- "$2")
}

_qrp_cmd() {
    local word=${COMP_WORDS[COMP_CWORD]} command=${COMP_WORDS[1]}
    COMPREPLY=()
    if [ "$COMP_CWORD" = 1 ]; then
        _qrp_words 'check trim format' "$word"
    elif [[ $word == -* && ($command == check || $command == trim) && ($COMP_CWORD == 2 || $COMP_CWORD == 4) ]]; then
        _qrp_words --qu "$word"
    fi
}

_qrp_tool() {
    local word=${COMP_WORDS[COMP_CWORD]}
    COMPREPLY=()
    [[ $word != -* ]] || _qrp_words "$("$1" --help 2>/dev/null | sed -n 's/^  \(-[a-z], \)\{0,1\}\(--[a-z][a-z-]*\).*/\2/p')" "$word"
}

# What is no word of a command is the name of a file.
complete -o default -F _qrp_cmd qrp_cmd
for _qrp_name in "${BASH_SOURCE[0]%/*}"/qrp-*; do
    [ ! -e "$_qrp_name" ] || complete -o default -F _qrp_tool "${_qrp_name##*/}"
done
unset _qrp_name
