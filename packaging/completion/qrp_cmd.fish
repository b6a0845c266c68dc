# Completion for fish: the commands and the flag of qrp_cmd. What is neither is the name of a file. fish takes the options of the tools
# from their manual pages (fish_update_completions).

function __qrp_cmd_words
    count (commandline -opc)
end

complete -c qrp_cmd -n 'test (__qrp_cmd_words) = 1' -f -a check -d 'Say whether the trace proves its result'
complete -c qrp_cmd -n 'test (__qrp_cmd_words) = 1' -f -a trim -d 'Write the trace with only the steps that its proof needs'
complete -c qrp_cmd -n 'test (__qrp_cmd_words) = 1' -f -a format -d 'Write the formula in canonical form'
complete -c qrp_cmd -n '__fish_seen_subcommand_from check trim; and contains (__qrp_cmd_words) 2 4' -l qu -d 'Allow pivots of either quantifier'
