# Completion for fish: the commands and the flags of qrp_gates. What is neither is the name of a file.

function __qrp_gates_words
    count (commandline -opc)
end

# Whether these words, given as one text, stand before this one.
function __qrp_gates_after
    contains -- (string join -- ' ' (commandline -opc)[2..-1]) $argv
end

complete -c qrp_gates -n 'test (__qrp_gates_words) = 1' -f -a clauses -d 'Write the clauses of the formula of gates'
complete -c qrp_gates -n 'test (__qrp_gates_words) = 1' -f -a check -d 'Say whether the trace proves its result of the clauses'
complete -c qrp_gates -n '__fish_seen_subcommand_from check; and contains (__qrp_gates_words) 2 4' -l qu -d 'Allow pivots of either quantifier'
complete -c qrp_gates -n 'test (__qrp_gates_words) = 1' -f -a strategy -d 'Write the circuit by which the winner wins'
complete -c qrp_gates -n '__qrp_gates_after strategy "strategy --binary"' -l qu -d 'Allow pivots of either quantifier'
complete -c qrp_gates -n '__qrp_gates_after strategy "strategy --qu"' -l binary -d 'Write the binary format of AIGER'
