# Completion for fish: the flags of qrp_strategy, which stand before the files, each once. Any other word is the name of a file.

# Whether no word stands before this one, or the other flag alone.
function __qrp_strategy_after
    set -l words (commandline -opc)[2..-1]
    test (count $words) = 0; or test "$words" = $argv[1]
end

complete -c qrp_strategy -n '__qrp_strategy_after --binary' -l qu -d 'Allow pivots of either quantifier'
complete -c qrp_strategy -n '__qrp_strategy_after --qu' -l binary -d 'Write the binary format of AIGER'
