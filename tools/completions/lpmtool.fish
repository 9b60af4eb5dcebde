# Completion of lpmtool for fish: its commands, the options of a command, and as many files as it wants.

# Whether the word is one of the first so many operands of this command.
function __lpmtool_wants_file -a name most
    set -l command
    set -l operands 0
    set -l is_value
    set -l is_end
    for word in (commandline -opc)[2..]
        if test -n "$is_value"
            set is_value
        else if test -z "$command"
            set command $word
        else if test -n "$is_end"; or not string match -q -- '-?*' $word
            set operands (math $operands + 1)
        else if test "$word" = --
            set is_end yes
        else if not string match -q -- '*=*' $word; and not contains -- $word --stuck --help -h
            set is_value yes
        end
    end
    test "$command" = $name -a $operands -lt $most -a -z "$is_value"
end

set -l commands lookup explain apply report storm migrate
set -l tables lookup apply report storm

complete -c lpmtool -f
complete -c lpmtool -n 'not __fish_seen_subcommand_from help' -s h -l help -d 'Print help'
complete -c lpmtool -n __fish_use_subcommand -s V -l version -d 'Print the version'

complete -c lpmtool -n __fish_use_subcommand -a lookup -d 'Print the next hop of each address'
complete -c lpmtool -n __fish_use_subcommand -a explain -d 'Print the rules and the words behind each answer'
complete -c lpmtool -n __fish_use_subcommand -a apply -d 'Print the outcome of each update, then the next hops'
complete -c lpmtool -n __fish_use_subcommand -a report -d 'Print what the table holds after the updates'
complete -c lpmtool -n __fish_use_subcommand -a storm -d 'Look addresses up beside the updates'
complete -c lpmtool -n __fish_use_subcommand -a migrate -d 'Print an update file of version 1 as one of version 2'
complete -c lpmtool -n __fish_use_subcommand -a help -d 'Print the help of a command'
complete -c lpmtool -n '__fish_seen_subcommand_from help; and test (count (commandline -opc)) = 2' -a "$commands help"

complete -c lpmtool -n "__fish_seen_subcommand_from $tables explain" -l rules -x -d 'The most rules that the table holds'
complete -c lpmtool -n "__fish_seen_subcommand_from $tables explain" -l groups -x -d 'The number of groups'
complete -c lpmtool -n "__fish_seen_subcommand_from $tables" -l workers -x -d 'The number of workers'
complete -c lpmtool -n "__fish_seen_subcommand_from $tables" -l threshold -x -d 'How many groups may wait in limbo'
complete -c lpmtool -n "__fish_seen_subcommand_from $tables" -l max -x -d 'The most groups that a change frees'
complete -c lpmtool -n '__fish_seen_subcommand_from storm' -l rounds -x -d 'How often all addresses are looked up'
complete -c lpmtool -n '__fish_seen_subcommand_from storm' -l stuck -d 'Has a worker more, which looks nothing up'
complete -c lpmtool -n '__lpmtool_wants_file lookup 2' -F
complete -c lpmtool -n '__lpmtool_wants_file explain 1' -F
complete -c lpmtool -n '__lpmtool_wants_file apply 3' -F
complete -c lpmtool -n '__lpmtool_wants_file report 2' -F
complete -c lpmtool -n '__lpmtool_wants_file storm 3' -F
complete -c lpmtool -n '__lpmtool_wants_file migrate 1' -F
