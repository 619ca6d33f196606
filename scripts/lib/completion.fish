# What fish completes of the words of `phase`.
set -l commands check draw eval help replay run stream

# The names of the sinks of the graphs among the words of the line.
function __phase_sinks
    for word in (commandline -opc)[3..-1]
        test -f $word
        and string match -rg '^ *sink +([A-Za-z0-9_]+)' <$word
    end
end

complete -c phase -n "not __fish_seen_subcommand_from $commands" -f -a "$commands"
complete -c phase -n "not __fish_seen_subcommand_from $commands" -l version
complete -c phase -n "__fish_seen_subcommand_from help" -f -a "check draw eval replay run stream"
complete -c phase -l help
complete -c phase -n "__fish_seen_subcommand_from replay" -l strict
complete -c phase -n "__fish_seen_subcommand_from check eval run stream" -l beside
complete -c phase -n "__fish_seen_subcommand_from check draw eval run stream" -l explain
complete -c phase -n "__fish_seen_subcommand_from eval stream" -l columns
complete -c phase -n "__fish_seen_subcommand_from run" -l counts
complete -c phase -n "__fish_seen_subcommand_from eval run stream" -l sink -x -a "(__phase_sinks)"
complete -c phase -n "__fish_seen_subcommand_from stream" -l to -x -a "(__phase_sinks)="
complete -c phase -n "__fish_seen_subcommand_from eval run" -l workers -x -a "1 2 4 8 16"
