# Completions of rdsrt for fish.
set -l commands decode audit witness slots encode sim help
set -l first "not __fish_seen_subcommand_from $commands"
set -l no_help "not __fish_seen_subcommand_from help; and __fish_seen_subcommand_from"
complete -c rdsrt -n "not __fish_seen_subcommand_from decode audit witness slots encode sim" -f
complete -c rdsrt -n $first -a decode -d 'Reads a log of received groups and prints what a receiver shows'
complete -c rdsrt -n $first -a audit -d 'Reads a log of all groups that a station sent and says whether it keeps the rules'
complete -c rdsrt -n $first -a witness -d 'Reads a log of all groups that a station sent and looks for lost slots that make a mix'
complete -c rdsrt -n $first -a slots -d 'Reads a log of received groups with times and adds a line for each lost slot'
complete -c rdsrt -n $first -a encode -d 'Reads a script and prints the log of the groups that a station sends'
complete -c rdsrt -n $first -a sim -d 'Reads a script and prints what a station sends and what up to eight receivers show'
complete -c rdsrt -n $first -a help -d 'Print this message or the help of the given subcommand(s)'
complete -c rdsrt -n $first -s V -l version -d 'Print version'
complete -c rdsrt -n "not __fish_seen_subcommand_from help" -s h -l help -d 'Print help'
complete -c rdsrt -n "__fish_seen_subcommand_from help" -a "$commands"
complete -c rdsrt -n "$no_help decode audit witness slots encode sim" -l pi -x -d 'PI code of the station'
complete -c rdsrt -n "$no_help decode audit witness slots encode sim" -s m -l m -x -d 'Dwell M in slots, 1 to 65535'
complete -c rdsrt -n "$no_help decode audit witness encode sim" -l rtplus -x -a '5A 6A 7A 8A 9A 11A 12A 13A' -d 'Group type of the RT+ tags'
complete -c rdsrt -n "$no_help decode sim" -l confirm -x -d 'Shows only what was received twice within W slots, 2 to 255'
complete -c rdsrt -n "$no_help decode sim" -l why -d 'Says why a text or a name is not shown any more'
complete -c rdsrt -n "$no_help decode sim" -l keep -x -d 'Keeps a text or a name on the display for N more slots, 0 to 65535'
complete -c rdsrt -n "$no_help sim" -l flag-alone -d 'The receivers follow the A/B flag alone, as radios without a dwell do'
complete -c rdsrt -n "$no_help witness" -l lose -x -d 'Prints the mixes of a receiver that loses these slots'
complete -c rdsrt -n "$no_help witness" -l flag-alone -d 'The receiver of --lose follows the A/B flag alone, as radios without a dwell do'
complete -c rdsrt -n "$no_help audit encode sim" -s k -l k -x -d 'Lateness K in slots, 0 to 1024'
complete -c rdsrt -n "$no_help audit" -l running -d 'The station was on air before the log began'
complete -c rdsrt -n "$no_help audit" -l padded -d 'Bytes behind the carriage return of a text do not count'
complete -c rdsrt -n "$no_help audit" -l all -d 'Prints each fault of the log'
complete -c rdsrt -n "$no_help slots" -l grain -x -d 'Milliseconds by which the times may be off, 0 to 87'
complete -c rdsrt -n "$no_help encode sim" -l pty -x -d 'Programme type (PTY) in each group, 0 to 31'
complete -c rdsrt -n "$no_help encode sim" -l tp -d 'Sets the TP flag in each group'
complete -c rdsrt -n "$no_help decode audit witness slots encode sim" -l quiet -d 'Prints no warnings on standard error'
complete -c rdsrt -n "$no_help decode audit witness slots encode sim" -l json-notes -d 'Prints each note on standard error as a JSON object'
# the programs around it: the options that their help has
for name in json letter lines monitor receive send station transmit v4l2
    complete -c rdsrt-$name -n "string match -q -- '-*' (commandline -ct)" -a "(rdsrt-$name --help | string match -ar -- '--[a-z][a-z-]*')"
end
