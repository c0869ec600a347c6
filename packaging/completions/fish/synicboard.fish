# Completion of synicboard for fish.
set -l commands replay save crew check
complete -c synicboard -f
complete -c synicboard -n "not __fish_seen_subcommand_from $commands" -a replay -d 'Perform a script, and write the answers'
complete -c synicboard -n "not __fish_seen_subcommand_from $commands" -a save -d 'Perform a script, and write the image'
complete -c synicboard -n "not __fish_seen_subcommand_from $commands" -a crew -d 'Run actors and lines, and write the trace'
complete -c synicboard -n "not __fish_seen_subcommand_from $commands" -a check -d 'Say whether a trace is legal'
complete -c synicboard -n '__fish_seen_subcommand_from replay crew' -l from -r -F -d 'Start on the board of this image'
complete -c synicboard -l help -d 'Print help'
complete -c synicboard -n "not __fish_seen_subcommand_from $commands" -l version -d 'Print the version'
