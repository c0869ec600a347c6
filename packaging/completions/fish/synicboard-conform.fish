# Completion of synicboard-conform for fish.
set -l commands run fuzz shrink trace read
complete -c synicboard-conform -n "not __fish_seen_subcommand_from $commands" -f -a 'run fuzz shrink trace read'
complete -c synicboard-conform -n "__fish_seen_subcommand_from $commands" -l see -x -a 'guest host' -d 'What is compared'
complete -c synicboard-conform -n "__fish_seen_subcommand_from $commands" -l program -r -d 'The reference'
complete -c synicboard-conform -n '__fish_seen_subcommand_from run fuzz shrink' -l sync -x -a 'sync version'
complete -c synicboard-conform -n '__fish_seen_subcommand_from run fuzz shrink' -l batch -x
complete -c synicboard-conform -n '__fish_seen_subcommand_from run fuzz shrink' -l seconds -x
complete -c synicboard-conform -n '__fish_seen_subcommand_from fuzz shrink' -l out -r -d 'Where the small script is written'
complete -c synicboard-conform -n '__fish_seen_subcommand_from run' -l topic -x -d 'Run this topic only'
complete -c synicboard-conform -n '__fish_seen_subcommand_from run read' -l known -r -d 'Accepted deviations'
complete -c synicboard-conform -n '__fish_seen_subcommand_from run' -l stored -d 'Compare with the stored answers'
complete -c synicboard-conform -n '__fish_seen_subcommand_from run' -l reopen -d 'One process for all cases'
complete -c synicboard-conform -n '__fish_seen_subcommand_from run read' -l profile -x -a 'board tlfs kvm'
complete -c synicboard-conform -n '__fish_seen_subcommand_from run' -l tap -d 'Print TAP'
complete -c synicboard-conform -n '__fish_seen_subcommand_from run' -l junit -r -d 'Write XML'
complete -c synicboard-conform -n '__fish_seen_subcommand_from fuzz' -l seed -x
complete -c synicboard-conform -n '__fish_seen_subcommand_from fuzz' -l events -x
complete -c synicboard-conform -n '__fish_seen_subcommand_from fuzz' -l minutes -x
complete -c synicboard-conform -n '__fish_seen_subcommand_from fuzz' -l without -x -d 'Leave out this event, or sparse boards'
complete -c synicboard-conform -n '__fish_seen_subcommand_from read' -l brief -d 'A line for each case that fails'
complete -c synicboard-conform -l help -d 'Print help'
