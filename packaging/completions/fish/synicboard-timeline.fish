# Completion of synicboard-timeline for fish.
complete -c synicboard-timeline -l text -d 'In words'
complete -c synicboard-timeline -l html -d 'As a page for a browser'
complete -c synicboard-timeline -l page -x -d 'Which events'
complete -c synicboard-timeline -l program -r -d 'The program that answers'
complete -c synicboard-timeline -l help -d 'Print help'
