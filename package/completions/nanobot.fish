# Completion of nanobot's commands for fish; files are completed as usual.
set -l commands run check asm dis make plan exercise debug
complete -c nanobot -n __fish_use_subcommand -f -a run -d 'judge a trace'
complete -c nanobot -n __fish_use_subcommand -f -a check -d 'judge a model'
complete -c nanobot -n __fish_use_subcommand -f -a asm -d 'text to trace'
complete -c nanobot -n __fish_use_subcommand -f -a dis -d 'trace to text'
complete -c nanobot -n __fish_use_subcommand -f -a make -d 'make a model of a number'
complete -c nanobot -n __fish_use_subcommand -f -a plan -d 'plan a trace'
complete -c nanobot -n __fish_use_subcommand -f -a exercise -d 'plan a model of a number'
complete -c nanobot -n __fish_use_subcommand -f -a debug -d 'play a trace by a script'
complete -c nanobot -n '__fish_seen_subcommand_from plan; and test (count (commandline -opc)) -eq 2' -f -a 'layer group crew void low swarm'
complete -c nanobot -n '__fish_seen_subcommand_from run; and test (count (commandline -opc)) -eq 2' -a 'light -'
