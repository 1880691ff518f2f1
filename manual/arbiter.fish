# Completions of arbiter for fish, written by tools/manual from its help texts.
complete -c arbiter -f
complete -c arbiter -n __fish_use_subcommand -a due -d "Print the cores due to sixteen applications"
complete -c arbiter -n __fish_use_subcommand -a check -d "Check a machine's configuration file"
complete -c arbiter -n __fish_use_subcommand -a run -d "Run a script of orders, and print what came of each"
complete -c arbiter -n __fish_use_subcommand -a play -d "Run a script of orders by threads, and print what came of each"
complete -c arbiter -n __fish_use_subcommand -a live -d "Answer each line of orders as it comes"
complete -c arbiter -n __fish_use_subcommand -a draw -d "Draw a picture of who had which core over a script"
complete -c arbiter -n __fish_use_subcommand -a help -d "Print this message or the help of the given subcommand(s)"
complete -c arbiter -n '__fish_seen_subcommand_from help' -a 'due check run play live draw'
complete -c arbiter -n __fish_use_subcommand -l help
complete -c arbiter -n __fish_use_subcommand -l version
complete -c arbiter -n '__fish_seen_subcommand_from due' -l cores -x
complete -c arbiter -n '__fish_seen_subcommand_from due' -l help
complete -c arbiter -n '__fish_seen_subcommand_from check' -l help
complete -c arbiter -n '__fish_seen_subcommand_from check' -F
complete -c arbiter -n '__fish_seen_subcommand_from run' -l config -r -F
complete -c arbiter -n '__fish_seen_subcommand_from run' -l help
complete -c arbiter -n '__fish_seen_subcommand_from play' -l config -r -F
complete -c arbiter -n '__fish_seen_subcommand_from play' -l ordered
complete -c arbiter -n '__fish_seen_subcommand_from play' -l help
complete -c arbiter -n '__fish_seen_subcommand_from live' -l config -r -F
complete -c arbiter -n '__fish_seen_subcommand_from live' -l endless
complete -c arbiter -n '__fish_seen_subcommand_from live' -l help
complete -c arbiter -n '__fish_seen_subcommand_from draw' -l config -r -F
complete -c arbiter -n '__fish_seen_subcommand_from draw' -l from -x
complete -c arbiter -n '__fish_seen_subcommand_from draw' -l to -x
complete -c arbiter -n '__fish_seen_subcommand_from draw' -l by-time
complete -c arbiter -n '__fish_seen_subcommand_from draw' -l help
