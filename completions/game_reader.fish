# Completion of game_reader for fish.
complete -c game_reader -n '__fish_use_subcommand' -f -a 'check write openings --help --version'
complete -c game_reader -n '__fish_seen_subcommand_from openings' -f -a '--plies --part'
complete -c game_reader -n '__fish_seen_subcommand_from write' -f -a '--part'
