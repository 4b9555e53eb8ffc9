# Completion of strategy_player for fish.
complete -c strategy_player -n 'test (count (commandline -opc)) = 1' -a '--help --version'
complete -c strategy_player -n 'test (count (commandline -opc)) = 3' -f -a 'black white'
