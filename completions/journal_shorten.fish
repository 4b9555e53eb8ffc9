# Completion of journal_shorten for fish.
complete -c journal_shorten -n 'test (count (commandline -opc)) = 1' -f -a 'shorten which --help --version'
