# Completion of journal_view for fish.
complete -c journal_view -n 'test (count (commandline -opc)) = 1' -a '--help --version'
complete -c journal_view -n 'test (count (commandline -opc)) = 2' -f -a 'roots line tree page records'
complete -c journal_view -n 'contains tree (commandline -opc)' -f -a '--plies --nodes --json'
complete -c journal_view -n 'contains page (commandline -opc)' -f -a '--nodes'
complete -c journal_view -n 'contains line (commandline -opc)' -f -a '--plies'
complete -c journal_view -n 'contains roots (commandline -opc)' -f -a '--plies --json'
complete -c journal_view -n 'contains records (commandline -opc)' -f -a '--json'
