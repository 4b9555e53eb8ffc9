# Completion of opening_bench for fish.
function __opening_bench_words
    count (commandline -opc)
end
complete -c opening_bench -n 'test (__opening_bench_words) = 1' -a '- --help --version'
complete -c opening_bench -n 'test (__opening_bench_words) = 2' -f -a 'solve generate report certify verify learn table table-check'
complete -c opening_bench -n '__fish_seen_subcommand_from solve' -f -a '--workers --depth --pieces --plies --budget --lease'
complete -c opening_bench -n '__fish_seen_subcommand_from table' -f -a '2 3'
