# Completion of opening_bench for bash.
_opening_bench() {
    local word=${COMP_WORDS[COMP_CWORD]} before=${COMP_WORDS[COMP_CWORD - 1]}
    if [ "$COMP_CWORD" = 1 ]; then
        COMPREPLY=($(compgen -W "- --help --version" -- "$word") $(compgen -f -- "$word"))
    elif [ "$COMP_CWORD" = 2 ]; then
        COMPREPLY=($(compgen -W "solve generate report certify verify learn table table-check" -- "$word"))
    elif [ "${COMP_WORDS[2]}" = solve ] && [ $((COMP_CWORD % 2)) = 1 ]; then
        COMPREPLY=($(compgen -W "--workers --depth --pieces --plies --budget --lease" -- "$word"))
    elif [ "$before" = --pieces ] || [ "${COMP_WORDS[2]}" = table ]; then
        COMPREPLY=($(compgen -W "2 3" -- "$word"))
    else
        COMPREPLY=()
    fi
}
complete -o filenames -F _opening_bench opening_bench
