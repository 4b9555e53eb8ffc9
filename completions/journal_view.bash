# Completion of journal_view for bash.
_journal_view() {
    local word=${COMP_WORDS[COMP_CWORD]}
    COMPREPLY=()
    if [ "$COMP_CWORD" = 1 ]; then
        COMPREPLY=($(compgen -f -W "--help --version" -- "$word"))
    elif [ "$COMP_CWORD" = 2 ]; then
        COMPREPLY=($(compgen -W "roots line tree page records" -- "$word"))
    elif [ "$COMP_CWORD" -gt 3 ] && [ "${COMP_WORDS[2]}" = tree ]; then
        COMPREPLY=($(compgen -W "--plies --nodes --json" -- "$word"))
    elif [ "$COMP_CWORD" -gt 2 ] && [ "${COMP_WORDS[2]}" = page ]; then
        COMPREPLY=($(compgen -W "--nodes" -- "$word"))
    elif [ "$COMP_CWORD" = 4 ] && [ "${COMP_WORDS[2]}" = line ]; then
        COMPREPLY=($(compgen -W "--plies" -- "$word"))
    elif [ "${COMP_WORDS[2]}" = roots ]; then
        COMPREPLY=($(compgen -W "--plies --json" -- "$word"))
    elif [ "$COMP_CWORD" = 3 ] && [ "${COMP_WORDS[2]}" = records ]; then
        COMPREPLY=($(compgen -W "--json" -- "$word"))
    fi
}
complete -o filenames -F _journal_view journal_view
