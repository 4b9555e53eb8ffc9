# Completion of game_reader for bash.
_game_reader() {
    local word=${COMP_WORDS[COMP_CWORD]}
    if [ "$COMP_CWORD" = 1 ]; then
        COMPREPLY=($(compgen -W "check write openings --help --version" -- "$word"))
    elif [ "${COMP_WORDS[1]}" = openings ]; then
        COMPREPLY=($(compgen -W "--plies --part" -- "$word"))
    elif [ "${COMP_WORDS[1]}" = write ]; then
        COMPREPLY=($(compgen -W "--part" -- "$word"))
    else
        COMPREPLY=()
    fi
}
complete -F _game_reader game_reader
