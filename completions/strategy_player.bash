# Completion of strategy_player for bash.
_strategy_player() {
    local word=${COMP_WORDS[COMP_CWORD]}
    if [ "$COMP_CWORD" = 1 ]; then
        COMPREPLY=($(compgen -f -W "--help --version" -- "$word"))
    elif [ "$COMP_CWORD" = 3 ]; then
        COMPREPLY=($(compgen -W "black white" -- "$word"))
    else
        COMPREPLY=()
    fi
}
complete -o filenames -F _strategy_player strategy_player
