# Completion of journal_shorten for bash.
_journal_shorten() {
    local word=${COMP_WORDS[COMP_CWORD]}
    case $COMP_CWORD in
    1) COMPREPLY=($(compgen -W "shorten which --help --version" -- "$word")) ;;
    2 | 3) COMPREPLY=($(compgen -f -- "$word")) ;;
    *) COMPREPLY=() ;;
    esac
}
complete -o filenames -F _journal_shorten journal_shorten
