# Completion of ./pinkdump for bash:  . docs/pinkdump.bash
_pinkdump() {
    local word=${COMP_WORDS[COMP_CWORD]}
    case $COMP_CWORD in
        1)
            compopt -o filenames 2>/dev/null
            COMPREPLY=($(compgen -f -- "$word") $(compgen -W "--help --version" -- "$word"))
            ;;
        2) COMPREPLY=($(compgen -W "lines spared" -- "$word")) ;;
        4) [ "${COMP_WORDS[2]}" = spared ] && COMPREPLY=($(compgen -W "lines" -- "$word")) || COMPREPLY=() ;;
        *) COMPREPLY=() ;;
    esac
}
complete -F _pinkdump ./pinkdump pinkdump
