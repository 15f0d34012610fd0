# Completion of ./pink for bash:  . docs/pink.bash
_pink_pair() {
    local word=${COMP_WORDS[COMP_CWORD]}
    case $COMP_CWORD in
        2 | 3)
            compopt -o filenames 2>/dev/null
            COMPREPLY=($(compgen -f -- "$word"))
            ;;
        4) COMPREPLY=($(compgen -W "put get del list resync" -- "$word")) ;;
        *) COMPREPLY=() ;;
    esac
}
_pink_spared() {
    local word=${COMP_WORDS[COMP_CWORD]}
    case $COMP_CWORD in
        4) COMPREPLY=($(compgen -W "make serve put get del has list stat gen" -- "$word")) ;;
        *) COMPREPLY=() ;;
    esac
}
_pink() {
    local word=${COMP_WORDS[COMP_CWORD]}
    if [ "$COMP_CWORD" -gt 1 ] && [ "${COMP_WORDS[1]}" = mirror ]; then
        _pink_pair
        return
    fi
    if [ "$COMP_CWORD" -gt 2 ] && [ "${COMP_WORDS[2]}" = spared ]; then
        _pink_spared
        return
    fi
    case $COMP_CWORD in
        1)
            compopt -o filenames 2>/dev/null
            COMPREPLY=($(compgen -f -- "$word") $(compgen -W "mirror --help --version" -- "$word"))
            ;;
        2) COMPREPLY=($(compgen -W "make serve asm show put get del has list stat gen spared --help" -- "$word")) ;;
        3)
            case ${COMP_WORDS[2]} in
                make) COMPREPLY=($(compgen -W "512 1024 2048 4096 8192 16384" -- "$word")) ;;
                serve) COMPREPLY=($(compgen -W "8 36 148 520" -- "$word")) ;;
                *) COMPREPLY=() ;;
            esac
            ;;
        4) [ "${COMP_WORDS[2]}" = make ] && COMPREPLY=($(compgen -W "8 16 32 64 128 256" -- "$word")) || COMPREPLY=() ;;
        *) COMPREPLY=() ;;
    esac
}
complete -F _pink ./pink pink
