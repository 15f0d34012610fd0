# Completion of pinkctl for bash:  . docs/pinkctl.bash
_pinkctl() {
    local word=${COMP_WORDS[COMP_CWORD]} parts="check export import backup mv salvage shell shapes serve cluster"
    if [ "$COMP_CWORD" -eq 1 ]; then
        COMPREPLY=($(compgen -W "$parts --help --version" -- "$word"))
        return
    fi
    local options="--help"
    case ${COMP_WORDS[1]} in
        check) options+=" --json --wait --no-compare" ;;
        export) options+=" --output --force --format --from --prefix --namespace --wait --progress --quiet" ;;
        import) options+=" --overwrite --make --limits --namespace --dry-run --wait --progress --quiet" ;;
        backup) options+=" --wait --force --even-damaged --progress --quiet" ;;
        mv) options+=" --wait" ;;
        salvage) options+=" --wait --shape --sure-only --list --dry-run --progress --quiet" ;;
        shell) options+=" --wait --execute --namespace --raw --words" ;;
        shapes) options+=" --values --bytes --shape --most" ;;
        serve) options+=" --socket --port --frames --wait --password-file --backups" ;;
        cluster)
            if [ "$COMP_CWORD" -eq 2 ]; then
                COMPREPLY=($(compgen -W "make start stop check move-slots --help" -- "$word"))
                return
            fi
            [ "${COMP_WORDS[2]}" != make ] || options+=" --replicas --port --frames --names --sync --min-replicas --timeout --hosts --password-file --voter --here"
            ;;
    esac
    case ${COMP_WORDS[COMP_CWORD - 1]} in
        --format) COMPREPLY=($(compgen -W "asm json" -- "$word")) ;;
        --names) COMPREPLY=($(compgen -W "plain hashed" -- "$word")) ;;
        *)
            case $word in
                -*) COMPREPLY=($(compgen -W "$options" -- "$word")) ;;
                *) COMPREPLY=($(compgen -f -- "$word")) ;;
            esac
            ;;
    esac
}
complete -o filenames -F _pinkctl ./pinkctl pinkctl
