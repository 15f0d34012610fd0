# How the launchers run their programs. They set `top`, the folder of the repository or of what `make install` put in place.
# shellcheck shell=sh

program_of() { # NAME: the program's file
    echo "$top/crates/$1/out/$1"
}

sources() { # the commit and the kit of the sources
    if [ -f "$top/VERSION" ]; then # written by make install
        cat "$top/VERSION"
        return
    fi
    commit=$(git -C "$top" describe --always --dirty 2>/dev/null) || commit=unknown
    kit=$(rt version 2>/dev/null) || kit="$(sed -n 's/^.*Proved with `\([^`(]*\)`.*$/\1/p' "$top/README.md") (by README)"
    echo "(Cezhandru), commit $commit, kit $kit"
}

version() { # NAME: the sources, and when the program was built
    built='not built'
    [ ! -x "$(program_of "$1")" ] || built="built $(date -r "$(program_of "$1")" '+%Y-%m-%d %H:%M' 2>/dev/null)"
    echo "$1 $(sources), program $built"
}

# Ends with the status of the program, or by the signal that ended both.
launch() { # NAME WORDS..
    name=$1
    shift
    program=$(program_of "$name")
    if [ ! -x "$program" ]; then
        [ -x "$top/build.sh" ] || { echo "$name: there is no program $program" >&2; exit 1; }
        "$top/build.sh" "$name" || exit 1
    fi
    if [ "$name" = pink ] && [ "$1" = mirror ]; then
        # shellcheck source=launch/pair.sh
        . "$top/launch/pair.sh"
        shift
        fault=$(empty_first "$program" "$@")
        [ -z "$fault" ] || { echo "pink: status 16, $fault" >&2 && exit 16; }
        set -- mirror "$@"
    fi
    # A write beyond a limit on the size of files then fails, and the change that it belongs to, in place of a signal that ends the program.
    trap '' XFSZ
    [ -z "${PINK_EXEC:-}" ] || exec "$program" "$@"

    # The program runs in the background of the shell, which waits for it and passes signals on, as TERM: a shell has a process in the
    # background ignore INT and QUIT. If the shell is killed, the program is killed with it, if the system has setpriv.
    caught=
    child=
    for signal in HUP INT QUIT TERM; do
        # shellcheck disable=SC2064  # the name of the signal is that of now
        trap "caught=$signal; [ -z \"\$child\" ] || kill -TERM \"\$child\" 2>/dev/null" "$signal"
    done
    bound=
    if setpriv --pdeathsig KILL true 2>/dev/null; then bound='setpriv --pdeathsig KILL'; fi
    # A shell gives a process in the background an empty input, unless its input is named: so it is kept as number 3.
    if { command exec 3<&0; } 2>/dev/null; then
        # shellcheck disable=SC2086  # three words or none
        $bound "$program" "$@" <&3 3<&- &
    else # the input is closed
        # shellcheck disable=SC2086
        $bound "$program" "$@" <&- &
    fi
    child=$!
    [ -z "$caught" ] || kill -TERM "$child" 2>/dev/null
    # A signal ends the wait, which then begins again. What a shell says of a killed process is not wanted.
    while
        wait "$child"
        status=$?
        kill -0 "$child"
    do :; done 2>/dev/null
    trap - HUP INT QUIT TERM

    # A launcher that a signal ended ends by it, as its caller expects.
    [ -z "$caught" ] || [ "$status" -le 128 ] || kill -s "$caught" $$
    # If the reader has left, as in `pink .. | head`, there is no line.
    if [ "$status" -eq 5 ] && { [ -p /dev/fd/1 ] || [ -S /dev/fd/1 ]; }; then exit 5; fi
    if [ "$status" -ne 0 ]; then
        # shellcheck source=launch/why.sh
        . "$top/launch/why.sh"
        echo "$name: status $status, $(why "$name" "$status" "$@")" >&2
    fi
    exit "$status"
}
