# bash completion for gpsrelay and its tools
_gpsrelay() {
    local cur=${COMP_WORDS[COMP_CWORD]} prev=${COMP_WORDS[COMP_CWORD - 1]} options
    COMPREPLY=()
    # bash divides words at = and :, so a device word arrives in parts
    local line=${COMP_LINE:0:COMP_POINT} word
    word=${line##*[[:space:]]}
    if ((COMP_CWORD == 1)); then
        mapfile -t COMPREPLY < <(compgen -W "serve decode pseudo lines replay generate help --version" -- "$cur")
        return
    fi
    case $prev in
    --listen)
        mapfile -t COMPREPLY < <(compgen -W "127.0.0.1:2947" -- "$cur")
        return
        ;;
    --history)
        [[ ${COMP_WORDS[1]} == decode || ${COMP_WORDS[1]} == pseudo ]] && mapfile -t COMPREPLY < <(compgen -W "all" -- "$cur")
        return
        ;;
    --stop)
        mapfile -t COMPREPLY < <(compgen -f -- "$cur")
        compopt -o filenames 2>/dev/null
        return
        ;;
    --queue | --requests | --wait | --monitor | --reopen | --cycle-gap | --report | --seed | --size) return ;;
    esac
    case ${COMP_WORDS[1]} in
    serve) options="--listen --queue --requests --history --wait --monitor --reopen --cycle-gap --report --stop --help" ;;
    decode | pseudo) options="--history --help" ;;
    replay) options="--history --queue --help" ;;
    generate) options="--seed --size --help" ;;
    lines) options="--help" ;;
    help)
        ((COMP_CWORD == 2)) && mapfile -t COMPREPLY < <(compgen -W "serve decode pseudo lines replay generate" -- "$cur")
        return
        ;;
    *) options="" ;;
    esac
    if [[ ${COMP_WORDS[1]} == serve && $word == *=file:* || $word == *=edges:* ]]; then
        mapfile -t COMPREPLY < <(compgen -f -- "${word#*:}")
        compopt -o filenames 2>/dev/null
    elif [[ ${COMP_WORDS[1]} == serve && $word == *=* ]]; then
        mapfile -t COMPREPLY < <(compgen -W "file: tcp: gpsd: edges:" -- "${word#*=}")
        compopt -o nospace 2>/dev/null
    elif [[ $cur == -* ]]; then
        mapfile -t COMPREPLY < <(compgen -W "$options" -- "$cur")
    fi
}
complete -F _gpsrelay gpsrelay

# _gpsrelay_words WORD..: those that fit what is typed. _gpsrelay_files: the files that do.
_gpsrelay_words() { mapfile -t COMPREPLY < <(compgen -W "$*" -- "${COMP_WORDS[COMP_CWORD]}"); }
_gpsrelay_files() {
    mapfile -t COMPREPLY < <(compgen -f -- "${COMP_WORDS[COMP_CWORD]}")
    compopt -o filenames 2>/dev/null
}
_gpsrelay_tool() {
    local tool=${COMP_WORDS[0]##*-} options
    COMPREPLY=()
    case $tool in
    clock) options="--device --sock-pulse --sock-serial --shm-pulse --shm-serial --without-fix" ;;
    export) options="--output --daemon --device --title --gap --format" ;;
    mqtt) options="--broker --prefix --user" ;;
    track) options="--output --daemon --device --title --gap --gpx" ;;
    view) options="--listen" ;;
    esac
    case ${COMP_WORDS[COMP_CWORD - 1]} in
    --format) _gpsrelay_words gpx kml geojson csv ;;
    --shm-*) _gpsrelay_words 0 1 2 3 ;;
    -o | --output | --gpx | --sock-*) _gpsrelay_files ;;
    --device | --title | --gap | --prefix | --user | --broker | --listen) ;;
    *)
        if [[ ${COMP_WORDS[COMP_CWORD]} == -* ]]; then
            _gpsrelay_words "$options" --help --version
        elif [[ $tool == port && $COMP_CWORD == 2 ]]; then
            _gpsrelay_words 4800 9600 19200 38400 57600 115200 230400 460800 921600
        elif [[ $tool == @(export|port|track) ]]; then
            _gpsrelay_files
        fi
        ;;
    esac
}
complete -F _gpsrelay_tool gpsrelay-{clock,export,mqtt,port,top,track,view}
