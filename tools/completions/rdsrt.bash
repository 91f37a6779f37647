# Completions of rdsrt for bash.
_rdsrt() {
    local word=${COMP_WORDS[COMP_CWORD]} before=${COMP_WORDS[COMP_CWORD - 1]} command='' it offered
    COMPREPLY=()
    # the value of an option
    case $before in
        --pi | --m | -m | --confirm | --keep | --k | -k | --pty | --grain | --lose) return ;;
        --rtplus) mapfile -t COMPREPLY < <(compgen -W '5A 6A 7A 8A 9A 11A 12A 13A' -- "$word") && return ;;
    esac
    for it in "${COMP_WORDS[@]:1:COMP_CWORD-1}"; do
        case $it in decode | audit | witness | slots | encode | sim | help) command=$it && break ;; esac
    done
    case $command in
        '') offered='decode audit witness slots encode sim help --help --version' ;;
        help) offered='decode audit witness slots encode sim help' ;;
        decode) offered='--pi --m --rtplus --confirm --why --keep --quiet --json-notes --help' ;;
        witness) offered='--pi --m --rtplus --lose --flag-alone --quiet --json-notes --help' ;;
        audit) offered='--pi --m --rtplus --k --running --padded --all --quiet --json-notes --help' ;;
        slots) offered='--pi --grain --m --quiet --json-notes --help' ;;
        encode) offered='--pi --m --rtplus --k --pty --tp --quiet --json-notes --help' ;;
        sim) offered='--pi --m --rtplus --k --pty --tp --confirm --flag-alone --why --keep --quiet --json-notes --help' ;;
    esac
    # a word that begins no option is the file to read, which bash completes
    case $command:$word in :* | help:* | *:-*) ;; *) return ;; esac
    mapfile -t COMPREPLY < <(compgen -W "$offered" -- "$word")
}
complete -o default -F _rdsrt rdsrt

# the programs around it: the options that their help has
_rdsrt_program() {
    COMPREPLY=()
    case $2 in
        -*) mapfile -t COMPREPLY < <(compgen -W "$("$1" --help 2>/dev/null | grep -oE -- '--[a-z][a-z-]*')" -- "$2") ;;
    esac
}
complete -o default -F _rdsrt_program rdsrt-json rdsrt-letter rdsrt-lines rdsrt-monitor rdsrt-receive rdsrt-send rdsrt-station rdsrt-transmit rdsrt-v4l2
