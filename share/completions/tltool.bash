# Completion of tltool for bash. docs/commands.py compares its words with the program's help.
_tltool() {
    local current=${COMP_WORDS[COMP_CWORD]} previous=${COMP_WORDS[COMP_CWORD-1]} options=
    COMPREPLY=()
    if ((COMP_CWORD == 1)); then
        COMPREPLY=($(compgen -W 'decode monitor coherent explain chart cover run random help --help --version -h -V' -- "$current"))
        return
    fi
    if [[ $previous == --width ]]; then
        if [[ ${COMP_WORDS[1]} == decode ]]; then
            COMPREPLY=($(compgen -W '4 8 16 32 64' -- "$current"))
        else
            COMPREPLY=($(compgen -W '4 8 16' -- "$current"))
        fi
        return
    fi
    if [[ $previous == --allow ]]; then
        COMPREPLY=($(compgen -W 'none standard ids sinks writer early drops reports denied uncorrupt' -- "$current"))
        return
    fi
    if [[ $previous == --profile ]]; then
        COMPREPLY=($(compgen -W '1 2' -- "$current"))
        return
    fi
    case ${COMP_WORDS[1]} in
    decode) options='--wide --width --help -h' ;;
    monitor) options='--allow --all --report --junit --help -h' ;;
    coherent) options='--allow --all --report --junit --help -h' ;;
    explain) options='--coherent --allow --times --help -h' ;;
    chart) options='--lines --block --allow --help -h' ;;
    cover) options='--tables --json --help -h' ;;
    run) options='--trace --commits --help -h' ;;
    random) options='--seed --events --contend --clients --blocks --trackers --width --profile --help -h' ;;
    help) COMPREPLY=($(compgen -W 'decode monitor coherent explain chart cover run random' -- "$current")); return ;;
    esac
    if [[ $current == -* || ${COMP_WORDS[1]} == random ]]; then
        COMPREPLY=($(compgen -W "$options" -- "$current"))
    else
        compopt -o filenames 2>/dev/null
        COMPREPLY=($(compgen -f -- "$current"))
    fi
}
complete -F _tltool tltool
