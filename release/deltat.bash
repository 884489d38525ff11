# completion of deltat for bash
_deltat() {
    COMPREPLY=()
    if [ "$COMP_CWORD" -eq 1 ]; then
        COMPREPLY=($(compgen -W 'replay node trace retrace calls audit make' -- "${COMP_WORDS[1]}"))
    fi
}
complete -F _deltat deltat
