# Completion of geesefuton's words for bash; the release puts the names in.
_geesefuton() {
    local word=${COMP_WORDS[COMP_CWORD]}
    if [ "$COMP_CWORD" -eq 1 ]; then
        mapfile -t COMPREPLY < <(compgen -W "PARTS --help" -- "$word")
    elif [ "$COMP_CWORD" -eq 2 ] && [ "${COMP_WORDS[1]}" = tac ]; then
        mapfile -t COMPREPLY < <(compgen -W "COMMANDS" -- "$word")
    else
        mapfile -t COMPREPLY < <(compgen -f -- "$word")
    fi
}
complete -o filenames -F _geesefuton geesefuton
