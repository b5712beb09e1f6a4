# Completion of ziria for bash.
_ziria() {
    local word=${COMP_WORDS[COMP_CWORD]}
    case $COMP_CWORD in
        1) COMPREPLY=($(compgen -W "run check show" -- "$word")) ;;
        2)
            if [ "${COMP_WORDS[1]}" = show ] || [ "${COMP_WORDS[1]}" = check ]; then
                COMPREPLY=($(compgen -f -X '!*.zir' -- "$word") $(compgen -d -- "$word"))
            else
                COMPREPLY=($(compgen -W "--ticks" -- "$word"))
            fi
            ;;
        3) COMPREPLY=() ;;
        4) COMPREPLY=($(compgen -f -X '!*.zir' -- "$word") $(compgen -d -- "$word")) ;;
    esac
}
complete -o filenames -F _ziria ziria
