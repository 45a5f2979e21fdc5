# Completion of the words of mvopt for bash: the task, the options that don't stand there yet, and files.
_mvopt() {
    local word=${COMP_WORDS[COMP_CWORD]} before=" ${COMP_WORDS[*]:1:COMP_CWORD-1} " option
    COMPREPLY=()
    if [ "$COMP_CWORD" -eq 1 ]; then
        mapfile -t COMPREPLY < <(compgen -W "opt check work" -- "$word")
    elif [[ $word == -* && $before != *" -- "* ]]; then
        for option in --free --budget --blif; do
            [[ $option == --blif && ${COMP_WORDS[1]} != opt && ${COMP_WORDS[1]} != check ]] && continue
            [[ $before == *" $option "* || $before == *" $option="* ]] || COMPREPLY+=("$option")
        done
        mapfile -t COMPREPLY < <(compgen -W "${COMPREPLY[*]}" -- "$word")
    fi
}
complete -o default -F _mvopt mvopt
