# Completes the options of printwasm in bash, and otherwise names of files.
_printwasm() {
    COMPREPLY=()
    if [[ ${COMP_WORDS[COMP_CWORD]} == -* ]]; then
        mapfile -t COMPREPLY < <(compgen -W '--offsets --skeleton --name-unnamed --fold --color' -- "${COMP_WORDS[COMP_CWORD]}")
    fi
}
complete -o default -F _printwasm printwasm
