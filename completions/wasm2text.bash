# Completes the options of wasm2text in bash, their values, and otherwise names of files.
_wasm2text() {
    COMPREPLY=()
    local word=${COMP_WORDS[COMP_CWORD]} option=${COMP_WORDS[COMP_CWORD - 1]}
    local options='-p --print-offsets --skeleton --name-unnamed -f --fold-instructions --indent --color --at --code-offset --func --hidden -o --output -h --help -V --version'
    # bash splits --color=al into three words
    if [[ $word == = ]]; then
        word=
    elif [[ $option == = ]]; then
        option=${COMP_WORDS[COMP_CWORD - 2]}
    fi
    if [[ $option == --color ]]; then
        mapfile -t COMPREPLY < <(compgen -W 'auto always never' -- "$word")
    elif [[ $word == -* ]]; then
        mapfile -t COMPREPLY < <(compgen -W "$options" -- "$word")
    fi
}
complete -o default -F _wasm2text wasm2text
