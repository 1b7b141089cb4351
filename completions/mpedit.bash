# Completions of mpedit for bash. Source this file, or put it into the folder of completions under the name mpedit.
_mpedit() {
    COMPREPLY=()
    # A run names three files, and has no options.
    if [[ $COMP_CWORD == 1 && ${COMP_WORDS[1]} == -* ]]; then
        COMPREPLY=($(compgen -W '--help --version' -- "${COMP_WORDS[1]}"))
        return
    fi
    ((COMP_CWORD > 3)) || compopt -o default
}
complete -F _mpedit mpedit ./mpedit
