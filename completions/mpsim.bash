# Completions of mpsim for bash. Source this file, or put it into the folder of completions under the name mpsim.
_mpsim() {
    local word=${COMP_WORDS[COMP_CWORD]} before=${COMP_WORDS[COMP_CWORD-1]}
    local i given=' ' options='--workers --block --made --jobs --report' left=''
    COMPREPLY=()
    case $before in
        --report)
            COMPREPLY=($(compgen -W '1 2' -- "$word"))
            return ;;
        --workers | --block | --made)
            return ;;
    esac
    if [[ $word == -* ]]; then
        # An option may stand once.
        for ((i = 1; i < COMP_CWORD; i++)); do
            given+="${COMP_WORDS[i]} "
        done
        for i in $options; do
            [[ $given == *" $i "* ]] || left+="$i "
        done
        # These are answered only without other arguments.
        ((COMP_CWORD > 1)) || left+='--help --version '
        COMPREPLY=($(compgen -W "$left" -- "$word"))
        return
    fi
    # With --made no file is named.
    for ((i = 1; i < COMP_CWORD; i++)); do
        [[ ${COMP_WORDS[i]} != --made ]] || return
    done
    compopt -o default
}
complete -F _mpsim mpsim ./mpsim
