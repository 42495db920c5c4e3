# Completion of betable for bash.
_betable() {
    local word=${COMP_WORDS[COMP_CWORD]} before=${COMP_WORDS[COMP_CWORD - 1]}
    case $before in
        --workers | --cut | --grain)
            COMPREPLY=()
            compopt +o default
            return
            ;;
        --script)
            COMPREPLY=()
            return
            ;;
    esac
    COMPREPLY=($(compgen -W "--script --workers --cut --grain --help --version" -- "$word"))
    if [ "$COMP_CWORD" = 1 ]; then
        COMPREPLY+=($(compgen -W "shell engine serve convert copy explain from_csv to_csv draw" -- "$word"))
    fi
}
complete -o default -F _betable betable
