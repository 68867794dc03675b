# Completion of plandesk in bash, as plandesk itself prints it: _PLANDESK_COMPLETE=bash_source plandesk
_plandesk_completion() {
    local IFS=$'\n'
    local response

    response=$(env COMP_WORDS="${COMP_WORDS[*]}" COMP_CWORD=$COMP_CWORD _PLANDESK_COMPLETE=bash_complete $1)

    for completion in $response; do
        IFS=',' read type value <<< "$completion"

        if [[ $type == 'dir' ]]; then
            COMPREPLY=()
            compopt -o dirnames
        elif [[ $type == 'file' ]]; then
            COMPREPLY=()
            compopt -o default
        elif [[ $type == 'plain' ]]; then
            COMPREPLY+=($value)
        fi
    done

    return 0
}

_plandesk_completion_setup() {
    complete -o nosort -F _plandesk_completion plandesk
}

_plandesk_completion_setup;
