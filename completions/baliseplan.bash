# Completion of baliseplan in bash: it takes options, each once, and no file.
_baliseplan() {
    local word left=" --quiet --stop --journal --json --help "
    for word in "${COMP_WORDS[@]:1:COMP_CWORD-1}"; do left=${left/ $word / }; done
    mapfile -t COMPREPLY < <(compgen -W "$left" -- "${COMP_WORDS[COMP_CWORD]}")
}
complete -F _baliseplan baliseplan
