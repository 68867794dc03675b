# Completion of balisefacts in bash: it takes one option, and no file.
_balisefacts() {
    [ "$COMP_CWORD" = 1 ] && mapfile -t COMPREPLY < <(compgen -W "--edit --tags --help" -- "${COMP_WORDS[1]}")
}
complete -F _balisefacts balisefacts
