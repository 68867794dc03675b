#compdef balisefacts
# Completion of balisefacts in zsh: it takes one option, and no file.
_arguments \
    '(- *)--edit[print the facts of one edit, by its serial]:serial:' \
    '(- *)--tags[print the tags of the plan]' \
    '(- *)'{-h,--help}'[print help, with the version at its head]'
