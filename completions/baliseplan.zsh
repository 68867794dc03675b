#compdef baliseplan
# Completion of baliseplan in zsh: it takes options, each once, and no file.
_arguments \
    '--quiet[leave out the replies to accepted commands]' \
    '--stop[do no command after the first refused one]' \
    '--journal[print the journal after the plan]' \
    '--json[print a line of JSON for each group after that]' \
    '(- *)'{-h,--help}'[print help, with the version at its head]'
