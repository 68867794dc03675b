# Completion of baliseplan in fish: it takes options, each once, and no file.
complete -c baliseplan -f
complete -c baliseplan -l quiet -d 'Leave out the replies to accepted commands'
complete -c baliseplan -l stop -d 'Do no command after the first refused one'
complete -c baliseplan -l journal -d 'Print the journal after the plan'
complete -c baliseplan -l json -d 'Print a line of JSON for each group after that'
complete -c baliseplan -s h -l help -d 'Print help, with the version at its head'
