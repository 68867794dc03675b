# Completion of balisefacts in fish: it takes one option, and no file.
complete -c balisefacts -f
complete -c balisefacts -l edit -x -d 'Print the facts of one edit, by its serial'
complete -c balisefacts -l tags -d 'Print the tags of the plan'
complete -c balisefacts -s h -l help -d 'Print help, with the version at its head'
