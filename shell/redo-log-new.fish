# Completion for redo-log-new in fish: its options, directories after --baseline and --dir, files after --output, and the names that the
# directory lists. It uses a function of the completion for redo-log, whose file is next to this one.

functions -q __redo_log_names; or source (status dirname)/redo-log.fish

complete -c redo-log-new -f -k -a '(__redo_log_names)'
complete -c redo-log-new -l baseline -x -a '(__fish_complete_directories (commandline -ct))' \
    -d 'Compare with an earlier build: DIR is its capture directory'
complete -c redo-log-new -l dir -x -a '(__fish_complete_directories (commandline -ct))' \
    -d 'The capture directory: `names`, and a `log.NUMBER` for each line of it'
complete -c redo-log-new -s u -l unchanged -d 'Show targets that needed no rebuild too'
complete -c redo-log-new -l every -d 'Compare all other listed targets, too'
complete -c redo-log-new -l output -r -F -d 'Write the text to FILE, which it replaces once it is complete'
complete -c redo-log-new -l senders -x -d 'The number of threads that read logs, 1 to 64'
complete -c redo-log-new -s h -l help -d 'Print help'
complete -c redo-log-new -s V -l version -d 'Print version'
