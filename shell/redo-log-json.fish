# Completion for redo-log-json in fish: its options, directories after --dir and --baseline, files after --output, and the names that the
# directory lists. It uses a function of the completion for redo-log, whose file is next to this one.

functions -q __redo_log_names; or source (status dirname)/redo-log.fish

complete -c redo-log-json -f -k -a '(__redo_log_names)'
complete -c redo-log-json -s u -l unchanged -d 'Show targets that needed no rebuild too'
complete -c redo-log-json -l every -d 'Also write the logs of all other listed targets'
complete -c redo-log-json -l dir -x -a '(__fish_complete_directories (commandline -ct))' \
    -d 'The capture directory: `names`, and a `log.NUMBER` for each line of it'
complete -c redo-log-json -l baseline -x -a '(__fish_complete_directories (commandline -ct))' \
    -d 'Compare with an earlier build: DIR is its capture directory'
complete -c redo-log-json -l output -r -F -d 'Write the objects to FILE, which they replace once they are complete'
complete -c redo-log-json -l senders -x -d 'The number of threads that read logs, 1 to 64'
complete -c redo-log-json -s h -l help -d 'Print help'
complete -c redo-log-json -s V -l version -d 'Print version'
