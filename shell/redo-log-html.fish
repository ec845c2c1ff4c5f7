# Completion for redo-log-html in fish: its options, directories after --dir and --baseline, files after --output, and the
# names that the directory lists. It uses a function of the completion for redo-log, whose file is next to this one.

functions -q __redo_log_names; or source (status dirname)/redo-log.fish

complete -c redo-log-html -f -k -a '(__redo_log_names)'
complete -c redo-log-html -s u -l unchanged -d 'Show targets that needed no rebuild too'
complete -c redo-log-html -l debug-locks -d 'Show messages about waiting and locking'
complete -c redo-log-html -l dir -x -a '(__fish_complete_directories (commandline -ct))' \
    -d 'The capture directory: `names`, and a `log.NUMBER` for each line of it'
complete -c redo-log-html -l baseline -x -a '(__fish_complete_directories (commandline -ct))' \
    -d 'Compare with an earlier build: DIR is its capture directory'
complete -c redo-log-html -l output -r -F -d 'Write the page to FILE, which it replaces once it is complete'
complete -c redo-log-html -l title -x -d 'The title of the page'
complete -c redo-log-html -l max-bytes -x \
    -d 'Shorten the longest logs if all together have more than N bytes of text; 0 shows everything'
complete -c redo-log-html -l senders -x -d 'The number of threads that read logs, 1 to 64'
complete -c redo-log-html -s h -l help -d 'Print help'
complete -c redo-log-html -s V -l version -d 'Print version'
