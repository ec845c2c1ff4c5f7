# Completion for redo-log-capture in fish: its options, a directory after --dir, a file after --summary, --html or --json, a word
# after --colour=, and a command.

function __redo_log_capture_is_before_command -d 'Whether the command line has no command yet'
    set -l words (commandline -poc)
    set -e words[1]
    while set -q words[1]
        switch $words[1]
            case --dir --summary --html --json
                set -e words[1]
                set -q words[1]; or return 0
            case --
                return 1
            case '-*'
            case '*'
                return 1
        end
        set -e words[1]
    end
end

complete -c redo-log-capture -x -a '(__fish_complete_subcommand -- --dir --summary --html --json)'
complete -c redo-log-capture -n __redo_log_capture_is_before_command -l dir -x \
    -a '(__fish_complete_directories (commandline -ct))' -d 'The capture directory'
complete -c redo-log-capture -n __redo_log_capture_is_before_command -l both -d 'Capture standard output too'
complete -c redo-log-capture -n __redo_log_capture_is_before_command -l colour -f -a 'auto always never' \
    -d 'Let recipes print colours: auto, if standard error is a terminal; always; or never'
complete -c redo-log-capture -n __redo_log_capture_is_before_command -l commands \
    -d 'Record the command of every line; by default, those of lines that failed are recorded'
complete -c redo-log-capture -n __redo_log_capture_is_before_command -l live \
    -d 'Print the output of every recipe, whenever a line of it ends'
complete -c redo-log-capture -n __redo_log_capture_is_before_command -l quiet \
    -d 'Print no output of recipes; by default, the output of failed recipes is printed'
complete -c redo-log-capture -n __redo_log_capture_is_before_command -l summary -r -F \
    -d 'Write a line per target to FILE: status, seconds, log number, name, processor time, memory'
complete -c redo-log-capture -n __redo_log_capture_is_before_command -l html -r -F \
    -d 'Write a page of the build to FILE with redo-log-html'
complete -c redo-log-capture -n __redo_log_capture_is_before_command -l json -r -F \
    -d 'Write the build as JSON to FILE with redo-log-json'
complete -c redo-log-capture -n __redo_log_capture_is_before_command -l progress \
    -d 'Print a line about the build every S seconds'
complete -c redo-log-capture -n __redo_log_capture_is_before_command -l must-close \
    -d 'Set the must-close flag of closed logs: redo-log then rejects truncated copies of them'
complete -c redo-log-capture -n __redo_log_capture_is_before_command -l finish \
    -d 'Finish the logs of a build that was killed'
complete -c redo-log-capture -n __redo_log_capture_is_before_command -s h -l help -d 'Print help'
complete -c redo-log-capture -n __redo_log_capture_is_before_command -s V -l version -d 'Print version'
