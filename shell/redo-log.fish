# Completion for redo-log in fish: its options, directories after --dir, and the names that the directory lists. A name that
# begins with a dash is offered only after --. A name that has a tab or begins with a tilde is not offered: fish takes the text
# after a tab as a description.

# If more than a thousand names match, this prints only some of them, with the same common prefix as all, so it is fast, and the
# common prefix is still completed.
function __redo_log_names
    set -l option
    set -l directory
    for word in (commandline -opc)[2..]
        if test "$option" = --dir
            set directory (string replace -r '^~/' ~/ -- $word)
            set option
        else if contains -- "$option" --baseline --senders --capacity --output --title --max-bytes
            set option
        else if test "$option" != --
            if string match -q -- '--dir=*' $word
                set directory (string replace -- --dir= '' $word)
            else if contains -- $word -- --dir --baseline --senders --capacity --output --title --max-bytes
                set option $word
            end
        end
    end
    # The default of the installed program.
    if test -z "$directory"
        set directory .
        if test -e names
        else if test -e .redo-log
            set directory .redo-log
        else if test -e capture/names
            set directory capture
        end
    end
    test -f "$directory/names"; or return
    # The word at the cursor. Its quote may still be open.
    set -l word (commandline -ct)
    set -l typed (string unescape -- $word; or string unescape -- "$word'"; or string unescape -- "$word\"")
    LC_ALL=C typed=$typed option=$option awk '
        BEGIN {
            typed = ENVIRON["typed"]
            dashes = ENVIRON["option"] == "--"
        }
        sub(/^!?[0-9]+ /, "") && substr($0, 1, length(typed)) == typed && (dashes || !/^-/) && !/^~|\t/ {
            if (++count == 1)
                common = $0
            if (substr($0, 1, length(common)) == common && count > 1000)
                next
            while (substr($0, 1, length(common)) != common)
                common = substr(common, 1, length(common) - 1)
            print
        }' "$directory/names"
end

complete -c redo-log -f -k -a '(__redo_log_names)'
complete -c redo-log -s r -l recursive -d 'Show the logs of mentioned targets too, each at its first mention'
complete -c redo-log -s u -l unchanged -d 'Show targets that needed no rebuild too'
complete -c redo-log -l no-details -d 'Omit the text lines of logs'
complete -c redo-log -l debug-locks -d 'Show messages about waiting and locking'
complete -c redo-log -l debug-pids -d 'Begin each redo line with the pid of its record'
complete -c redo-log -l dir -x -a '(__fish_complete_directories (commandline -ct))' \
    -d 'The capture directory: `names`, and a `log.NUMBER` for each line of it'
complete -c redo-log -l senders -x -d 'The number of threads that read logs, 1 to 64'
complete -c redo-log -l capacity -x -d 'The capacity of the mailbox, 1 to 65536 items of up to 1024 lines each'
complete -c redo-log -s h -l help -d 'Print help'
complete -c redo-log -s V -l version -d 'Print version'
