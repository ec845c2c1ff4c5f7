# Completion for redo-log-new in bash 4.4 or newer: its options, directories after --baseline and --dir, files after --output, and the
# names that the directory lists. It uses functions of the completion for redo-log, whose file is next to this one.

# shellcheck source=shell/redo-log.bash
source "${BASH_SOURCE[0]%-new*}${BASH_SOURCE[0]##*-new}"

_redo_log_new() {
  local options='--baseline --dir -u --unchanged --every --output --senders -h --help -V --version'
  _redo_log_complete "$@"
}

complete -o nosort -F _redo_log_new redo-log-new
