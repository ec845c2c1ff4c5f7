# Completion for redo-log-html in bash 4.4 or newer: its options, directories after --dir and --baseline, files after --output, and
# the names that the directory lists. It uses functions of the completion for redo-log, whose file is next to this one.

# shellcheck source=shell/redo-log.bash
source "${BASH_SOURCE[0]%-html*}${BASH_SOURCE[0]##*-html}"

_redo_log_html() {
  local options='-u --unchanged --debug-locks --dir --baseline --output --title --max-bytes --senders -h --help -V --version'
  _redo_log_complete "$@"
}

complete -o nosort -F _redo_log_html redo-log-html
