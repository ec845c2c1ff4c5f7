# Completion for redo-log-json in bash 4.4 or newer: its options, directories after --dir and --baseline, files after --output, and the
# names that the directory lists. It uses functions of the completion for redo-log, whose file is next to this one.

# shellcheck source=shell/redo-log.bash
source "${BASH_SOURCE[0]%-json*}${BASH_SOURCE[0]##*-json}"

_redo_log_json() {
  local options='-u --unchanged --every --dir --baseline --output --senders -h --help -V --version' words quote
  _redo_log_words "${COMP_LINE:0:COMP_POINT}"
  # The argument of --baseline is completed as the one of --dir.
  case ${words[-2]-}:${words[-1]} in
    --baseline:* | *:--baseline=*)
      COMPREPLY=()
      [[ ${words[-1]} == */ && -d ${words[-1]#--baseline=}.capture ]] || compopt -o dirnames
      ;;
    *) _redo_log_complete "$@" ;;
  esac
}

complete -o nosort -F _redo_log_json redo-log-json
