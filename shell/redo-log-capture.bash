# Completion for redo-log-capture in bash: its options, a directory after --dir, a file after --summary, --html or --json, a word
# after --colour=, and a command.
# The command's arguments are completed by the command's own completion if bash-completion is loaded, otherwise as file names.

_redo_log_capture() {
  local index option
  for ((index = 1; index < COMP_CWORD; index++)); do
    case ${COMP_WORDS[index]} in
      --dir | --summary | --html | --json)
        option=${COMP_WORDS[index]}
        ((index++))
        [[ ${COMP_WORDS[index]} == = ]] && ((index++))
        ;;
      --progress | --colour)
        option=${COMP_WORDS[index]}
        [[ ${COMP_WORDS[index + 1]} == = ]] && ((index += 2))
        ;;
      --both | --commands | --live | --quiet | --must-close | --finish) ;;
      --)
        ((index++))
        break
        ;;
      *) break ;;
    esac
  done

  COMPREPLY=()
  if ((index > COMP_CWORD)); then
    case $option in
      --dir)
        # A capture directory contains no directory except a hidden one.
        [[ $2 == */ && -d $2.capture ]] || compopt -o dirnames
        ;;
      --summary | --html | --json) compopt -o default ;;
      --colour) mapfile -t COMPREPLY < <(compgen -W 'auto always never' -- "${2#=}") ;;
    esac
  elif ((index < COMP_CWORD)); then
    if declare -F _command_offset >/dev/null; then
      _command_offset "$index"
    else
      compopt -o default
    fi
  elif [[ $2 == -* ]]; then
    mapfile -t COMPREPLY < <(compgen -W '--dir --both --colour --commands --live --quiet --summary --html --json --progress --must-close --finish -h --help -V --version' -- "$2")
  else
    mapfile -t COMPREPLY < <(compgen -c -- "$2")
  fi
}

complete -F _redo_log_capture redo-log-capture
