# Completion for redo-log in bash 4.4 or newer: its options, directories after --dir, and the names that the directory
# lists. A name that begins with a dash is offered only after --. The completion quotes names itself: readline does so only for file
# names, and would add a slash to a target that is also a directory.

# Splits a line into `words` as bash does, but expands nothing. Sets `quote` to the quote that is open at the end of the line.
_redo_log_words() {
  local line=$1 i
  words=('') quote=
  for ((i = 0; i < ${#line}; i++)); do
    case $quote${line:i:1} in
      \' | \") quote=${line:i:1} ;;
      \'\' | \"\") quote= ;;
      [[:space:]]) words+=('') ;;
      \\ | \"\\)
        ((i++))
        [[ $quote && ${line:i:1} != [\$\`\"\\] ]] && words[-1]+=\\
        words[-1]+=${line:i:1}
        ;;
      *) words[-1]+=${line:i:1} ;;
    esac
  done
}

# Prints the names in $dir/names that begin with `typed`, without their prefix `start`, escaped for the open quote `quote`. If
# a printed name begins or ends with that quote, it gets another one there, because Readline takes it for the quote that it opened
# or must close. If more than a thousand names match, this prints only some of them, with the same common prefix as all, so it is
# fast, and the common prefix is still completed.
_redo_log_names() {
  [[ -f $dir/names ]] || return
  LC_ALL=C typed=$typed start=$start quote=$quote option=$option awk '
    BEGIN {
      typed = ENVIRON["typed"]
      first = length(ENVIRON["start"]) + 1
      quote = ENVIRON["quote"]
      dashes = ENVIRON["option"] == "--"
    }
    sub(/^!?[0-9]+ /, "") && substr($0, 1, length(typed)) == typed && (dashes || !/^-/) {
      if (++count == 1)
        common = $0
      if (substr($0, 1, length(common)) == common && count > 1000)
        next
      while (substr($0, 1, length(common)) != common)
        common = substr(common, 1, length(common) - 1)
      rest = substr($0, first)
      if (quote == "\047")
        gsub(/\047/, "\047\\\047\047", rest)
      else if (quote == "\"") {
        gsub(/[$"`\\]/, "\\\\&", rest)
        gsub(/!/, "\"\\!\"", rest)
      } else
        gsub(/[][\001-\040!"#$&\047()*;<>?\\^`{|}~\177]/, "\\\\&", rest)
      if (quote != "" && substr(rest, 1, 1) == quote)
        rest = quote rest
      if (quote != "" && substr(rest, length(rest)) == quote)
        rest = rest quote
      print rest
    }' "$dir/names"
}

# Completes the word at the cursor for a program with these `options`.
_redo_log_complete() {
  local words quote line=${COMP_LINE:0:COMP_POINT} typed start word option= dir=
  _redo_log_words "$line"
  typed=${words[-1]}
  unset 'words[-1]'
  for word in "${words[@]:1}"; do
    case $option in
      --) ;;
      --dir) dir=${word/#~\//~/} option= ;;
      --baseline | --senders | --capacity | --output | --title | --max-bytes) option= ;;
      *)
        case $word in
          --dir=*) dir=${word#*=} ;;
          -- | --dir | --baseline | --senders | --capacity | --output | --title | --max-bytes) option=$word ;;
        esac
        ;;
    esac
  done
  # The default of the installed program.
  if [[ -z $dir && ! -e names ]]; then
    if [[ -e .redo-log ]]; then dir=.redo-log
    elif [[ -e capture/names ]]; then dir=capture
    fi
  fi
  dir=${dir:-.}
  # Readline replaces only $2, the end of the typed text: it begins after an open quote, or after a character such as `:`.
  _redo_log_words "${line:0:${#line}-${#2}}"
  start=${words[-1]}

  COMPREPLY=()
  case $option:$typed in
    # A capture directory contains no directory except a hidden one.
    --dir:* | :--dir=* | --baseline:* | :--baseline=*)
      typed=${typed#--dir=}
      [[ $typed == */ && -d ${typed#--baseline=}.capture ]] || compopt -o dirnames
      ;;
    --output:* | :--output=*) compopt -o default ;;
    --senders:* | --capacity:* | --title:* | --max-bytes:*) ;;
    :-*) mapfile -t COMPREPLY < <(compgen -W "$options" -- "$typed") ;;
    *) mapfile -t COMPREPLY < <(_redo_log_names) ;;
  esac
}

_redo_log() {
  local options='-r --recursive -u --unchanged --no-details --debug-locks --debug-pids --dir --senders --capacity
    -h --help -V --version'
  _redo_log_complete "$@"
}

complete -o nosort -F _redo_log redo-log
