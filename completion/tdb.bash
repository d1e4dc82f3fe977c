# Completion of bash for the program tdb: its commands, their options, the commands of `tool`, and names of files.

_tdb_names() {
  # Names of files that begin with the word at hand.
  local names
  mapfile -t names < <(compgen -f -- "$1")
  COMPREPLY=("${names[@]}")
  compopt -o filenames 2>/dev/null || true
}

_tdb_words() {
  # Those of the words $2 that begin with the word at hand.
  mapfile -t COMPREPLY < <(compgen -W "$2" -- "$1")
}

_tdb() {
  local word=${COMP_WORDS[COMP_CWORD]} before=${COMP_WORDS[COMP_CWORD - 1]}
  COMPREPLY=()
  if [ "$COMP_CWORD" -eq 1 ]; then
    case $word in
      -*) _tdb_words "$word" "--help --version" ;;
      *) _tdb_words "$word" "tool dump restore backup convert mend turns gen help" ;;
    esac
    return
  fi
  local command=${COMP_WORDS[1]} options= valued=
  case $command in
    tool | restore) options="--limit" valued="--limit" ;;
    dump) options="-e -k" valued="-k" ;;
    backup) options="-s -v" valued="-s" ;;
    convert) options="--into --limit --prefix" valued="--limit --prefix" ;;
    turns) options="--limit --no-nesting --read-only --seqnum" valued="--limit" ;;
    mend | gen) ;;
    *) return ;;
  esac

  # The value of an option isn't known, and behind `=` neither.
  case " $valued " in *" $before "*) return ;; esac
  if [ "$before" = "=" ] || [ "$word" = "=" ]; then return; fi

  # The positions before the word, and whether `--` has come.
  local i positions=() ended= value=
  for ((i = 2; i < COMP_CWORD; i++)); do
    local here=${COMP_WORDS[i]}
    if [ -n "$value" ]; then
      value=
    elif [ "$here" = "=" ]; then
      value=yes
    elif [ -z "$ended" ] && [ "$here" = "--" ]; then
      ended=yes
    elif [ -z "$ended" ] && [[ $here == -?* ]]; then
      # The word behind `=` is the value then.
      if [ "${COMP_WORDS[i + 1]-}" != "=" ]; then
        case " $valued " in *" $here "*) value=yes ;; esac
      fi
    else
      positions+=("$here")
    fi
  done

  if [ -z "$ended" ] && [[ $word == -* ]]; then
    _tdb_words "$word" "$options"
    return
  fi
  case $command:${#positions[@]} in
    backup:* | dump:0 | restore:0 | convert:[01] | mend:[01] | turns:0 | tool:0 | gen:2) _tdb_names "$word" ;;
    convert:3) _tdb_words "$word" "default jenkins" ;;
    convert:4) _tdb_words "$word" "little big" ;;
    tool:1)
      _tdb_words "$word" "create show insert store storehex delete move erase check info list free repack first next dump
        keys hexkeys transaction_start transaction_commit transaction_cancel quit"
      ;;
    tool:3)
      case ${positions[1]} in
        create) _tdb_words "$word" "default jenkins" ;;
        move) _tdb_names "$word" ;;
      esac
      ;;
    tool:4) if [ "${positions[1]}" = create ]; then _tdb_words "$word" "little big"; fi ;;
  esac
}

complete -F _tdb tdb
