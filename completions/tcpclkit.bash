# Completions of tcpclkit for bash.

_tcpclkit() {
  local word=${COMP_WORDS[COMP_CWORD]} before=${COMP_WORDS[COMP_CWORD - 1]} given option
  local words='' values='' flags='-h --help' tools='list unpack blocks check pack'
  COMPREPLY=()
  if ((COMP_CWORD == 1)) || [[ $COMP_CWORD == 2 && $before == help ]]; then
    words=$tools
    ((COMP_CWORD == 2)) || words+=' help'
    [[ $word != -* || $COMP_CWORD == 2 ]] || words="$flags -V --version"
    mapfile -t COMPREPLY < <(compgen -W "$words" -- "$word")
    return
  fi
  case ${COMP_WORDS[1]} in
    list) ;;
    unpack) values='--transfer' flags+=' --payload --keep-going' ;;
    blocks) values='--transfer' flags+=' --keep-going --bundles' ;;
    check) values='--own --peer-segment --peer-transfer' flags+=' --must --bundles' ;;
    pack)
      values='--node --keepalive --segment-mru --transfer-mru --peer-segment --peer-transfer --announce'
      flags+=' --end'
      ;;
    *) return ;;
  esac
  # No value of an option is suggested. bash cuts a value at `=` and `:`.
  [[ " $values = : " != *" $before "* ]] || return
  given=" ${COMP_WORDS[*]:2:COMP_CWORD - 2} "
  if [[ $word != -* || $given == *' -- '* ]]; then
    compopt -o filenames 2> /dev/null
    mapfile -t COMPREPLY < <(compgen -f -- "$word")
    return
  fi
  # No option may be given twice.
  for option in $values $flags; do
    [[ $given == *" $option "* ]] || words+=" $option"
  done
  mapfile -t COMPREPLY < <(compgen -W "$words" -- "$word")
}

complete -F _tcpclkit tcpclkit
