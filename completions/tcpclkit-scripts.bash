# Completions of the scripts of tcpclkit for bash.

_tcpclkit_script() {
  local word=${COMP_WORDS[COMP_CWORD]} before=${COMP_WORDS[COMP_CWORD - 1]} given option
  local words='' numbers='' paths='' sides='' flags='-h --help' again=''
  COMPREPLY=()
  case ${COMP_WORDS[0]##*/} in
    tcpclkit-capture) numbers='--port' paths='--tcpclkit' flags+=' --check --page --own' again='--port' ;;
    tcpclkit-split) paths='--tcpclkit' flags+=' --keep-going' ;;
    tcpclkit-pair) sides='--closed' paths='--tcpclkit' ;;
    tcpclkit-resync) numbers='--longest' paths='-o --output' flags+=' --start' ;;
    tcpclkit-check-session) sides='--closed' paths='--times --tcpclkit' flags+=' --must --own' ;;
    tcpclkit-probe)
      numbers='--listen --only --fuzz --seed --send --destination --node --keepalive --segment-mru'
      numbers+=' --transfer-mru --timeout --patience --wait --jobs'
      paths='--play --junit --tcpclkit' flags+=' --mine --list --must' again='--only'
      ;;
    tcpclkit-page) sides='--closed' paths='-o --output --times --tcpclkit' ;;
  esac
  # bash cuts a value at `=`.
  [[ $word != '=' ]] || word=''
  [[ $before != '=' ]] || before=${COMP_WORDS[COMP_CWORD - 2]}
  # No number is suggested.
  [[ " $numbers " != *" $before "* ]] || return
  if [[ $before == "$sides" ]]; then
    mapfile -t COMPREPLY < <(compgen -W 'a b ab' -- "$word")
    return
  fi
  given=" ${COMP_WORDS[*]:1:COMP_CWORD - 1} "
  if [[ $word != -* || " $paths " == *" $before "* || $given == *' -- '* ]]; then
    compopt -o filenames 2> /dev/null
    mapfile -t COMPREPLY < <(compgen -f -- "$word")
    return
  fi
  for option in $numbers $sides $paths $flags; do
    [[ $given == *" $option "* && $option != "$again" ]] || words+=" $option"
  done
  mapfile -t COMPREPLY < <(compgen -W "$words" -- "$word")
}

complete -F _tcpclkit_script tcpclkit-{capture,split,pair,resync,json,faults,check-session,page,probe}
