# Completion of the words of faucet and faucet_recorded for bash.

# The datapaths of a configuration, as far as the program reads it.
_faucet_datapaths() {
  "$1" check "$2" 2>/dev/null | python3 -c 'import json, sys; print("\n".join(json.load(sys.stdin)["dps"]))' 2>/dev/null
}

_faucet_files() {
  local IFS=$'\n'
  compopt -o filenames 2>/dev/null
  mapfile -t COMPREPLY < <(compgen -f -- "$1")
}

# The options of a command that don't stand in the line yet.
_faucet_options() {
  local option left=()
  for option in $1; do
    [[ " ${COMP_WORDS[*]} " == *" $option "* || " ${COMP_WORDS[*]} " == *" $option="* ]] || left+=("$option")
  done
  mapfile -t COMPREPLY < <(compgen -W "${left[*]}" -- "$2")
}

_faucet() {
  local word=${COMP_WORDS[COMP_CWORD]} before=${COMP_WORDS[COMP_CWORD - 1]} command=${COMP_WORDS[1]} options=
  COMPREPLY=()
  if [[ ${COMP_WORDS[0]##*/} == faucet_recorded ]]; then
    command=recorded
  elif [[ $COMP_CWORD -eq 1 ]]; then
    mapfile -t COMPREPLY < <(compgen -W "check plan replay serve gauge gauge-serve bench trace walk bgp bgp-serve" -- "$word")
    return
  fi
  case $command in
    serve) options="--events --reload-ms --listen" ;;
    gauge-serve | bgp-serve) options="--events --listen" ;;
    recorded) options="--events --record --reload-ms --listen" ;;
  esac
  case $before in
    --events) COMPREPLY=(1000000000) && return ;;
    --reload-ms) COMPREPLY=(1000) && return ;;
    --listen) return ;;
  esac
  if [[ $word == -* ]]; then
    _faucet_options "$options" "$word"
  elif [[ $command == plan && $COMP_CWORD -eq 3 || $command =~ ^(trace|walk)$ && $COMP_CWORD -eq 4 ]]; then
    mapfile -t COMPREPLY < <(compgen -W "$(_faucet_datapaths "${COMP_WORDS[0]}" "${COMP_WORDS[2]}")" -- "$word")
  else
    _faucet_files "$word"
  fi
}

complete -F _faucet faucet faucet_recorded
