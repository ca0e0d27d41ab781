# Completion for ./slice in bash: source tools/completion.bash
_slice() {
  local commands="certify check demo explain help paths print replay run upgrade verify" at=1
  local word=${COMP_WORDS[COMP_CWORD]}
  if [ "${COMP_WORDS[1]}" = explain ] && [ "$COMP_CWORD" -gt 1 ]; then
    at=2
  fi
  if [ "$COMP_CWORD" -eq "$at" ]; then
    mapfile -t COMPREPLY < <(compgen -W "$commands" -- "$word")
  elif [ "${COMP_WORDS[at]}" = demo ]; then
    mapfile -t COMPREPLY < <(compgen -W "1 2 3 4 5 6 7 8" -- "$word")
  elif [ "${COMP_WORDS[at]}" = help ]; then
    COMPREPLY=()
  else
    compopt -o filenames
    mapfile -t COMPREPLY < <(compgen -f -- "$word")
  fi
}
complete -F _slice slice
