# Completion of ./lxfi and its tools for bash: source tools/editors/lxfi.bash

# The names of the modules of a case.
_lxfi_modules() {
  sed -n 's/^ *module  *\([a-z][a-z0-9_]*\) .*/\1/p' "$1" 2>/dev/null
}

# Offers words, and files with an ending (folders too); without one all files.
_lxfi_files() {
  local file
  COMPREPLY=()
  while IFS= read -r file; do
    if [ -d "$file" ]; then COMPREPLY+=("$file/"); elif [[ $file == *${1:-} ]]; then COMPREPLY+=("$file"); fi
  done < <(compgen -f -- "$word")
  compopt -o nospace 2>/dev/null
  [ "${#COMPREPLY[@]}" != 1 ] || [[ ${COMPREPLY[0]} == */ ]] || compopt +o nospace 2>/dev/null
}

_lxfi() {
  local word=${COMP_WORDS[COMP_CWORD]} at=1 place
  [ "${COMP_WORDS[1]:-}" != --quick ] || at=2
  place=$((COMP_CWORD - at))
  if [ "$COMP_CWORD" = 1 ]; then
    COMPREPLY=($(compgen -W "run replay instrument check generate why surface trace --quick --help" -- "$word"))
  elif [ "$place" = 0 ]; then
    COMPREPLY=($(compgen -W "run replay instrument check generate why surface trace" -- "$word"))
  else
    case "${COMP_WORDS[at]} $place" in
      "run 1" | "replay 1" | "instrument 1" | "check 1" | "why 1" | "surface 1" | "trace 1") _lxfi_files .case ;;
      "instrument 2" | "check 2") COMPREPLY=($(compgen -W "$(_lxfi_modules "${COMP_WORDS[at + 1]}")" -- "$word")) ;;
      "replay 2" | "why 2" | "trace 2" | "check 3") _lxfi_files ;;
      *) COMPREPLY=() ;;
    esac
  fi
}

_lxfi_explain() {
  local word=${COMP_WORDS[COMP_CWORD]}
  case $word in
    -*) COMPREPLY=($(compgen -W "--lint --help" -- "$word")) ;;
    *) if [ "$COMP_CWORD" = 1 ] || [ "${COMP_WORDS[1]}" = --lint ]; then _lxfi_files .case; else _lxfi_files; fi ;;
  esac
}

# Of tools/where and tools/picture: a case, and a schedule.
_lxfi_run_of_case() {
  local word=${COMP_WORDS[COMP_CWORD]}
  case $word in
    -*) COMPREPLY=($(compgen -W "--help" -- "$word")) ;;
    *) if [ "$COMP_CWORD" = 1 ]; then _lxfi_files .case; else _lxfi_files; fi ;;
  esac
}

_lxfi_module() {
  local word=${COMP_WORDS[COMP_CWORD]} before=${COMP_WORDS[COMP_CWORD - 1]} ending=.c
  case "$before $word" in
    "-o "*) _lxfi_files ;;
    *" -"*) COMPREPLY=($(compgen -W "-o --prototypes --help -O1 -Dvolatile= -D -I" -- "$word")) ;;
    *)
      case " ${COMP_WORDS[*]} " in *" --prototypes "*) ending=.h ;; esac
      _lxfi_files $ending ;;
  esac
}

complete -F _lxfi lxfi ./lxfi
complete -F _lxfi_explain explain tools/explain
complete -F _lxfi_run_of_case where tools/where picture tools/picture
complete -F _lxfi_module module tools/module
