# Completion for taxi and hiring_log in bash. It runs no program; tests/completions compares it with what `help` lists. Names
# of files are left to the shell's own completion: they come into no `eval` and no `compgen -W`.
_taxi() {
  local choices= choice ending= current=${COMP_WORDS[COMP_CWORD]} commands='file show rows' faults=
  COMPREPLY=()
  if [ "${1##*/}" = taxi ]; then
    commands='check faults form tables rates near lines compare fare seal run bench explain story totals sealed port gen offsets mark shifts'
    faults='TooLong Syntax NoStep StepZero Duplicate TooManyLines UnknownNumber NoDefaultRate NoDefaultInitial
      LineAfterDefault BadDate AmountTooBig MeasureZero NoCommonMeasure TooManyCuts TooManyCells
      Unknown Twice BadValue Missing BadLine SameMonth'
  fi
  case "$((COMP_CWORD - 1)) ${COMP_WORDS[1]}" in
    '0 -'*) choices='-h --help --version' ;;
    '0 '*) choices="$commands help version" ;;
    '1 help') choices="$commands $faults" ;;
    '1 mark') choices='on off' ;;
    '1 check' | '1 faults' | '1 form' | '1 tables' | '1 rates' | '1 near' | '1 lines' | '1 compare' | '2 compare') ending=tariff ;;
    '1 fare' | '1 seal' | '1 run' | '1 bench' | '1 explain' | '1 story') ending=tariff ;;
    '2 fare' | '2 run' | '2 bench' | '2 explain' | '2 story') ending=drive ;;
    '2 seal' | '3 explain' | '3 story') ending=params ;;
    '3 bench') ending=readings ;;
    '1 port') ending=requests ;;
    '1 offsets') ending=rules ;;
    '1 shifts') ending=book ;;
    '1 file' | '1 rows') ending=roll ;;
  esac
  if [ -n "$ending" ]; then
    # A name of a file: one of the ending, or a folder, or where none has the ending any name.
    # What was typed with quotes is left to the shell.
    [[ $current != *[!A-Za-z0-9_./+,@%-]* ]] || return
    mapfile -t COMPREPLY < <(_taxi_files "$ending" "$current")
    compopt -o filenames
    return
  fi
  compopt +o default
  for choice in $choices; do
    [[ $choice != "$current"* ]] || COMPREPLY+=("$choice")
  done
}
_taxi_files() {
  if compgen -f -X "!*.$1" -- "$2"; then compgen -d -- "$2"; else compgen -f -- "$2"; fi
}
complete -o default -F _taxi taxi hiring_log
