# Completes gameshrink in bash: commands, the options that a command takes and has not yet, and their values. It needs nothing else.
_gameshrink() {
  local cur=${COMP_WORDS[COMP_CWORD]} words='' word
  COMPREPLY=()
  case ${COMP_WORDS[COMP_CWORD - 1]} in
    '<' | '>' | '>>' | '2>')
      compopt -o filenames 2>/dev/null
      mapfile -t COMPREPLY < <(compgen -f -- "$cur")
      return
      ;;
    --classes) words='ogi split raw' ;;
    --kind) words='kuhn leduc rhode' ;;
    --player) words='1 2' ;;
    --ranks) words='1 2 3 4 5 6 7 8 9 10 11 12 13' ;;
    --suits) words='1 2 3 4' ;;
    --cap) words='0 1 2 3 4 5 6 7 8' ;;
    --turns | --line | --signal) ;;
    *)
      if [ "$COMP_CWORD" = 1 ]; then
        words='shrink check solve path play evaluate query judge duel certify verify upgrade make'
      else
        case ${COMP_WORDS[1]} in
          shrink) words='--summary' ;;
          check) words='--classes --summary' ;;
          solve | path) words='--classes' ;;
          play) words='--turns --classes' ;;
          query) words='--player --line --signal' ;;
          make) words='--kind --ranks --suits --cap --summary' ;;
        esac
        for word in "${COMP_WORDS[@]:2:COMP_CWORD-2}"; do
          words=" $words "
          words=${words/ $word / }
        done
      fi
      ;;
  esac
  # (words without spaces, so that no folder /dev/fd is needed)
  COMPREPLY=($(compgen -W "$words" -- "$cur"))
}
complete -F _gameshrink gameshrink
