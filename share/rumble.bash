# Completes the words of rumble in bash. tools/words.py writes this file.

_rumble() {
  local word=${COMP_WORDS[COMP_CWORD]} before=${COMP_WORDS[COMP_CWORD - 1]} verb=${COMP_WORDS[1]} other
  for other in "${COMP_WORDS[@]:1:COMP_CWORD-1}"; do
    [[ $other != -e ]] || verb=-e
  done
  if [[ $before == '=' ]]; then
    before=${COMP_WORDS[COMP_CWORD - 2]}
  elif [[ $word == '=' ]]; then
    word=
  fi
  COMPREPLY=()
  case $before in
    -e | --let | --let-json | --workers | --partition) return ;;
    --mode)
      mapfile -t COMPREPLY < <(compgen -W 'auto local' -- "$word")
      return
      ;;
  esac
  if [ "$COMP_CWORD" -eq 1 ]; then
    mapfile -t COMPREPLY < <(compgen -W 'run parts check explain trial -e lines --build --program --help --version' -- "$word")
  elif [[ $word == -* ]]; then
    case $verb in
      run) mapfile -t COMPREPLY < <(compgen -W '-r --raw --let --let-json --stats --workers --partition --mode' -- "$word") ;;
      parts) mapfile -t COMPREPLY < <(compgen -W '--workers --partition' -- "$word") ;;
      check) mapfile -t COMPREPLY < <(compgen -W '--let --let-json' -- "$word") ;;
      explain) mapfile -t COMPREPLY < <(compgen -W '' -- "$word") ;;
      trial) mapfile -t COMPREPLY < <(compgen -W '--workers --partition' -- "$word") ;;
      -e) mapfile -t COMPREPLY < <(compgen -W '-r --raw --let --let-json --stats --workers --partition --mode' -- "$word") ;;
      lines) mapfile -t COMPREPLY < <(compgen -W '--all --good' -- "$word") ;;
    esac
  elif [[ $verb == @(run|parts|check|explain|-e|lines) ]]; then
    mapfile -t COMPREPLY < <(compgen -f -- "$word")
  fi
}
complete -o filenames -F _rumble rumble
