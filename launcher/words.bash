# The words of the command line: those of the launcher, and what is wrong with the others.

# Reads the words into $text (with $has_text) and $files of -e, $is_raw, $lets and the program's
# $words. A word after an option that takes a value is that value.
read_words() {
  has_text= text= is_raw= files=() lets=() words=()
  while [ $# -gt 0 ]; do
    case $1 in
      --)
        [ -z "$has_text" ] || shift
        take_words "$@"
        return
        ;;
      -r | --raw) is_raw=1 ;;
      --let=* | --let-json=*) take_let "${1%%=*}" "${1#*=}" || return ;;
      --let | --let-json)
        take_let "$1" "${2-}" || return
        shift
        ;;
      -e)
        if is_taken; then
          words+=(-e)
        else
          take_text "${@:2:1}" || return
          shift
        fi
        ;;
      --workers | --partition | --mode)
        words+=("${@:1:2}")
        [ $# -eq 1 ] || shift
        ;;
      -*) words+=("$1") ;;
      *) take_words "$1" ;;
    esac
    shift
  done
}

# Whether there is a query already, by -e or by one of the program's own words: another -e is then
# refused with those.
is_taken() {
  [ -n "$has_text" ] || [[ ${words[0]--} != -* ]]
}

take_text() {
  if [ $# -eq 0 ]; then
    printf "usage: rumble -e 'TEXT' [WORDS] [FILE]\n" >&2
    return 3
  fi
  has_text=1 text=$1
}

# Takes words that belong to no option.
take_words() {
  if [ -n "$has_text" ]; then
    files+=("$@")
  else
    words+=("$@")
  fi
}

# Takes NAME=VALUE, the value of an option --let or --let-json.
take_let() {
  if [[ $2 != ?*=* ]]; then
    say "$1: NAME=VALUE stands after it"
    return 3
  fi
  lets+=("$1" "${2%%=*}" "${2#*=}")
}

# Says what is wrong with the program's words, which it refuses then with its usage line.
check_words() {
  local verb=${1-} arguments=0 wanted=1 seen=' '
  case $verb in
    '') return ;;
    run | check | explain) ;;
    trial | parts) wanted=2 ;;
    *) say "$verb: no such word; rumble --help has all words" && return ;;
  esac
  shift
  while [ $# -gt 0 ] && [ "$1" != -- ]; do
    if [[ $1 == -?* ]]; then
      check_option "$@" || return 0
      case $1 in
        --stats | *=*) ;;
        *) [ $# -eq 1 ] || shift ;;
      esac
    else
      arguments=$((arguments + 1))
    fi
    shift
  done
  [ $# -eq 0 ] || arguments=$((arguments + $# - 1))
  [ "$arguments" -ne "$wanted" ] || return 0
  if [ "$verb" = trial ]; then
    say "trial takes two words, NUMBER and LINES"
  elif [ "$verb" = parts ]; then
    say "parts takes two words, QUERY and COUNT"
  else
    say "$verb takes one word, QUERY; a query names its inputs itself, as json-lines(\"FILE\")"
  fi
}

# Says what is wrong with the option $1, whose value may be the next word. $seen has the earlier ones.
check_option() {
  local name=${1%%=*}
  case $name in
    --workers | --partition | --mode | --stats) ;;
    *) say "$1: no such option" && return 1 ;;
  esac
  if ! is_option_of "$verb" "$name"; then
    say "$name: no option of $verb"
    return 1
  fi
  if [[ $seen == *" $name "* ]]; then
    say "$name: it stands there twice"
    return 1
  fi
  seen+="$name "
  case $1 in
    --stats) ;;
    --stats=*) say "$name: it takes no value" && return 1 ;;
    *=*) check_value "$name" "${1#*=}" ;;
    *) check_value "$name" "${2-}" ;;
  esac
}

is_option_of() {
  case $1:$2 in
    run:* | trial:--workers | trial:--partition | parts:--workers | parts:--partition) return 0 ;;
  esac
  return 1
}

# Says what the value of an option may be, where this one is not.
check_value() {
  local most number=0
  case $1 in
    --mode)
      [ "$2" != auto ] && [ "$2" != local ] || return 0
      say "$1 $2: auto or local"
      return 1
      ;;
    --workers) most=64 ;;
    --partition) most=1073741824 ;;
  esac
  [[ $2 =~ ^\+?0*([0-9]{1,10})$ ]] && number=${BASH_REMATCH[1]}
  [ "$number" -lt 1 ] || [ "$number" -gt "$most" ] || return 0
  say "$1 $2: 1 to $most"
  return 1
}
