# Runs the program, which $program names: in the place of the launcher where nothing is to be done
# behind it, and else as its child.

# Sets $name to the query's file among the words of a command, and $name_at to its place there: the
# first that belongs to no option.
find_query_name() {
  local at=1
  name= name_at=
  while [ "$at" -lt ${#words[@]} ]; do
    case ${words[at]} in
      --) at=$((at + 1)) && break ;;
      --workers | --partition | --mode) at=$((at + 1)) ;;
      -*) ;;
      *) break ;;
    esac
    at=$((at + 1))
  done
  [ "$at" -lt ${#words[@]} ] && name=${words[at]} name_at=$at
}

# Ends the program with the launcher, where a signal ends that.
stop_with() {
  if [ -n "$child" ]; then
    kill -TERM "$child" 2> /dev/null
    wait "$child"
  fi
  echo 2> /dev/null >&7
  [ -z "$room" ] || rm -rf -- "$room"
  trap - "$1"
  kill -s "$1" "$BASHPID"
}

# Opens what the program gets as a child: 3 is the standard output, 4 takes the text of its errors, 5 is
# the standard input, and 6 leads to the output, through the filter if there is one.
open_streams() {
  # Closed streams stay what they are to the program: nothing to read, and no room to write.
  { : >&1; } 2> /dev/null || exec > /dev/full
  { : <&0; } 2> /dev/null || exec < /dev/null
  exec 3>&1 4<> <(:) 5<&0
  filter=
  if [ -n "$is_raw" ]; then
    exec 6> >(export LC_ALL=C && exec awk -f "$parts/text.awk" -f "$parts/raw.awk" >&3 2> /dev/null 4>&- 5<&-)
    filter=$!
  else
    exec 6>&1
  fi
}

# Waits for the end of the program, with which the launcher ends where a signal ends that. Where the
# launcher is killed outright, the end of the pipe 7 tells so to a process that ends the program then.
wait_for_child() {
  local status
  exec 7> >({ read -r || kill -TERM "$child"; } > /dev/null 2>&1 3>&- 4>&- 5<&-)
  wait "$child"
  status=$?
  echo >&7
  exec 7>&-
  trap - HUP INT QUIT TERM
  return "$status"
}

# Runs the program as a child, with the text of its errors in $told, and returns its status. It reads
# the query from 9, if that is open.
run_child() {
  local status filter filtered=0 signal
  open_streams
  child=
  for signal in HUP INT QUIT TERM; do
    # shellcheck disable=SC2064
    trap "stop_with $signal" "$signal"
  done
  "$program" "${words[@]}" <&5 >&6 2>&4 3>&- 4>&- 5<&- 6>&- &
  child=$!
  exec 6>&-
  wait_for_child
  status=$?
  if [ -n "$filter" ]; then
    wait "$filter"
    filtered=$?
  fi
  printf '\0' >&4
  IFS= read -r -d '' told <&4
  told=${told%$'\n'}
  # A filter that ends by SIGPIPE could not write since nobody reads; another failure is want of room.
  if [ "$status" -eq 0 ] && [ "$filtered" -ne 0 ] && [ "$filtered" -ne 141 ]; then
    told='write fault' status=5
  fi
  # Whoever reads a pipe may have enough of it.
  if [ "$status" -eq 5 ] && [ -p /dev/fd/3 ] && [ "$told" = 'write fault' ]; then
    told=
  fi
  exec 3>&- 4>&- 5<&-
  return "$status"
}

# Takes $front out of a place on the first line.
correct_place() {
  if [[ $told =~ ^((raised|refused)\ [A-Z0-9]+\ at\ 1:)([0-9]+)(.*)$ ]] && [ "${BASH_REMATCH[3]}" -gt "$shift_by" ]; then
    told=${BASH_REMATCH[1]}$((BASH_REMATCH[3] - shift_by))${BASH_REMATCH[4]}
  fi
}

# Prints the text of the query, for what is said of it. What came through a pipe is not there any more.
print_query() {
  if [ -n "$has_text" ]; then
    printf '%s' "$text"
  elif [ -f "$name" ]; then
    cat -- "$name"
  else
    return 1
  fi
}

# Runs the program with the words that were read.
run_program() {
  local status told child
  if [ ! -t 2 ] && [ ! -p /dev/stdout ] && [ -z "$is_raw$room$front" ]; then
    exec "$program" "${words[@]}"
  fi
  run_child
  status=$?
  correct_place
  [ -z "$told" ] || printf '%s\n' "$told" >&2
  if [ -t 2 ] && [[ $told =~ ^(raised|refused)\ ([A-Z0-9]+)\ at\ ([0-9]+):([0-9]+) ]]; then
    with errors
    explain "${BASH_REMATCH[2]}" "${BASH_REMATCH[3]}" "${BASH_REMATCH[4]}" >&2
  fi
  return "$status"
}

# Runs the words of the command line.
run_words() {
  local has_text text is_raw files lets words front shift_by name name_at
  with words query
  read_words "$@" || return
  if [ -n "$has_text" ]; then
    take_input && make_front || return
    words=(run /dev/fd/9 "${words[@]}")
    exec 9< <(printf '%s' "$front$text")
  else
    make_front || return
    find_query_name
    if [ -n "$front" ] && [ "${words[0]-}" = trial ]; then
      say "trial runs a query of its own, which takes no values"
      return 3
    fi
    if [ -n "$front" ] && [ "${words[0]-}" = explain ]; then
      say "explain takes no values: it tells the places of the query's file as it stands"
      return 3
    fi
    if [ -n "$front" ] && [ -r "$name" ] && [ ! -d "$name" ]; then
      exec 9< <(print_with_front "$name")
      words[name_at]=/dev/fd/9
    fi
  fi
  check_words "${words[@]}"
  run_program
}
