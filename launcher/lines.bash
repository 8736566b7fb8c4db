# Finds the lines of files that json-lines refuses. Ranges of lines go to the program as its standard
# input; one in which a line is faulty is halved until it is small, and then each of its lines is made
# a string of JSON, so that one run tells of each by parse-json.

# How many bytes the program gets at a time, and how many of a range are looked at line by line.
readonly RANGE=16777216 SMALL=1048576

# The bytes of $file from $1 on, up to $2. Where SIGPIPE is ignored, both tools would tell of a pipe that
# is closed since no more is wanted.
slice() { tail -c +"$(($1 + 1))" -- "$file" | head -c "$(($2 - $1))"; } 2> /dev/null

# Whether json-lines takes the lines from $1 up to $2; sets $code where it does not. An empty line goes
# before them, since a byte order mark is passed over at the start of a file alone.
reads_well() {
  local told status
  told=$({ [ "$1" -eq 0 ] || echo; slice "$1" "$2"; } \
    | "$program" run /dev/fd/9 9<<< 'json-lines("/dev/stdin")' 2>&1 > /dev/null)
  status=$?
  [ "$status" -ne 0 ] || return 0
  if [[ ! $told =~ ^raised\ (JNDY0021|PJDY0004|PJDY0002)\  ]]; then
    say "$file: $told"
    exit "$status"
  fi
  code=${BASH_REMATCH[1]}
  return 1
}

# Sets $next to where the first line begins behind the byte $1 and before $2, if one does.
find_next() {
  local lines bytes
  read -r lines bytes < <(slice "$1" "$2" | head -n 1 | wc -lc)
  next=$(($1 + bytes))
  [ "$lines" -eq 1 ] && [ "$next" -lt "$2" ]
}

# Sets $next to where a line begins near the middle between $1 and $2, if there is more than one line.
find_middle() {
  local from=$((($1 + $2) / 2)) to=$2
  until find_next "$from" "$to"; do
    [ "$from" -gt "$1" ] || return 1
    # No line begins from here on, so nothing behind it is looked at again.
    to=$((from + 1)) from=$((($1 + from) / 2))
  done
}

# Sets $number to how many lines stand before the byte $1. Ranges come in their order.
count_before() {
  counted=$((counted + $(slice "$counted_to" "$1" | wc -l)))
  counted_to=$1
  number=$counted
}

# Prints what $want asks for of the lines from $1 up to $2, with $3 the numbers and codes of the faulty.
print_told() {
  local number
  count_before "$1"
  { printf '%s\n\n' "$3"; slice "$1" "$2"; } | FILE_NAME=$file JNDY0021=$(print_cause JNDY0021) \
    PJDY0004=$(print_cause PJDY0004) PJDY0002=$(print_cause PJDY0002) LC_ALL=C \
    awk -v base="$number" -v first="$(($1 == 0))" -v good="$([ "$want" != good ] || echo 1)" \
    -v alone="$([ "$want" != first ] || echo 1)" -f "$parts/text.awk" -f "$parts/faulty.awk"
}

# Sets $told to the numbers and codes of the faulty lines from $1 up to $2, if it finds any. All control
# characters are alike to JSON, so those that awks stumble over become others.
read_each() {
  told=$(slice "$1" "$2" | tr '\000-\010\013\014\016-\037' '[\001*]' \
    | LC_ALL=C awk -v first="$(($1 == 0))" -f "$parts/text.awk" -f "$parts/quote.awk" \
    | "$program" run /dev/fd/9 9<<< '
        for $text at $line in json-lines("/dev/stdin")
        where $text instance of string
        return try { parse-json($text)[false] } catch * { $line || " " || $err:code }' 2> /dev/null | tr -d '"')
  [ -n "$told" ]
}

# Looks at the lines from $1 up to $2, of which $3 says "faulty" where one is known to be.
look_at() {
  local told next code=
  if [ "$3" != faulty ] && reads_well "$1" "$2"; then
    [ "$want" != good ] || print_good "$1" "$2"
    return
  fi
  if [ $(($2 - $1)) -le "$SMALL" ] && read_each "$1" "$2"; then
    is_found=1
    print_told "$1" "$2" "$told"
  elif find_middle "$1" "$2"; then
    halve "$1" "$next" "$2"
  else
    [ -n "$code" ] || reads_well "$1" "$2"
    is_found=1
    # Of one line its start is enough, and awks are slow with lines of many megabytes.
    print_told "$1" "$(($2 - $1 > 500 ? $1 + 500 : $2))" "1 $code"
  fi
}

# Looks at both halves of a range that has a faulty line.
halve() {
  local had=$is_found
  is_found=
  look_at "$1" "$2" ''
  if [ -z "$is_found" ]; then
    look_at "$2" "$3" faulty
  elif [ "$want" != first ]; then
    look_at "$2" "$3" ''
  fi
  is_found=$had$is_found
}

# Prints lines as they are, but for a byte order mark; the last one of a file is ended.
print_good() {
  local first=$1
  if [ "$1" -eq 0 ] && [ "$(head -c 3 -- "$file" | od -An -tx1)" = ' ef bb bf' ]; then
    first=3
  fi
  slice "$first" "$2"
  [ "$2" -lt "$size" ] || [ -z "$(tail -c 1 -- "$file" | tr '\n' ' ' | tr -d ' ')" ] || echo
}

# Prints of the file $2 the `first` faulty line, or `all`, or the `good` lines. Sets $is_found where a
# line is faulty.
print_faulty() {
  local want=$1 file=$2 size from=0 next counted=0 counted_to=0
  size=$(wc -c < "$file") || return
  is_found=
  while [ "$from" -lt "$size" ]; do
    find_next "$((from + RANGE - 1))" "$size" || next=$size
    look_at "$from" "$next" ''
    [ "$want" != first ] || [ -z "$is_found" ] || return 0
    from=$next
  done
}

# rumble lines [--all | --good] FILE..
lines() {
  local want=first file is_found status=0
  case ${1-} in
    --all | --good) want=${1#--} && shift ;;
  esac
  [ "${1-}" != -- ] || shift
  if [ $# -eq 0 ] || [[ $1 == -* && ! -e $1 ]]; then
    printf 'usage: rumble lines [--all | --good] FILE..\n' >&2
    return 3
  fi
  for file; do
    if [ ! -f "$file" ] || [ ! -r "$file" ]; then
      say "$file: no regular file that can be read"
      status=4
      continue
    fi
    print_faulty "$want" "$file"
    [ -z "$is_found" ] || [ "$want" = good ] || [ "$status" -ne 0 ] || status=1
  done
  return "$status"
}
