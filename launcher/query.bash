# The text of a query: with the values that are handed to it, and what inputs it reads.

# Makes $front of the values in $lets, which goes before the query's text on its first line: a
# declared variable each. Its characters are counted in $shift_by.
make_front() {
  local values at=0
  front= shift_by=0
  [ ${#lets[@]} -gt 0 ] || return 0
  if ! values=$(LC_ALL=C awk -f "$parts/text.awk" -f "$parts/let.awk" -- "${lets[@]}"); then
    say "$values"
    return 3
  fi
  while IFS= read -r value; do
    if [ "${lets[at]}" = --let-json ]; then
      is_json "${lets[at + 1]}" "$value" || return 3
      value="parse-json(\"$value\")"
    else
      value="\"$value\""
    fi
    front+="declare variable \$${lets[at + 1]} := $value; "
    at=$((at + 3))
  done <<< "$values"
  # A character of UTF-8 has one byte that goes on with none.
  shift_by=$(printf '%s' "$front" | LC_ALL=C tr -d '\200-\277' | wc -c)
}

# Whether the inside $2 of a string of JSON is the text of a value, as the program reads it.
is_json() {
  local told
  told=$("$program" run /dev/fd/9 9< <(printf 'parse-json("%s")' "$2") 2>&1 > /dev/null)
  [[ $told =~ ^(raised|refused)\ ([A-Z0-9]+) ]] || return 0
  with causes
  say "--let-json $1: $(print_cause "${BASH_REMATCH[2]}")"
  return 1
}

# Prints the file of a query with $front before it, which stands behind a byte order mark.
print_with_front() {
  printf '%s' "$front"
  if [ -f "$1" ] && [ "$(head -c 3 -- "$1" | od -An -tx1)" = ' ef bb bf' ]; then
    tail -c +4 -- "$1"
  else
    cat -- "$1"
  fi
}

# Prints the names that calls of json-lines take in the text on the standard input; of one call alone,
# where its place is given.
print_inputs() {
  LC_ALL=C awk -f "$parts/tokens.awk" | LC_ALL=C awk -v place="${1-}" -f "$parts/text.awk" -f "$parts/inputs.awk"
}

# Takes the file that stands behind the text of -e as the standard input.
take_input() {
  local names
  [ ${#files[@]} -gt 0 ] || return 0
  if [ ${#files[@]} -gt 1 ]; then
    say "-e takes one FILE, as its standard input: for several write json-lines(\"FILE\", \"FILE\") in the query"
    return 3
  fi
  names=$(printf '%s' "$text" | print_inputs)
  if [[ $'\n'$names$'\n' != *$'\n/dev/stdin\n'* ]]; then
    say "the query does not read its standard input, so ${files[0]} is not read: write json-lines(\"/dev/stdin\") where its items are wanted"
    return 3
  fi
  if [ ! -r "${files[0]}" ]; then
    say "${files[0]}: no file that can be read"
    return 3
  fi
  exec < "${files[0]}"
}
