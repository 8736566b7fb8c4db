# What is said of an error that has a place: the line of the query with a mark, what the code means,
# what may have been meant, and the faulty lines of inputs.

# Explains the code $1 at line $2 and column $3 of the query.
explain() {
  with causes
  local tokens= text_there= input
  if text_there=$(print_query && printf .); then
    text_there=${text_there%.}
    printf '%s' "$text_there" | LC_ALL=C awk -v line="$2" -v column="$3" -f "$parts/text.awk" -f "$parts/point.awk"
    tokens=$(printf '%s' "$text_there" | LC_ALL=C awk -f "$parts/tokens.awk")
  fi
  printf '%s: %s\n' "$1" "$(print_cause "$1")"
  [ -n "$tokens" ] || return 0
  printf '%s\n' "$tokens" | LC_ALL=C awk -v code="$1" -v line="$2" -v column="$3" -f "$parts/hints.awk"
  case $1 in
    JNDY0021 | PJDY0004 | PJDY0002) ;;
    *) return 0 ;;
  esac
  with lines
  while IFS= read -r input <&8; do
    [ "$input" != /dev/stdin ] || input=${files[0]-/dev/stdin}
    [ ! -f "$input" ] || print_faulty first "$input"
  done 8< <(printf '%s' "$text_there" | print_inputs "$2:$3" | awk '!($0 in seen) { seen[$0] = 1; print }')
  return 0
}
