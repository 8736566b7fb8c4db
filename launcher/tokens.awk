# Prints the tokens of a query, one a line: its line, its column, and its spelling. What begins no
# token is one of a character. A string or a comment that is not closed goes to the end of its line.

function token(length_of) {
  printf "%d\t%d\t%s\n", NR, column, substr($0, 1, length_of)
  step(length_of)
}

# Goes on by bytes; only the first byte of a character counts in the column.
function step(bytes,  passed) {
  passed = substr($0, 1, bytes)
  gsub(/[\200-\277]/, "", passed)
  column += length(passed)
  $0 = substr($0, bytes + 1)
}

NR == 1 { sub(/^\357\273\277/, "") }
{
  column = 1
  while (length($0)) {
    if (deep) {
      if (match($0, /\(:|:\)/)) {
        deep += substr($0, RSTART, 1) == "(" ? 1 : -1
        step(RSTART + 1)
      } else step(length($0))
    } else if (match($0, /^[ \t\r]+/)) step(RLENGTH)
    else if (substr($0, 1, 2) == "(:") {
      deep = 1
      step(2)
    } else if (match($0, /^"([^"\\]|\\.)*"?/)) token(RLENGTH)
    else if (match($0, /^\$err:code/)) token(RLENGTH)
    else if (match($0, /^(\$\$|\$?[A-Za-z_][A-Za-z0-9_-]*)/)) token(RLENGTH)
    else if (match($0, /^([0-9]+(\.[0-9]+)?|\.[0-9]+)([eE][+-]?[0-9]+)?/)) token(RLENGTH)
    else if (match($0, /^(\{\||\|\}|\|\||:=|!=|<=|>=)/)) token(RLENGTH)
    else if (match($0, /^[\300-\377][\200-\277]*/)) token(RLENGTH)
    else token(1)
  }
}
