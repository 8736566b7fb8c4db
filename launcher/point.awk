# Prints the line of a text that has the number `line`, and a mark under the character `column`. Of a
# long line only what stands near the column is shown.

# How many columns of a terminal a character takes: two for those of East Asia and for pictures, none
# for marks that stand on the character before them.
BEGIN {
  none = split("768 879 6832 6911 7616 7679 8203 8205 8400 8447 65024 65039 65056 65071 65279 65279" \
    " 127995 127999 917504 917999", narrow, " ")
  two = split("4352 4447 9193 9196 9200 9200 9203 9203 9748 9749 9800 9811 9989 9989 9994 9995 10024 10024" \
    " 10060 10060 10067 10071 11035 11036 11088 11088 11904 12350 12353 42191 43360 43391 44032 55203" \
    " 63744 64255 65040 65049 65072 65131 65281 65376 65504 65510 126980 126980 127183 127183" \
    " 127374 127386 127488 127589 127744 128591 128640 128767 128992 129003 129280 129791 131072 262141", wide, " ")
}

function is_among(code, ranges, count,  at) {
  for (at = 1; at < count; at += 2)
    if (code >= ranges[at] + 0 && code <= ranges[at + 1] + 0) return 1
  return 0
}

function width(code) {
  return code < 768 ? 1 : is_among(code, narrow, none) ? 0 : is_among(code, wide, two) ? 2 : 1
}

function point(text,  from, count, at, pad, made) {
  from = column > 120 ? column - 80 : 1
  for (at = 1; at <= length(text) && count < from + 160; at += size) {
    take(text, at)
    count++
    if (count < from) continue
    made = made (code != 9 && is_hidden(code) ? "?" : substr(text, at, size))
    if (count < column) pad = pad (code == 9 ? "\t" : substr("  ", 1, is_hidden(code) ? 1 : width(code)))
  }
  for (; count < column - 1; count++) pad = pad " "
  print "  " made
  print "  " pad "^"
}

NR == 1 { sub(/^\357\273\277/, "") }
NR == line { sub(/\r$/, ""); point($0); done = 1; exit }
END { if (!done) point("") }
