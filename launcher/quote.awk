# Makes a string of JSON of each line of an input, which parse-json then takes or refuses as json-lines
# does the line. A blank line, which json-lines passes over, becomes 0, and bytes that are not UTF-8
# a text that is no JSON. Bytes of 0 are others by now. `first` tells that the file begins here.
NR == 1 && first { sub(/^\357\273\277/, "") }
{ sub(/\r$/, "") }
/^[ \t\r]*$/ { print "0"; next }
!is_utf8($0) { print "\"\\u0001\""; next }
{ print "\"" quoted($0) "\"" }
