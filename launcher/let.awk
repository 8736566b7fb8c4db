# Prints the inside of a string of JSON for each value among the words, which are an option, a name and
# a value in turn. Ends with status 1 and a sentence at the first that cannot be one.
function refuse(option, name, why) {
  printf "%s %s: %s\n", option, shown(name, 40), why
  exit 1
}

BEGIN {
  for (at = 1; at + 2 < ARGC; at += 3) {
    if (ARGV[at + 1] !~ /^[A-Za-z_][A-Za-z0-9_-]*$/)
      refuse(ARGV[at], ARGV[at + 1], "a name is a letter or _, and then letters, digits, _ and -")
    if (ARGV[at + 1] in given) refuse(ARGV[at], ARGV[at + 1], "the name comes twice")
    if (!is_utf8(ARGV[at + 2])) refuse(ARGV[at], ARGV[at + 1], "the value is not UTF-8")
    given[ARGV[at + 1]] = 1
    values = values quoted(ARGV[at + 2]) "\n"
  }
  printf "%s", values
  exit
}
