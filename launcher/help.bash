# The words of the launcher, and its version.

print_help() {
  cat << 'HELP'
usage: rumble run QUERY            prints the value of the query in the file QUERY
       rumble parts QUERY COUNT    writes the value as COUNT files, part-0000 and so on, and lists them
       rumble check QUERY          says whether that query is accepted, and runs nothing
       rumble explain QUERY        prints which parts of that query can run over pieces of an input
       rumble trial NUMBER LINES   prints what a fixed query gives of lines made from a number
       rumble -e 'TEXT' [FILE]     as run, of the query TEXT; FILE is its standard input
       rumble lines FILE..         names the first line of each file that is no JSON; with --all all of
                                   them; with --good it prints the other lines
       rumble --build              in a checkout: proves and builds the program, and runs nothing
       rumble --program            prints the path of the program that runs
       rumble --help | --version

With run and -e:
  -r, --raw                a string is printed as its text, without quotes
  --let NAME=TEXT          $NAME is this string in the query
  --let-json NAME=VALUE    $NAME is the item of this JSON text
  --stats                  tells on the standard error how many items and bytes were printed

A query is JSONiq. json-lines("NAME") reads a file of JSON Lines, or the standard input where the
name is /dev/stdin. The exit status is 0 where the query ran to its end.

Examples:
  rumble -e 'json-lines("orders.jsonl")[$$.total gt 100].id'
  zcat log.gz | rumble -e 'json-lines("/dev/stdin")[$$.user eq $user].text' -r --let user=bo
HELP
}

print_version() {
  printf 'rumble %s\n' "$VERSION"
  if find_program; then
    printf 'proved with %s\n' "$(made_value kit "$made")"
    printf '%s, %s\n' "$program" "$origin"
  else
    say "no program was made from the sources as they stand; rumble --build makes it"
  fi
}
