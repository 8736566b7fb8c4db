# Reads the tokens of a query, and prints the names that its calls of json-lines take, one a line. With
# `place`, as LINE:COLUMN, only those of the call there.
BEGIN { FS = "\t" }
$3 == "json-lines" { is_call = place == "" || $1 ":" $2 == place; next }
is_call && ($3 == "(" || $3 == ",") { next }
is_call && $3 ~ /^".*"$/ {
  print_unescaped(substr($3, 2, length($3) - 2))
  printf "\n"
  next
}
{ is_call = 0 }
