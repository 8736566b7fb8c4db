# Prints each line that is a string of JSON as its text, and every other as it is.
/^"/ {
  print_unescaped(substr($0, 2, length($0) - 2))
  printf "\n"
  next
}
{ print }
