# Reads numbers of lines, each with a code, a line without any, and then the lines of an input. Prints
# of the numbered ones where they stand, what the code means and their first characters; or, for
# `good`, the others. `base` lines stand before these in the file, and `first` tells that it has none.
!is_input && NF == 0 { is_input = 1; next }
!is_input { code_at[$1] = $2; next }
{ number++ }
number == 1 && first { sub(/^\357\273\277/, "") }
good { if (!(number in code_at)) print; next }
number in code_at {
  printf "%s:%d: %s: %s\n", shown(ENVIRON["FILE_NAME"], 4096), base + number, ENVIRON[code_at[number]], shown(substr($0, 1, 480), 120)
  if (alone) exit
}
