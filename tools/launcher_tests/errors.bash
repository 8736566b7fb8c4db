# What is shown of an error at a terminal.

test_errors() {
  printf '\xef\xbb\xbf1 +\n\t"\xc3\xa9" + %s\n' "\$x" > u.jq
  local told='refused XPST0008 at 2:8'
  local shown=$'  \t"\xc3\xa9" + $x\n  \t      ^'
  expect "an error at no terminal" "<run>
<u.jq>
$told
status 2" "$(ERROR=$told STATUS=2 "$rumble" run u.jq 2>&1; echo "status $?")"
  expect "an error at a terminal" "<run>
<--workers>
<2>
<u.jq>
$told
$shown
XPST0008: no variable of this name can be read here
status 2" "$(ERROR=$told STATUS=2 at_terminal "$rumble" run --workers 2 u.jq; echo "status $?")"
  expect "an error with a clause" 'raised FOAR0001 at 1:3 clause 2 tuple 7
  1 +
    ^
FOAR0001: a division by zero' \
    "$(ERROR='raised FOAR0001 at 1:3 clause 2 tuple 7' at_terminal "$rumble" run u.jq | tail -n +3)"
  expect "an error behind the text's end" 'refused XPST0003 at 3:1
  
  ^
XPST0003: here the text is no query' "$(ERROR='refused XPST0003 at 3:1' at_terminal "$rumble" run u.jq | tail -n +3)"
  expect "an error of a text" 'refused PJST0001 at 1:1
  1 + 1
  ^
PJST0001: this form of the language is left out here' \
    "$(ERROR='refused PJST0001 at 1:1' at_terminal "$rumble" -e '1 + 1' | tail -n +3)"
  expect "an error without a place" $'<run>\n<u.jq>\nread fault\nstatus 4' \
    "$(ERROR='read fault' STATUS=4 at_terminal "$rumble" run u.jq; echo "status $?")"
  local code
  while read -r code; do
    expect "a cause of $code" "1" \
      "$(ERROR="raised $code at 1:1" at_terminal "$rumble" run u.jq | grep -c "^$code: .")"
  done < <(sed -n 's/^ *Code::\([A-Z0-9]*\) => .*/\1/p' "$repository/crates/item_tree/src/code.rt")
}

# What the terminal shows behind wide characters, marks on characters, and characters that it must not
# get.
test_marks() {
  printf '"\346\274\242e\314\201\360\237\230\200" + $x\n"\302\233[31m\033\377\342\200\256" + $x' > wide.jq
  expect "a mark behind wide characters" $'  "\xe6\xbc\xa2e\xcc\x81\xf0\x9f\x98\x80" + $x\n            ^' \
    "$(ERROR='refused XPST0008 at 1:10' at_terminal "$rumble" run wide.jq | sed -n '4,5p')"
  expect "characters that a terminal must not get" $'  "?[31m???" + $x\n              ^' \
    "$(ERROR='refused XPST0008 at 2:13' at_terminal "$rumble" run wide.jq | sed -n '4,5p')"
}

# Each row is a code and its column, what is hinted, and the query.
test_hints() {
  local code column said query
  while IFS='~' read -r code column said query; do
    expect "the hint at $query" "${said:+hint: $said}" \
      "$(ERROR="raised $code at 1:$column" at_terminal "$rumble" -e "$query" | sed -n '/^hint/p')"
  done << 'ROWS'
XPST0003~4~a string stands in double quotes~1, 'a'
XPST0003~4~eq compares two values~1 == 2
XPST0003~5~eq compares two values~1  == 2
XPST0003~4~f ! g hands each item of f on to g, and a comma puts values after one another~$x | $y
XPST0003~30~it is written descending~for $x in (1, 2) order by $x desc return $x
XPST0003~8~let and declare variable have :=~let $x = 1 return $x
XPST0003~25~let and declare variable have :=~let $y := 1, (: x :) $x = 1 return $x
XPST0003~5~the name of a variable begins with $: $x~for x in 1 return 1
XPST0003~14~if (..) then .. has an else: else ()~if (1) then 2
XPST0003~30~if (..) then .. has an else: else ()~for $x in 1 return if (1) then 2, 3
XPST0003~40~~for $x in 1 return if (1) then 2 else 3 4
XPST0003~3~the rest of a division is mod~5 % 2
XPST0003~1~a look-up stands after a value: $item.key, or $$.key in a predicate and after !~.a
XPST0003~6~~"|"  2
XPTY0004~7~where one side is a number and the other a text, string(..) makes a text, and cast as decimal a number~"a.b" lt 2
XPTY0004~3~where one side is a number and the other a text, string(..) makes a text, and cast as decimal a number~1 + "a"
XPTY0004~1~~subsequence(1, "a")
XPST0017~1~there are no patterns: contains, starts-with and ends-with look for a text~matches($x, "a")
XPST0017~4~tokenize($text) splits at blanks; docs/USING.md has a function for other marks~1, split("a;b", ";")
XPST0017~1~~mine()
XPST0008~1~~$desc
ROWS
}

if [ -n "$has_terminal" ]; then
  test_errors
  test_marks
  test_hints
fi
