# The words of the launcher, and those that it hands on.

test_words() {
  expect "words as they stand" $'<run>\n<a b>\n<--stats>\nstatus 0' \
    "$("$rumble" run 'a b' --stats 2>&1; echo "status $?")"
  expect "an empty word" $'<run>\n<>' "$("$rumble" run '' 2>&1)"
  expect "words behind --" $'<run>\n<-->\n<-r>' "$("$rumble" run -- -r 2>&1)"
  expect "no words" "status 3" "$("$rumble" 2>&1; echo "status $?")"
  local status
  for status in 1 2 3 4 5 6 7; do
    expect "status $status" "<check>
<q>
status $status" "$(STATUS=$status "$rumble" check q 2>&1; echo "status $?")"
  done
  expect "a folder that a link leads to" $'<run>\n<q>' "$(ln -s "$rumble" link && ./link run q)"
}

# Each row is what the launcher says, and then the words, one a letter's worth: blanks part them.
test_wrong_words() {
  local said words
  while IFS='|' read -r said words; do
    # shellcheck disable=SC2086
    expect "what is said of $words" "${said:+rumble: $said}" "$("$rumble" $words 2>&1 > /dev/null)"
  done << 'ROWS'
|run q --workers 64
|run q --workers=+1 --mode auto --partition 1073741824 --stats
|run --workers 007 -- -q
|trial 1 2 --workers 1 --partition=1
|parts q 2 --workers 1 --partition=1
--workers 100: 1 to 64|run q --workers 100
--workers 0: 1 to 64|run --workers=0 q
--workers 99999999999999999999: 1 to 64|run q --workers 99999999999999999999
--workers : 1 to 64|run q --workers
--workers -1: 1 to 64|run q --workers -1
--partition 1073741825: 1 to 1073741824|trial 1 2 --partition 1073741825
--mode fast: auto or local|run q --mode fast
--workers: it stands there twice|run q --workers 1 --workers=2
--stats: it takes no value|run q --stats=1
--stats: no option of check|check q --stats
--mode: no option of trial|trial 1 2 --mode auto
--worker: no such option|run q --worker
-q: no such option|run -q
-e: no such option|run q -e 1
ru: no such word; rumble --help has all words|ru q
--workers: no such word; rumble --help has all words|--workers 1 run q
--workers: no option of explain|explain q --workers 2
explain takes one word, QUERY; a query names its inputs itself, as json-lines("FILE")|explain
trial takes two words, NUMBER and LINES|trial 1
parts takes two words, QUERY and COUNT|parts q
--mode: no option of parts|parts q 2 --mode auto
run takes one word, QUERY; a query names its inputs itself, as json-lines("FILE")|run q f
check takes one word, QUERY; a query names its inputs itself, as json-lines("FILE")|check
--build stands alone|--build x
ROWS
}

test_text() {
  expect "a text" $'<run>\n<query json-lines("a")>\n<--stats>\nstatus 4' \
    "$(STATUS=4 "$rumble" -e 'json-lines("a")' --stats 2>&1; echo "status $?")"
  expect "the input of a text" $'<run>\n<query 1>\none\ntwo' "$(printf 'one\ntwo\n' | READS=1 "$rumble" -e 1)"
  expect "no text" $'usage: rumble -e \'TEXT\' [WORDS] [FILE]\nstatus 3' "$("$rumble" -e 2>&1; echo "status $?")"
  expect "options before a text" $'<run>\n<query 1>\n<--stats>\n<--workers>\n<2>' "$("$rumble" --stats --workers 2 -e 1)"
  expect "a text that is empty" $'<run>\n<query >' "$("$rumble" -e '')"
  mkdir rooms_of_text
  TMPDIR=$work/rooms_of_text "$rumble" -e 1 > /dev/null
  expect "what a text leaves" "" "$(ls rooms_of_text)"
}

test_own_words() {
  expect "help" "usage: rumble run QUERY" "$("$rumble" --help | head -n 1 | cut -c1-23)"
  local word
  for word in -h help; do
    expect "$word" "$("$rumble" --help)" "$("$rumble" $word)"
  done
  expect "examples in the help" "2" "$("$rumble" --help | sed '1,/^Examples:/d' | grep -c 'rumble -e')"
  expect "version" "rumble 0.1
proved with kit of the test
$work/installed/libexec/rumble/rumble_main, as installed" "$("$rumble" --version)"
  [ -n "$has_terminal" ] || return
  expect "no words at a terminal" "$("$rumble" --help)
status 3" "$(at_terminal "$rumble"; echo "status $?")"
}

test_empty_program() {
  cp -r installed emptied
  : > emptied/libexec/rumble/rumble_main
  expect "an empty program" "rumble: the program is not at $work/emptied/libexec/rumble/rumble_main
status 70" "$(emptied/bin/rumble -e 1 2>&1; echo "status $?")"
}

test_words
test_wrong_words
test_text
test_own_words
test_empty_program
