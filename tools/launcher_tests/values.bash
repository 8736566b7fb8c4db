# Values and inputs that are handed to a query, and texts without their quotes.

test_values() {
  expect "a value" $'<run>\n<query declare variable $n := "a\\u0022b\\u005c\\u000a\xc3\xa9"; $n>' \
    "$("$rumble" --let n=$'a"b\\\n\xc3\xa9' -e '$n')"
  expect "two values, one of JSON" '<run>
<query declare variable $a := ""; declare variable $b_-1 := parse-json("[1,\u0022x\u0022]"); 1>
<--stats>' "$("$rumble" --let=a= -e 1 --let-json 'b_-1=[1,"x"]' --stats)"
  printf '\xef\xbb\xbf$n,\n2' > valued.jq
  expect "a value of a query in a file" $'<run>\n<query declare variable $n := "=x"; $n,\n2>' \
    "$("$rumble" run valued.jq --let n==x)"
  expect "a value of a query that is not there" $'<run>\n<none.jq>' "$("$rumble" run none.jq --let n=x)"
  local said words
  while IFS='|' read -r said words; do
    # shellcheck disable=SC2086
    expect "what is said of $words" "rumble: $said
status 3" "$("$rumble" $words 2>&1; echo "status $?")"
  done << 'ROWS'
--let: NAME=VALUE stands after it|-e 1 --let
--let: NAME=VALUE stands after it|-e 1 --let n
--let-json: NAME=VALUE stands after it|--let-json==1 -e 1
--let 1n: a name is a letter or _, and then letters, digits, _ and -|--let 1n=1 -e 1
--let a:b: a name is a letter or _, and then letters, digits, _ and -|--let a:b=1 -e 1
--let-json n: the name comes twice|--let n=1 --let-json n=1 -e 1
trial runs a query of its own, which takes no values|trial 1 2 --let n=1
explain takes no values: it tells the places of the query's file as it stands|explain q --let n=1
ROWS
  expect "a value that is not UTF-8" "rumble: --let n: the value is not UTF-8
status 3" "$("$rumble" --let n=$'\xff' -e 1 2>&1; echo "status $?")"
  expect "a value that is no JSON" "rumble: --let-json n: the text is no JSON
status 3" "$(ERROR='raised JNDY0021 at 1:1' "$rumble" --let-json n=1x -e 1 2>&1; echo "status $?")"
  # What is put before the query has 28 characters here, one of them of two bytes.
  expect "a place on the first line" "raised XPTY0004 at 1:3 clause 2 tuple 1" \
    "$(ERROR='raised XPTY0004 at 1:31 clause 2 tuple 1' "$rumble" --let $'n=\xc3\xa9' -e 1 2>&1 > /dev/null)"
  expect "a place on another line" "refused XPST0003 at 2:40" \
    "$(ERROR='refused XPST0003 at 2:40' "$rumble" --let $'n=\xc3\xa9' -e 1 2>&1 > /dev/null)"
}

test_input() {
  echo content > content
  expect "a file as input" $'<run>\n<query json-lines("/dev/stdin")>\n<--stats>\ncontent' \
    "$(READS=1 "$rumble" -e 'json-lines("/dev/stdin")' content --stats)"
  expect "a file with an odd name as input" $'<run>\n<query (: " :) json-lines ( "a", (: :) "/dev/stdin")>\ncontent' \
    "$(cp content ./-odd; READS=1 "$rumble" -e '(: " :) json-lines ( "a", (: :) "/dev/stdin")' -- -odd)"
  local query
  for query in 1 'json-lines("content")' '(: json-lines("/dev/stdin") :) 1' '"json-lines(\"/dev/stdin\")"' '"/dev/stdin"'; do
    expect "a file that is not read by $query" 'rumble: the query does not read its standard input, so content is not read: write json-lines("/dev/stdin") where its items are wanted
status 3' "$("$rumble" -e "$query" content 2>&1; echo "status $?")"
  done
  expect "two files" 'rumble: -e takes one FILE, as its standard input: for several write json-lines("FILE", "FILE") in the query
status 3' "$("$rumble" -e 'json-lines("/dev/stdin")' content content 2>&1; echo "status $?")"
  expect "a file that is not there" 'rumble: none: no file that can be read
status 3' "$("$rumble" -e 'json-lines("/dev/stdin")' none 2>&1; echo "status $?")"
}

test_raw() {
  local items='"a\"b\\c\\n\td\u0001\u001f"
{"k":"v\"w"}
["x"]
""
12
"\\"
"é\\\\\""'
  local texts=$'a"b\\c\\n\td\x01\x1f\n{"k":"v\\"w"}\n["x"]\n\n12\n\\\n\xc3\xa9\\\\"'
  expect "texts" "$texts
status 4" "$(PRINTS=$items STATUS=4 "$rumble" -r run q 2>&1 | tail -n +3; echo "status ${PIPESTATUS[0]}")"
  expect "texts into a file" "$texts" "$(PRINTS=$items "$rumble" -e 1 --raw > raw; tail -n +3 raw)"
  expect "a byte of 0" "  5c  30  00  0a" "$(PRINTS='"\\0\u0000"' "$rumble" -e 1 -r | tail -n 1 | od -An -tx1 | tr -s ' ' | sed 's/ /  /g')"
  expect "a full disk" $'write fault\nstatus 5' "$(PRINTS=$items "$rumble" -r -e 1 2>&1 > /dev/full; echo "status $?")"
}

test_values
test_input
test_raw
