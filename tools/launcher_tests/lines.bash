# The faulty lines of files, which the real program finds.

# Puts a launcher beside the real program, into the folder $1.
install_real() {
  cp -r installed "$1"
  cp "$real" "$1/libexec/rumble/rumble_main"
}

# Compares what `rumble lines` prints of a file of $1 lines with what it should.
test_broken() {
  python3 "$repository/tools/launcher_tests/broken_lines.py" "$1" broken told_of_all good_ones
  expect "all faulty lines of $1" "$(cat told_of_all)
status 1" "$($2/bin/rumble lines --all broken 2>&1; echo "status $?")"
  expect "the first faulty line of $1" "$(head -n 1 told_of_all)
status 1" "$($2/bin/rumble lines broken 2>&1; echo "status $?")"
  expect "how the good lines of $1 end" "status 0" "$($2/bin/rumble lines --good broken > good_found 2>&1; echo "status $?")"
  expect "the good lines of $1" "" "$(cmp good_ones good_found)"
  expect "no faulty line of $1" "status 0" "$($2/bin/rumble lines --all good_ones 2>&1; echo "status $?")"
}

test_lines() {
  local lines=$work/found/bin/rumble
  install_real found
  test_broken ${BROKEN-100000} found
  # Small ranges, so that lines stand where they end, and are come to one by one.
  local small
  for small in 300 0; do
    cp -r found "parted_$small"
    sed -i "s/^readonly RANGE=[0-9]* SMALL=[0-9]*$/readonly RANGE=4096 SMALL=$small/" \
      "parted_$small/libexec/rumble/launcher/lines.bash"
    test_broken 300 "parted_$small"
  done

  printf '{"a":1}\r\n{"b":\r\n\r\n' > crlf
  printf '1\n\n2\n' > well
  printf '\n\n \n[' > last
  : > nothing
  for ((number = 0; number < 3000; number++)); do echo "{$number"; done > all_faulty
  expect "files of each kind" "crlf:2: the text is no JSON: {\"b\":\\x0d
last:4: the text is no JSON: [
rumble: missing: no regular file that can be read
rumble: .: no regular file that can be read
status 4" "$("$lines" lines crlf well last nothing missing . 2>&1; echo "status $?")"
  expect "a file in which all lines are faulty" "3000 all_faulty:3000: the text is no JSON: {2999" \
    "$("$lines" lines --all all_faulty | awk '{ last = $0 } END { print NR, last }')"
  expect "the good lines of several files" $'{"a":1}\r\n\r\n1\n\n2\n\n\n ' "$("$lines" lines --good crlf well last all_faulty)"
  expect "a file whose name begins with a hyphen" "-x:1: the text is no JSON: {0" \
    "$(head -n 1 all_faulty > ./-x; "$lines" lines -- -x)"
  expect "no file" $'usage: rumble lines [--all | --good] FILE..\nstatus 3' "$("$lines" lines --all 2>&1; echo "status $?")"
  [ -n "$has_terminal" ] || return
  printf '[$x,\njson-lines("well", "crlf", "la\\u0073t", "crlf")]' > reading.jq
  expect "faulty lines at a terminal" 'raised JNDY0021 at 2:1
  json-lines("well", "crlf", "la\u0073t", "crlf")]
  ^
JNDY0021: the text is no JSON
crlf:2: the text is no JSON: {"b":\x0d
last:4: the text is no JSON: [
status 1' "$(at_terminal "$lines" run --let x=1 reading.jq; echo "status $?")"
  expect "a faulty line of the file of a text" 'crlf:2: the text is no JSON: {"b":\x0d' \
    "$(at_terminal "$lines" -e 'json-lines("/dev/stdin")' crlf | tail -n 1)"
  expect "a faulty line of the standard input" '/dev/stdin:2: the text is no JSON: {"b":\x0d' \
    "$(at_terminal bash -c '"$1" -e "$2" < crlf' - "$lines" 'json-lines("/dev/stdin")' | tail -n 1)"
  expect "a faulty text of parse-json" 'raised JNDY0021 at 1:22
  json-lines("well") ! parse-json("[")
                       ^
JNDY0021: the text is no JSON' "$(at_terminal "$lines" -e 'json-lines("well") ! parse-json("[")')"
}

# The escapes that the program itself writes, and how it takes what the launcher hands it.
test_with_program() {
  local run=$work/found/bin/rumble text=$'a"b\\u0041\\\n\t\x01\x1f \xc3\xa9 \xf0\x9f\x98\x80 \x7f'
  expect "a text there and back" "$text" "$("$run" -r --let text="$text" -e '$text')"
  expect "values of JSON" $'{"a":[1,"\\"x"]}\n1000\n[1,2]\nstatus 0' \
    "$("$run" --let-json 'v={"a": [1, "\"x"]}' --let-json n=1e3 --let-json $'m=[1,\n2]' -e '$v, $n, $m'; echo "status $?")"
  expect "places behind values" $'refused XPST0008 at 1:5\nstatus 2' \
    "$("$run" --let x=$'\xc3\xa9' -e '$x, $y' 2>&1; echo "status $?")"
  expect "the end of a text behind values" $'refused XPST0003 at 1:4\nstatus 2' \
    "$("$run" --let x=1 -e '1 +' 2>&1; echo "status $?")"
  local said
  while IFS='|' read -r said value; do
    expect "a value $value" "rumble: --let-json v: $said" "$("$run" --let-json v="$value" -e 1 2>&1)"
  done << 'ROWS'
the text is no JSON|
the text is no JSON|{
the text is no JSON|1 2
the text is no JSON|x
a number of the input is too large|1e20
ROWS
  yes 1234567890 | head -n 20000 > long
  expect "a pipe that is closed by head" $'1234567890\nstatus 5' \
    "$("$run" -e 'json-lines("long")' 2> told | head -n 1; echo "status ${PIPESTATUS[0]}"; cat told)"
}

if [ -s "$real" ]; then
  test_lines
  test_with_program
else
  echo "launcher: $real is not there, so what the launcher finds in lines is not tested"
fi
