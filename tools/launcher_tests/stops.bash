# How a run ends: by a signal, and when its output is not wanted any more.

# Whether the process whose number the file $1 has is gone, at the latest after two seconds. One that
# nobody has asked for its status is gone too.
is_gone() {
  local turn
  for turn in {1..40}; do
    if ! grep -qs '^State:[[:space:]]*[^Z[:space:]]' "/proc/$(cat "$1")/status"; then
      echo gone
      return
    fi
    sleep 0.05
  done
  echo runs
}

# Starts the words after $1 in the background, waits until the program runs, and ends the launcher by
# the signal $1. Prints its status, and whether the program is gone.
end_by() {
  local launcher signal=$1 turn
  shift
  rm -f sleeper
  SLEEPS=$work/sleeper "$@" > /dev/null 2>&1 &
  launcher=$!
  for turn in {1..100}; do
    [ ! -s sleeper ] || break
    sleep 0.05
  done
  kill -s "$signal" "$launcher"
  wait "$launcher" 2> /dev/null
  echo "status $?, $(is_gone sleeper)"
}

test_signals() {
  expect "TERM without a terminal" "status 143, gone" "$(end_by TERM "$rumble" -e 1)"
  expect "KILL without a terminal" "status 137, gone" "$(end_by KILL "$rumble" run q)"
  expect "TERM with a filter" "status 143, gone" "$(end_by TERM "$rumble" -r -e 1)"
  expect "HUP with a filter" "status 129, gone" "$(end_by HUP "$rumble" -r -e 1)"
  expect "KILL with a filter" "status 137, gone" "$(end_by KILL "$rumble" -r -e 1)"
  mkdir -p odd/-x
  expect "a temporary folder that begins with a hyphen" $'<run>\n<query 1>' \
    "$(cd odd && TMPDIR=-x ../copies/shut_again/rumble -e 1 2>&1)"
  expect "what it leaves" "" "$(ls odd/-x)"
}

test_pipes() {
  expect "a pipe that is closed" "status 5" \
    "$({ ERROR='write fault' STATUS=5 "$rumble" run q 2>&1 > /dev/fd/7; echo "status $?"; } 7> >(cat > /dev/null))"
  expect "a pipe that is closed, and texts" "status 5" \
    "$({ ERROR='write fault' STATUS=5 "$rumble" -r -e 1 2>&1 > /dev/fd/7; echo "status $?"; } 7> >(cat > /dev/null))"
  expect "another write fault" $'write fault\nstatus 5' \
    "$({ ERROR='write fault' STATUS=5 "$rumble" run q 2>&1 > /dev/null; echo "status $?"; })"
  expect "another error with a pipe" $'read fault\nstatus 4' \
    "$({ ERROR='read fault' STATUS=4 "$rumble" run q 2>&1 > /dev/fd/7; echo "status $?"; } 7> >(cat > /dev/null))"
  expect "statistics with a pipe" $'items 1 bytes 2\nstatus 0' \
    "$({ ERROR='items 1 bytes 2' "$rumble" run q 2>&1 > /dev/fd/7; echo "status $?"; } 7> >(cat > /dev/null))"
}

cp -r fresh copies/shut_again && : > copies/shut_again/out
test_signals
test_pipes
