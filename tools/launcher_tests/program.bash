# Which program runs in a checkout: the one that was built there, that of the release, or none.

# Makes a checkout with two crates that the program is made of, in the folder $1.
make_checkout() {
  mkdir -p "$1"/crates/{low,rumble_main,unused}/{src,specs,proofs} "$1"/tools
  cp "$repository/rumble" "$repository/Makefile" "$1/"
  cp -r "$repository/launcher" "$repository/share" "$1/"
  cp "$repository"/tools/{prove_all,release} "$1/tools/"
  printf 'low: itoa\n# a comment\nrumble_main: low\nunused: low\n' > "$1/crates.txt"
  echo 'fn low() {}' | tee "$1"/crates/{low,rumble_main,unused}/src/lib.rt > "$1/crates/low/specs/Low.antt"
}

# An rt that tells what it is called with, and makes the program where it is told to.
make_rt() {
  mkdir -p bin
  cat > bin/rt << 'RT'
#!/usr/bin/env bash
echo "rt $*" >> "$CALLS"
case $1 in
  version) echo "${KIT-kit of the test}" ;;
  all)
    printf '== low\nchecked\n== rumble_main\nchecked\n== summary\n2 of 2 crates ok\n'
    [ -z "${EDITS-}" ] || echo >> "$EDITS"
    exit "${FAILS-0}"
    ;;
  run) mkdir -p out && cp "$PROGRAM" out/rumble_main; exit 3 ;;
esac
RT
  chmod +x bin/rt
  export CALLS=$work/calls PROGRAM=$work/installed/libexec/rumble/rumble_main
}

# Sums are taken once while nothing changes. What is kept of them bears an earlier time, so that it
# counts some seconds later; here that time is put forward.
test_kept_sums() {
  mkdir -p counting
  printf '#!/bin/sh\n[ $# -eq 0 ] || echo "$1" >> %s\nexec %s "$@"\n' "$work/summed" "$(command -v sha256sum)" \
    > counting/sha256sum
  chmod +x counting/sha256sum
  touch checkout/out/sources
  PATH=$work/counting:$PATH checkout/rumble run q > /dev/null 2>&1
  expect "sums that are taken while nothing changes" "" "$(cat summed 2> /dev/null)"
  touch checkout/out/sources
  sleep 0.1
  echo '-- changed' >> checkout/crates/low/specs/Low.antt
  touch -d '1 year ago' checkout/crates/low/specs/Low.antt
  expect "a run after a change that looks old" $'2 crates\n<run>' \
    "$(PATH=$work/counting:$PATH checkout/rumble run q 2>&1 | grep -o '2 crates\|<run>')"
  expect "sums that are taken then" "crates.txt" "$(head -n 1 summed)"
  touch checkout/out/sources
  sleep 0.1
  rm checkout/crates/low/src/more.rt
  expect "a run after a source was taken away" $'2 crates\n<run>' \
    "$(checkout/rumble run q 2>&1 | grep -o '2 crates\|<run>')"
}

test_first_run() {
  make_checkout checkout
  make_rt
  local path=$PATH
  expect "a checkout without rt" 'rumble: no program was made from the sources as they stand, and rt, which builds it, is not on the path
status 70' "$(PATH=/usr/bin:/bin checkout/rumble run q 2>&1; echo "status $?")"
  PATH=$work/bin:$PATH
  expect "a first run that fails" "status 70" "$(FAILS=1 checkout/rumble run q 2> told; echo "status $?")"
  expect "what a failed run tells" "1" "$(grep -c 'the program was not built' told)"
  : > calls
  expect "a first run" $'<run>\n<q>\ninput\nstatus 0' \
    "$(echo input | READS=1 checkout/rumble run q 2> told; echo "status $?")"
  expect "a line a crate" $'rumble: crate 1 of 2, low, after\nrumble: crate 2 of 2, rumble_main, after' \
    "$(sed -n 's/\(: crate .* after\) [0-9]*:[0-9][0-9]$/\1/p' told)"
  expect "the log's name" "1" "$(grep -c "The log is $work/checkout/out/build.log" told)"
  expect "what the first run calls" $'rt all check\nrt run\nrt version' "$(sed 's/ --jobs [0-9]*$//' calls)"
  : > calls
  expect "a later run" $'<run>\n<q>' "$(checkout/rumble run q 2>&1)"
  touch checkout/crates/low/src/lib.rt
  expect "a run after a source was written as it was" $'<run>\n<q>' "$(checkout/rumble run q 2>&1)"
  echo >> checkout/crates/unused/src/lib.rt
  expect "a run after a change of another crate" $'<run>\n<q>' "$(checkout/rumble run q 2>&1)"
  expect "what later runs call" "" "$(cat calls)"
  echo '-- more' >> checkout/crates/low/specs/Low.antt
  expect "a run after a change" $'2 crates\n<run>' \
    "$(checkout/rumble run q 2>&1 | grep -o '2 crates\|<run>')"
  echo 'fn more() {}' > checkout/crates/low/src/more.rt
  touch -d '1 year ago' checkout/crates/low/src/more.rt
  expect "a run with one more source, an old one" $'2 crates\n<run>' \
    "$(checkout/rumble run q 2>&1 | grep -o '2 crates\|<run>')"
  test_kept_sums
  echo 'exit 0' >> checkout/out/built/rumble_main
  expect "a run with another program in the place of the built one" $'2 crates\n<run>' \
    "$(checkout/rumble run q 2>&1 | grep -o '2 crates\|<run>')"
  expect "a version in a checkout" "rumble 0.1
proved with kit of the test
$work/checkout/out/built/rumble_main, built from this checkout" "$(checkout/rumble --version)"
  expect "a change during the build" $'rumble: the sources changed while the program was built, so it is not kept\nstatus 70' \
    "$(EDITS=$work/checkout/crates/low/src/lib.rt checkout/rumble --build 2>&1 | tail -n 1; echo "status ${PIPESTATUS[0]}")"
  PATH=$path
}

# A checkout that can't be written to has a file in the place of the folder `out`, since root writes
# wherever there is a folder.
test_release() {
  make_checkout fresh
  make_rt
  local path=$PATH
  PATH=$work/bin:$PATH
  mkdir -p fresh/crates/rumble_main/out
  expect "a release of nothing" "status 1" "$(fresh/tools/release 2> /dev/null; echo "status $?")"
  expect "a check without a release" "release: there is none" "$(fresh/tools/release --check)"
  cp "$PROGRAM" fresh/crates/rumble_main/out/rumble_main
  fresh/tools/release > /dev/null
  expect "sums that anyone can check" "crates.txt: OK
crates/low/specs/Low.antt: OK
crates/low/src/lib.rt: OK
crates/rumble_main/src/lib.rt: OK" "$(cd fresh && sha256sum --check release/sources)"
  expect "a release that is what was built" "release: it is the program that was built, byte for byte" \
    "$(fresh/tools/release --check)"
  rm -rf copies && mkdir copies
  cp -r fresh copies/other && echo >> copies/other/crates/rumble_main/out/rumble_main
  expect "a release that is not what was built" "status 1" \
    "$(copies/other/tools/release --check > /dev/null; echo "status $?")"
  expect "a release of another kit" \
    "release: not compared, since it was made with kit of the test and this is another
status 0" "$(KIT=another copies/other/tools/release --check; echo "status $?")"
  echo >> copies/other/crates/low/src/lib.rt
  expect "a release of other sources" \
    "release: not of these sources, so it is not compared; changed since: crates/low/src/lib.rt
status 0" "$(copies/other/tools/release --check; echo "status $?")"
  expect "a release older than a source" "status 1" "$(copies/other/tools/release 2> /dev/null; echo "status $?")"
  rm -rf fresh/crates/rumble_main/out

  PATH=/usr/bin:/bin
  cp -r fresh copies/plain
  expect "a fresh checkout" $'<run>\n<query 1>' "$(copies/plain/rumble -e 1 2>&1)"
  expect "a fresh checkout, once more" $'<run>\n<q>' "$(copies/plain/rumble run q 2>&1)"
  expect "a version of a release" "rumble 0.1
proved with kit of the test
$work/copies/plain/out/release/rumble_main, unpacked from release/" "$(copies/plain/rumble --version)"
  expect "the program of a release" "$work/copies/plain/out/release/rumble_main" "$(copies/plain/rumble --program)"
  echo 'exit 0' > copies/plain/out/release/rumble_main
  expect "a release whose program was changed when unpacked" $'<run>\n<q>' "$(copies/plain/rumble run q 2>&1)"
  (cd copies/plain && make install PREFIX="$work/prefix" > /dev/null)
  expect "what is installed" "rumble 0.1
proved with kit of the test
$work/prefix/libexec/rumble/rumble_main, as installed
<run>
<query 1>" "$(prefix/bin/rumble --version; prefix/bin/rumble -e 1)"
  expect "what is installed beside it" "share/bash-completion/completions/rumble
share/man/man1/rumble.1" "$(cd prefix && find share -type f | LC_ALL=C sort)"
  expect "what stays when it is taken away" "" "$(make -C copies/plain uninstall PREFIX="$work/prefix" > /dev/null; find prefix -type f)"
  # A cp that looks for the file, waits, and makes a new one: where another has made it since, it fails.
  mkdir waiting
  printf '#!/bin/bash\n[ ! -e "$2" ] || exec /bin/cp "$@"\nsleep 0.5\nset -C\ncat "$1" > "$2"\n' > waiting/cp
  chmod +x waiting/cp
  cp -r fresh copies/pair
  expect "two first runs at once" $'<q>\n<q>\n<run>\n<run>' "$(
    {
      PATH=$work/waiting:$PATH copies/pair/rumble run q 2>&1 &
      PATH=$work/waiting:$PATH copies/pair/rumble run q 2>&1
      wait
    } | sort
  )"
  expect "what two first runs leave" $'made\nrumble_main' "$(LC_ALL=C ls copies/pair/out/release)"
  cp -r fresh copies/shut && : > copies/shut/out
  expect "a checkout that can't be written to" $'<run>\n<query 1>' "$(copies/shut/rumble -e 1 2>&1)"
  mkdir rooms
  TMPDIR=$work/rooms copies/shut/rumble run q > /dev/null
  expect "what that leaves" "" "$(ls rooms)"
  expect "a checkout that can't be written to, without a release" \
    "rumble: no program was made from the sources as they stand, and none can be built, since $work/copies/shut/out can't be written to
status 70" "$(rm -r copies/shut/release; PATH=$work/bin:$PATH copies/shut/rumble -e 1 2>&1; echo "status $?")"

  local none='rumble: no program was made from the sources as they stand, and rt, which builds it, is not on the path'
  local damaged='rumble: the program in release/ is damaged, and is not run'
  cp -r fresh copies/changed && echo >> copies/changed/crates/low/src/lib.rt
  expect "a release whose sources have changed" "$none" "$(copies/changed/rumble run q 2>&1)"
  cp -r fresh copies/damaged
  printf x | dd of=copies/damaged/release/rumble_main.gz bs=1 seek=60 conv=notrunc 2> /dev/null
  expect "a damaged release" "$damaged"$'\n'"$none" "$(copies/damaged/rumble run q 2>&1)"
  expect "what a damaged release leaves" "" "$(ls copies/damaged/out/release)"
  expect "a damaged release, where it can be built" "$damaged
<run>
<q>" "$(PATH=$work/bin:$PATH copies/damaged/rumble run q 2>&1 | grep -v '^rumble: [^t]\|^rumble: the program is proved')"
  expect "a check of a damaged release" "status 1" \
    "$(copies/damaged/tools/release --check > /dev/null; echo "status $?")"
  cp -r fresh copies/cut && : > copies/cut/release/rumble_main.gz
  expect "an empty release" "$damaged"$'\n'"$none" "$(copies/cut/rumble run q 2>&1)"

  cp -r fresh copies/own
  PATH=$work/bin:/usr/bin:/bin
  echo '# made here' | cat "$PROGRAM" - > own_program && chmod +x own_program
  PROGRAM=$work/own_program copies/own/rumble --build 2> /dev/null
  expect "what is built goes before the release" "$work/copies/own/out/built/rumble_main" \
    "$(copies/own/rumble --program)"
  echo >> copies/own/crates/low/src/lib.rt
  PROGRAM=$work/own_program copies/own/rumble --build 2> told
  expect "why a release is not run" "1" \
    "$(grep -c 'the sources are others than those of the program in release/' told)"
  cp fresh/crates/low/src/lib.rt copies/own/crates/low/src/lib.rt
  expect "sources that are those of the release again" "$work/copies/own/out/release/rumble_main" \
    "$(copies/own/rumble --program)"
  PATH=$path
}

test_first_run
test_release
