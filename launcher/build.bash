# Proves and builds the program in a checkout.

# What proving costs, for the guess at the start: seconds of one processor for 1,000 lines.
readonly SECONDS_A_THOUSAND_LINES=75

# How many lines the code, the definitions and the proofs of those crates have.
count_lines() {
  local name
  while IFS= read -r name; do
    find "$top/crates/$name" -name out -prune -o -type f \( -name '*.rt' -o -name '*.antt' \) -print0
  done | xargs -0 -r cat | wc -l
}

# How many crates to prove at a time: one a processor, with four gigabytes of memory for each:
# the four that take most take 16 together.
print_jobs() {
  local jobs memory
  jobs=$(nproc 2> /dev/null || echo 1)
  memory=$(awk '/^MemAvailable:/ { print int($2 / 4000000) }' /proc/meminfo 2> /dev/null)
  if [ "${memory:-1}" -lt "$jobs" ]; then
    jobs=${memory:-1}
  fi
  echo "$((jobs > 0 ? jobs : 1))"
}

clock() { printf '%d:%02d' "$(($1 / 60))" "$(($1 % 60))"; }

# Reads what a check of all crates prints, and says which crate it has come to the end of; where no
# crate ends for a while, that it goes on.
show_progress() {
  local number=0 line rest= status=0
  while [ "$status" -eq 0 ]; do
    IFS= read -r -t 45 line
    status=$?
    if [ "$status" -gt 128 ]; then
      rest+=$line status=0
      say "$number of $1 crates, after $(clock "$SECONDS")"
      continue
    fi
    line=$rest$line rest=
    if [[ $line =~ ^==\ ([a-z0-9_]+)$ && $line != '== summary' ]]; then
      number=$((number + 1))
      say "crate $number of $1, ${BASH_REMATCH[1]}, after $(clock "$SECONDS")"
    fi
  done
}

# Keeps the program that rt has built, with the sums of the sources that it was made from.
keep_built() {
  local made_here=$top/crates/rumble_main/out/rumble_main new
  [ -s "$made_here" ] && mkdir -p "$built" && new=$(mktemp -d "$cache/new.XXXXXX") || return 1
  cp "$made_here" "$new/rumble_main" && chmod 755 "$new/rumble_main" \
    && printf 'program %s\nsources %s\nkit %s\n' "$(sum_of "$made_here")" "$1" "$(rt version)" > "$new/made" \
    && mv -f "$new/rumble_main" "$new/made" "$built/"
  local status=$?
  rm -rf "$new"
  return "$status"
}

build() {
  local log=$cache/build.log crates jobs minutes sum
  if [ -n "$installed" ]; then
    say "the program is not at $installed/rumble_main"
    exit 70
  fi
  if ! command -v rt > /dev/null; then
    say "no program was made from the sources as they stand, and rt, which builds it, is not on the path"
    exit 70
  fi
  if ! mkdir -p "$cache" 2> /dev/null || ! : 2> /dev/null > "$log"; then
    say "no program was made from the sources as they stand, and none can be built, since $cache can't be written to"
    exit 70
  fi
  sum=$(print_sources_sum) || exit 70
  crates=$(print_crates)
  jobs=$(print_jobs)
  # Crates wait for those below them, so four at a time take about a third of the time of one.
  minutes=$(($(count_lines <<< "$crates") * SECONDS_A_THOUSAND_LINES * 4 / (3 * jobs + 1) / 60000 + 1))
  [ ! -f "$release/made" ] || [ "$(made_value sources "$release/made")" = "$sum" ] \
    || say "the sources are others than those of the program in release/"
  say "the program is proved and built now; later runs start at once."
  say "$(wc -l <<< "$crates") crates, $jobs at a time: about $minutes minutes, and less where some are proved already."
  say "The log is $log"
  SECONDS=0
  (cd "$top/crates/rumble_main" && "$top/tools/prove_all" --jobs "$jobs") < /dev/null 2>&1 | tee "$log" \
    | show_progress "$(wc -l <<< "$crates")"
  if [ "${PIPESTATUS[0]}" -eq 0 ]; then
    rm -f "$top/crates/rumble_main/out/rumble_main"
    # The build ends with a run without words, whose status tells nothing of the build.
    (cd "$top/crates/rumble_main" && rt run) < /dev/null >> "$log" 2>&1
    if [ "$(print_sources_sum)" != "$sum" ]; then
      say "the sources changed while the program was built, so it is not kept"
      exit 70
    fi
    keep_built "$sum"
  fi
  if ! find_program || [ "$program" != "$built/rumble_main" ]; then
    tail -n 20 "$log" >&2
    say "the program was not built; the log is $log"
    exit 70
  fi
  say "built after $(clock "$SECONDS")"
}
