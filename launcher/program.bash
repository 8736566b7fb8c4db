# Which program runs. In a checkout that is the one that was built there, or else that of the release,
# and either only where the sources have the sums of those that it was made from.
#
# A program has a file `made` beside it, with three lines: `program SUM`, the sum of the program;
# `sources SUM`, the sum of the list of the sums of its sources; and `kit LINE`, what `rt version`
# printed where it was proved.

readonly cache=$top/out
readonly built=$top/out/built
readonly release=$top/release

# The value that a file `made` has for a name.
made_value() {
  local name value
  while read -r name value; do
    if [ "$name" = "$1" ]; then
      printf '%s\n' "$value"
      return
    fi
  done 2> /dev/null < "$2"
  return 1
}

sum_of() {
  local sum
  sum=$(sha256sum 2> /dev/null < "$1") || return 1
  printf '%s\n' "${sum%% *}"
}

# The crates of the repository that the program is made of, one a line, lowest first.
print_crates() {
  awk '
    function visit(name, parts, count, at) {
      if (!(name in below) || (name in seen)) return
      seen[name] = 1
      count = split(below[name], parts, " ")
      for (at = 1; at <= count; at++) visit(parts[at])
      print name
    }
    /^[a-z]/ { at = index($0, ":"); split($0, words, /[: ]/); below[words[1]] = substr($0, at + 1) }
    END { visit("rumble_main") }
  ' "$top/crates.txt"
}

# The sums of all files that the program is made from, as sha256sum prints them: the code, the
# definitions and the proofs of its crates, and crates.txt.
print_sums() {
  local name part paths=(crates.txt)
  while IFS= read -r name; do
    for part in src specs proofs; do
      [ ! -d "$top/crates/$name/$part" ] || paths+=("crates/$name/$part")
    done
  done < <(print_crates)
  (cd "$top" && export LC_ALL=C && set -o pipefail \
    && find "${paths[@]}" -type f \( -name '*.rt' -o -name '*.antt' -o -name crates.txt \) -print0 \
    | sort -z | xargs -0 sha256sum)
}

# Whether nothing among the sources has changed since the time of the file $1, which is not one to come.
# A change is told by the time of the change of status, which no tool sets back.
is_later_than_sources() (
  [ -f "$1" ] && [ "$1" -ot /proc/self ] && cd "$top" || exit 1
  [ -z "$(find crates.txt crates/*/src crates/*/specs crates/*/proofs -cnewer "$1" -print -quit 2>&1)" ]
)

# The sum of the list of sums. It takes a tenth of a second, so it is kept while no source changes.
# What is kept bears a time three seconds before the sums were taken, by the clock of that file
# system, since such clocks may be coarse.
print_sources_sum() {
  local kept=$cache/sources new began sum
  if is_later_than_sources "$kept" && read -r sum < "$kept"; then
    printf '%s\n' "$sum"
    return
  fi
  new=$(mkdir -p "$cache" 2> /dev/null && mktemp "$cache/new.XXXXXX" 2> /dev/null) && began=$(date -r "$new" +%s)
  if sum=$(set -o pipefail && print_sums | sha256sum); then
    sum=${sum%% *}
    printf '%s\n' "$sum"
    if [ -n "$new" ]; then
      printf '%s\n' "$sum" > "$new" && touch -d "@$((began - 3))" "$new" && mv -f "$new" "$kept"
    fi
  else
    sum=
  fi 2> /dev/null
  [ -z "$new" ] || rm -f "$new"
  [ -n "$sum" ]
}

# Whether the program $1 is the one that the file `made` $2 tells of.
is_whole() {
  local wanted
  wanted=$(made_value program "$2") && [ -x "$1" ] && [ "$(sum_of "$1")" = "$wanted" ]
}

# Unpacks the program of the release into the file $1, and sees that it is whole and runs here.
unpack() {
  gzip -dc 2> /dev/null < "$release/rumble_main.gz" > "$1"
  chmod 755 "$1"
  if ! is_whole "$1" "$release/made"; then
    say "the program in release/ is damaged, and is not run"
    return 1
  fi
  "$1" < /dev/null > /dev/null 2>&1
  if [ $? -ne 3 ]; then
    say "the program in release/ does not run on this system"
    return 1
  fi
}

# Unpacks the release where that is not done yet. Each file is made under a name of its own and then
# renamed, since another launcher may do the same. A checkout that can't be written to is left as it
# is, and the program goes with this run.
take_release() {
  local kept=$cache/release/rumble_main new
  program=$kept
  ! is_whole "$kept" "$release/made" || return 0
  if new=$(mkdir -p "$cache/release" 2> /dev/null && mktemp "$cache/release/new.XXXXXX" 2> /dev/null); then
    unpack "$new" && cp "$release/made" "$new.made" \
      && mv -f "$new.made" "${kept%/*}/made" && mv -f "$new" "$kept" && return
    rm -f "$new" "$new.made"
    return 1
  fi
  make_room || return 1
  program=$room/rumble_main
  unpack "$program"
}

# Finds the program that runs: its path is $program then, its file `made` $made, and $origin says
# where it comes from. Fails where none was made from the sources as they stand.
find_program() {
  local sum
  if [ -n "$installed" ]; then
    program=$installed/rumble_main made=$installed/made origin="as installed"
    [ -s "$program" ] && [ -x "$program" ]
    return
  fi
  [ -f "$built/made" ] || [ -f "$release/made" ] || return 1
  sum=$(print_sources_sum) || return 1
  if [ "$(made_value sources "$built/made")" = "$sum" ] && is_whole "$built/rumble_main" "$built/made"; then
    program=$built/rumble_main made=$built/made origin="built from this checkout"
  elif [ "$(made_value sources "$release/made")" != "$sum" ]; then
    return 1
  elif [[ $HOSTTYPE-$OSTYPE == x86_64-linux-gnu* ]]; then
    made=$release/made origin="unpacked from release/"
    take_release
  else
    return 1
  fi
}
