# What bash offers for the words of a command line, and that the manual page is well formed.

# The words that are offered for the last of these.
offered() {
  COMP_WORDS=("$@") COMP_CWORD=$(($# - 1))
  _rumble
  printf '%s\n' "${COMPREPLY[*]}"
}

test_completion() {
  . "$repository/share/rumble.bash"
  mkdir completed && touch completed/orders.jq completed/users.jsonl
  local told words
  while IFS='|' read -r told words; do
    # shellcheck disable=SC2086
    expect "what is offered for $words" "$told" "$(cd completed && offered rumble $words)"
  done <<'ROWS'
run|ru
check|c
--build|--b
--program|--p
orders.jq|run o
orders.jq|check orders.jq
--stats|run orders.jq --s
--let --let-json|check orders.jq --le
|check orders.jq --st
--workers|trial 1 5 --w
|trial 1 o
auto local|run orders.jq --mode =
local|run orders.jq --mode = l
auto|run --mode a
|run --workers o
users.jsonl|-e 1 u
--raw|-e 1 --r
--good|lines --g
users.jsonl|lines --all u
ROWS
  expect "for an empty word" "run parts check explain trial -e lines --build --program --help --version" "$(offered rumble '')"
  expect "for a text" "" "$(offered rumble -e 'o')"
  type groff > /dev/null 2>&1 || return 0
  expect "what is wrong with the manual page" "" "$(groff -man -ww -z "$repository/share/rumble.1" 2>&1)"
}

test_completion
