# Reads the tokens of a query, and says what may have been meant by the one at `line` and `column`,
# where the error `code` is.

function hint(words) {
  print "hint: " words
  done = 1
  exit
}

BEGIN {
  FS = "\t"
  meant["upper-case"] = meant["lower-case"] = meant["ascii_downcase"] = meant["ascii_upcase"] \
    = "translate($text, \"abc\", \"ABC\") puts other letters in the place of some"
  meant["replace"] = meant["sub"] = meant["gsub"] \
    = "there are no patterns: translate changes single characters; docs/USING.md has a function for texts"
  meant["matches"] = meant["test"] = "there are no patterns: contains, starts-with and ends-with look for a text"
  meant["split"] = "tokenize($text) splits at blanks; docs/USING.md has a function for other marks"
  meant["tokenize"] = "tokenize has one argument, and splits at blanks"
  meant["length"] = "count(..) is of items, size(..) of an array, string-length(..) of a text"
  meant["select"] = meant["filter"] = "a predicate chooses: json-lines(\"NAME\")[$$.key eq 1]"
  meant["map"] = "f ! g hands each item of f on to g, as $$"
  meant["group_by"] = "in a FLWOR: group by $key := $item.key"
  meant["sort"] = meant["sort_by"] = "in a FLWOR: order by $item.key"
  meant["unique"] = meant["unique_by"] = meant["distinct"] = "distinct-values(..) of single values; of others group by, and [1]"
  meant["has"] = "exists($item.key)"
  meant["not"] = "not is an operator: not $value"
  meant["add"] = "sum(..), or string-join(..) of texts"
  meant["tostring"] = "string(..) of a single value, serialize(..) of any item"
  meant["tonumber"] = meant["number"] = meant["integer"] = meant["decimal"] = "$text cast as decimal"
  meant["date"] = meant["dateTime"] = "\"2024-01-31\" cast as date"
  meant["to_entries"] = meant["entries"] = "for $key in keys($item) return {\"key\": $key, \"value\": $item.$key}"
  meant["first"] = "head(..), or [1]"
  meant["last"] = "$items[count($items)]"
  meant["position"] = "for $item at $n in .. numbers the items"
  meant["limit"] = "subsequence(.., 1, 3)"
  meant["range"] = "1 to 10"
  meant["concat"] = "concat has two arguments or more; string-join(..) has any number of items"
  meant["codepoints-to-string"] = "there is none: substring takes characters from a text"
  meant["json-doc"] = meant["json-file"] = meant["text-file"] = meant["csv-file"] = meant["parquet-file"] \
    = meant["collection"] = "json-lines(\"NAME\") reads a file of JSON Lines"
  meant["current-date"] = meant["current-dateTime"] = meant["now"] = "there is no clock: hand the date in by --let"
  meant["error"] = "error() has no arguments"
  meant["parse"] = meant["fromjson"] = "parse-json($text)"
  meant["tojson"] = "serialize($item)"

  said["'"] = "a string stands in double quotes"
  said["=="] = "eq compares two values"
  said["|"] = "f ! g hands each item of f on to g, and a comma puts values after one another"
  said["desc"] = "it is written descending"
  said["asc"] = "it is written ascending"
  said["&"] = "and joins conditions"
  said["!"] = "not $value turns a truth value round; != compares"
  said["%"] = "the rest of a division is mod"
  said["/"] = "div divides, and idiv gives a whole number"
  said["\\"] = said["/"]
  said["."] = "a look-up stands after a value: $item.key, or $$.key in a predicate and after !"
}

{ token[NR] = $3; place[NR] = $1 ":" $2 }
$3 == "then" && !here { open++ }
$3 == "else" && !here { open-- }
$1 == line && $2 == column { here = NR; is_open = open - ($3 == "then") + ($3 == "else") }

END {
  if (done) exit
  if (!here) {
    if (code == "XPST0003" && open > 0) hint("if (..) then .. has an else: else ()")
    exit
  }
  what = token[here]
  before = token[here - 1]
  if (code == "XPST0017" && what in meant) hint(meant[what])
  if (code == "XPTY0004" && what ~ /^(eq|ne|lt|le|gt|ge|=|!=|<|<=|>|>=|\+|-|\*|div|idiv|mod)$/)
    hint("where one side is a number and the other a text, string(..) makes a text, and cast as decimal a number")
  if (code != "XPST0003") exit
  if (what == "=" && (before == "=" || token[here + 1] == "=")) hint(said["=="])
  if (what == "=" && before ~ /^\$/) hint("let and declare variable have :=")
  if (what ~ /^[A-Za-z_]/ && before ~ /^(for|let|some|every|at|count|variable)$/) hint("the name of a variable begins with $: $" what)
  if (what in said) hint(said[what])
  if (is_open > 0) hint("if (..) then .. has an else: else ()")
  if (what ~ /^"/) hint("the string is not closed, or has a line end, or an escape that JSON does not have")
}
