(: What each function takes: an argument of each kind, and a point where the function gives a value.
   Arguments are checked from left to right. :)
declare variable $names := ("()", "null", "true", "7", "-2.5", "a", "date", "time", "[]", "{}", "two");
declare variable $operands := [
  [], [null], [true], [7], [-2.5], ["a"],
  ["2024-02-29" cast as date], ["2024-02-29T00:00:00" cast as dateTime], [[]], [{}], [null, 7]
];
declare variable $date := "2024-02-28" cast as date;
declare variable $calls := (
  "string-length(x)", "string-to-codepoints(x)", "normalize-space(x)", "tokenize(x)",
  "contains(x, 'b')", "contains('b', x)", "starts-with(x, 'b')", "starts-with('b', x)",
  "ends-with(x, 'b')", "ends-with('b', x)", "substring-before(x, 'b')", "substring-before('b', x)",
  "substring-after(x, 'b')", "substring-after('b', x)", "translate(x, 'b', 'b')",
  "translate('b', x, 'b')", "translate('b', 'b', x)", "substring(x, 1)", "substring(x, 1, 1)",
  "string-join('b', x)", "parse-json(x)", "contains(x, null)", "substring(x, null)",
  "substring(x, 'b', null)", "translate('b', x, null)", "substring('b', x)", "substring('b', x, x)",
  "subsequence(1, x)", "subsequence(1, x, 1)", "subsequence(1, 1, x)", "insert-before(1, x, 2)",
  "remove(1, x)", "add-days(date, x)", "add-days((), x)", "subsequence(1, x, [])", "abs(x)",
  "floor(x)", "ceiling(x)", "round(x)", "round-half-to-even(x)", "year-from-date(x)",
  "month-from-date(x)", "day-from-date(x)", "add-days(x, 1)", "days-between(x, date)",
  "days-between(date, x)", "days-between(x, null)", "string(x)", "concat(x, 'b')", "concat('b', x)",
  "index-of(1, x)", "string-join(x)", "string-join(x, 'b')", "string-join(x, null)",
  "distinct-values(x)", "index-of(x, 1)", "index-of([], x)", "project(1, x)", "remove-keys(1, x)",
  "project(1, (x, []))", "remove-keys(1, (x, []))", "size(x)", "serialize(x)", "sum(x)", "avg(x)",
  "min(x)", "max(x)", "boolean(x)", "zero-or-one(x)", "one-or-more(x)", "exactly-one(x)", "count(x)",
  "empty(x)", "exists(x)", "head(x)", "tail(x)", "reverse(x)", "deep-equal(x, x)", "keys(x)",
  "values(x)", "members(x)", "flatten(x)", "descendant-objects(x)", "descendant-arrays(x)",
  "accumulate(x)"
);

declare function called($call, $x) {
  switch ($call)
    case "string-length(x)" return string-length($x)
    case "string-to-codepoints(x)" return string-to-codepoints($x)
    case "normalize-space(x)" return normalize-space($x)
    case "tokenize(x)" return tokenize($x)
    case "contains(x, 'b')" return contains($x, "b")
    case "contains('b', x)" return contains("b", $x)
    case "starts-with(x, 'b')" return starts-with($x, "b")
    case "starts-with('b', x)" return starts-with("b", $x)
    case "ends-with(x, 'b')" return ends-with($x, "b")
    case "ends-with('b', x)" return ends-with("b", $x)
    case "substring-before(x, 'b')" return substring-before($x, "b")
    case "substring-before('b', x)" return substring-before("b", $x)
    case "substring-after(x, 'b')" return substring-after($x, "b")
    case "substring-after('b', x)" return substring-after("b", $x)
    case "translate(x, 'b', 'b')" return translate($x, "b", "b")
    case "translate('b', x, 'b')" return translate("b", $x, "b")
    case "translate('b', 'b', x)" return translate("b", "b", $x)
    case "substring(x, 1)" return substring($x, 1)
    case "substring(x, 1, 1)" return substring($x, 1, 1)
    case "string-join('b', x)" return string-join("b", $x)
    case "parse-json(x)" return parse-json($x)
    case "contains(x, null)" return contains($x, null)
    case "substring(x, null)" return substring($x, null)
    case "substring(x, 'b', null)" return substring($x, "b", null)
    case "translate('b', x, null)" return translate("b", $x, null)
    case "substring('b', x)" return substring("b", $x)
    case "substring('b', x, x)" return substring("b", $x, $x)
    case "subsequence(1, x)" return subsequence(1, $x)
    case "subsequence(1, x, 1)" return subsequence(1, $x, 1)
    case "subsequence(1, 1, x)" return subsequence(1, 1, $x)
    case "insert-before(1, x, 2)" return insert-before(1, $x, 2)
    case "remove(1, x)" return remove(1, $x)
    case "add-days(date, x)" return add-days($date, $x)
    case "add-days((), x)" return add-days((), $x)
    case "subsequence(1, x, [])" return subsequence(1, $x, [])
    case "abs(x)" return abs($x)
    case "floor(x)" return floor($x)
    case "ceiling(x)" return ceiling($x)
    case "round(x)" return round($x)
    case "round-half-to-even(x)" return round-half-to-even($x)
    case "year-from-date(x)" return year-from-date($x)
    case "month-from-date(x)" return month-from-date($x)
    case "day-from-date(x)" return day-from-date($x)
    case "add-days(x, 1)" return add-days($x, 1)
    case "days-between(x, date)" return days-between($x, $date)
    case "days-between(date, x)" return days-between($date, $x)
    case "days-between(x, null)" return days-between($x, null)
    case "string(x)" return string($x)
    case "concat(x, 'b')" return concat($x, "b")
    case "concat('b', x)" return concat("b", $x)
    case "index-of(1, x)" return index-of(1, $x)
    case "string-join(x)" return string-join($x)
    case "string-join(x, 'b')" return string-join($x, "b")
    case "string-join(x, null)" return string-join($x, null)
    case "distinct-values(x)" return distinct-values($x)
    case "index-of(x, 1)" return index-of($x, 1)
    case "index-of([], x)" return index-of([], $x)
    case "project(1, x)" return project(1, $x)
    case "remove-keys(1, x)" return remove-keys(1, $x)
    case "project(1, (x, []))" return project(1, ($x, []))
    case "remove-keys(1, (x, []))" return remove-keys(1, ($x, []))
    case "size(x)" return size($x)
    case "serialize(x)" return serialize($x)
    case "sum(x)" return sum($x)
    case "avg(x)" return avg($x)
    case "min(x)" return min($x)
    case "max(x)" return max($x)
    case "boolean(x)" return boolean($x)
    case "zero-or-one(x)" return zero-or-one($x)
    case "one-or-more(x)" return one-or-more($x)
    case "exactly-one(x)" return exactly-one($x)
    case "count(x)" return count($x)
    case "empty(x)" return empty($x)
    case "exists(x)" return exists($x)
    case "head(x)" return head($x)
    case "tail(x)" return tail($x)
    case "reverse(x)" return reverse($x)
    case "deep-equal(x, x)" return deep-equal($x, $x)
    case "keys(x)" return keys($x)
    case "values(x)" return values($x)
    case "members(x)" return members($x)
    case "flatten(x)" return flatten($x)
    case "descendant-objects(x)" return descendant-objects($x)
    case "descendant-arrays(x)" return descendant-arrays($x)
    default return accumulate($x)
};

declare function cell($call, $x) {
  try { let $value := called($call, $x) return "." } catch * { $err:code }
};

declare function padded($text, $width) { substring($text || "                         ", 1, $width) };

declare function line($call, $cells) {
  padded($call, 25) || string-join($cells ! padded($$, 9))
};

line("", $names),
(for $call in $calls return line($call, for $operand in $operands[] return cell($call, $operand[])))
