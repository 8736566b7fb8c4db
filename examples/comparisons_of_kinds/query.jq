(: Comparisons with an operand of each kind on either side: what the six words say together, as an
   order where they say one, and what the signs "=" and "<" say. :)
declare variable $names := ("()", "null", "true", "7", "-2.5", "a", "date", "time", "[]", "{}", "two");
declare variable $operands := [
  [], [null], [true], [7], [-2.5], ["a"],
  ["2024-02-29" cast as date], ["2024-02-29T00:00:00" cast as dateTime], [[]], [{}], [null, 7]
];

declare function said($comparison, $a, $b) {
  switch ($comparison)
    case "eq" return $a eq $b
    case "ne" return $a ne $b
    case "lt" return $a lt $b
    case "le" return $a le $b
    case "gt" return $a gt $b
    case "ge" return $a ge $b
    case "=" return $a = $b
    default return $a < $b
};

declare function cell($comparison, $a, $b) {
  try {
    let $holds := said($comparison, $a, $b)
    return if (empty($holds)) then "()" else if ($holds) then "yes" else "no"
  } catch * { $err:code }
};

declare function together($a, $b) {
  let $cells := for $word in ("eq", "ne", "lt", "le", "gt", "ge") return cell($word, $a, $b)
  return switch (string-join($cells, " "))
    case "no yes yes yes no no" return "<"
    case "yes no no yes no yes" return "="
    case "no yes no no yes yes" return ">"
    default return string-join(distinct-values($cells), " ")
};

declare function padded($text, $width) { substring($text || "                         ", 1, $width) };

declare function line($words, $left, $cells) {
  padded($words, 7) || padded($left, 6) || string-join($cells ! padded($$, 9))
};

line("", "", $names),
(for $left at $i in $operands[]
 return line("words", $names[$i], for $right in $operands[] return together($left[], $right[]))),
(for $sign in ("=", "<"), $left at $i in $operands[]
 return line($sign, $names[$i], for $right in $operands[] return cell($sign, $left[], $right[])))
