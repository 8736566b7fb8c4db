(: Two operands of each kind put together as texts. :)
declare variable $names := ("()", "null", "true", "7", "-2.5", "a", "date", "time", "[]", "{}", "two");
declare variable $operands := [
  [], [null], [true], [7], [-2.5], ["a"],
  ["2024-02-29" cast as date], ["2024-02-29T00:00:00" cast as dateTime], [[]], [{}], [null, 7]
];

declare function cell($a, $b) {
  try { "|" || ($a || $b) || "|" } catch * { $err:code }
};

for $left at $i in $operands[]
return $names[$i] || ": " || string-join(for $right in $operands[] return cell($left[], $right[]), " ")
