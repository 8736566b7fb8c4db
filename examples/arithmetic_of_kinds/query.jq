(: Each operator of arithmetic, and the range, with an operand of each kind on either side; and both
   signs. A decimal has a "d" after it. :)
declare variable $names := ("()", "null", "true", "7", "-2.5", "a", "date", "time", "[]", "{}", "two");
declare variable $operands := [
  [], [null], [true], [7], [-2.5], ["a"],
  ["2024-02-29" cast as date], ["2024-02-29T00:00:00" cast as dateTime], [[]], [{}], [null, 7]
];

declare function applied($operator, $a, $b) {
  switch ($operator)
    case "+" return $a + $b
    case "-" return $a - $b
    case "*" return $a * $b
    case "div" return $a div $b
    case "idiv" return $a idiv $b
    case "mod" return $a mod $b
    case "to" return $a to $b
    case "+x" return +$b
    default return -$b
};

declare function cell($operator, $a, $b) {
  try {
    let $result := applied($operator, $a, $b)
    return typeswitch ($result)
      case empty-sequence() return "()"
      case integer return string($result)
      case decimal return $result || "d"
      default return "no number"
  } catch * { $err:code }
};

declare function padded($text, $width) { substring($text || "                         ", 1, $width) };

declare function line($operator, $left, $cells) {
  padded($operator, 5) || padded($left, 6) || string-join($cells ! padded($$, 11))
};

line("", "", $names),
(for $operator in ("+", "-", "*", "div", "idiv", "mod", "to"), $left at $i in $operands[]
 return line($operator, $names[$i], for $right in $operands[] return cell($operator, $left[], $right[]))),
(for $sign in ("+x", "-x")
 return line($sign, "", for $operand in $operands[] return cell($sign, (), $operand[])))
